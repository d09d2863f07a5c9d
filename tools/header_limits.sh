#!/bin/sh
# header_limits.sh: a C file that compiles only if the limits in include/cyrs.h are those of the code and of the definitions, which it
# looks up; and only if each refusal of README's table has its number in the header.
# Exit status 1: a limit, or a refusal, is not to be found where it was.
set -eu
cd "$(dirname "$0")/.."
same() { # HEADER NAME FILE: the header's limit is what NAME is in FILE, a constant of the code or a number of the definitions
  number=$(sed -n -e "s/^\(pub \)\{0,1\}const $2: [a-z0-9]* = \([0-9]*\);.*/\2/p" -e "s/^$2 = \([0-9]*\)\$/\1/p" "crates/$3")
  [ -n "$number" ] || { echo "crates/$3 has no number $2" >&2; exit 1; }
  echo "typedef char $1_is_$2[CYRS_$1 == ${number}U ? 1 : -1];"
}
echo '#include "cyrs.h"'
same SHEET_LIMIT SHEET_LIMIT semantics/src/lib.rt
same WORK_SIZE WORK_SIZE semantics/src/lib.rt
same UNIFY_OUTPUT UNIFY_OUTPUT semantics/src/lib.rt
same REGULAR_OUTPUT OLD_OUTPUT old/src/call.rt
same NAME_LIMIT NAME_LIMIT semantics/src/lib.rt
same COUNT_LIMIT COUNT_LIMIT semantics/src/lib.rt
same DEPTH_LIMIT DEPTH_LIMIT semantics/src/lib.rt
same TYPE_LIMIT TYPE_LIMIT semantics/src/lib.rt
same NESTING_LIMIT NESTING_LIMIT semantics/src/lib.rt
same OLD_LIMIT old_limit old_lines/specs/Old.antt
same STORE_SIZE STORE_SIZE catalogue/src/layout.rt
same STORE_ROOM room_limit stores/specs/Catalogue.antt
same STORE_NUMBERS number_limit stores/specs/Catalogue.antt
same STORE_USES uses_limit stores/specs/Catalogue.antt
numbers() { sort -nu | tr '\n' ' '; }
told=$(sed -n '/^## Refusals/,/^## A /s/^| \([0-9][0-9]*\) |.*/\1/p' README.md | numbers)
named=$(sed -n 's/^ *CYRS_REFUSED_[A-Z_]* = \([0-9]*\),\{0,1\}$/\1/p' include/cyrs.h | numbers)
[ "$told" = "$named" ] || { echo "README has the refusals $told, include/cyrs.h $named" >&2; exit 1; }

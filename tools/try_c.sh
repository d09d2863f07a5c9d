#!/bin/sh
# try_c.sh: the library from C: the header by itself, its limits, each call, the stack that they take, and examples/c/typesheet.c on
# README's sheet. Needs crates/cyrs/out/libcyrs.a (tools/archive.sh).
# Exit status 0: as expected, or there is no C compiler, which it says; 1: a difference, which it names; 2: there is no library.
set -eu
cd "$(dirname "$0")/.."
library=crates/cyrs/out/libcyrs.a
c=${CC:-cc}
cpp=${CXX:-c++}
there() { command -v "$1" >/dev/null 2>&1; }
there "$c" || { echo "no C compiler here: the library is not tried from C"; exit 0; }
[ -f "$library" ] || { echo "$library is missing: tools/archive.sh makes it" >&2; exit 2; }
room=$(mktemp -d)
trap 'rm -rf "$room"' EXIT

strict='-Wall -Wextra -pedantic -Werror -I include'
build() { # SOURCE PROGRAM OPTIONS..
  source=$1
  program=$2
  shift 2
  # shellcheck disable=SC2086
  "$c" -std=c99 $strict "$source" "$library" -o "$room/$program" "$@"
}
tools/header_limits.sh >"$room/limits.c"
# shellcheck disable=SC2086
"$c" -std=c99 $strict -c "$room/limits.c" -o "$room/limits.o"
if there "$cpp"; then
  # shellcheck disable=SC2086
  "$cpp" -x c++ $strict -c "$room/limits.c" -o "$room/limits.o"
else
  echo "no C++ compiler here: the header is not tried with it"
fi
build tools/c/calls.c calls
"$room/calls"
build tools/c/stack.c stack -pthread
"$room/stack"
build examples/c/typesheet.c typesheet

# The first and second block of README's section, and the program on them.
block() { awk -v want="$1" '/^## /{here = $0 == "## A sheet and its report"} here && /^```/{n++; next} here && n == 2 * want - 1' README.md; }
block 1 >"$room/sheet"
block 2 >"$room/report"
[ -s "$room/sheet" ] && [ -s "$room/report" ] || { echo "README.md has no sheet and report" >&2; exit 1; }
calls=0
expect() { # STATUS FILE WORDS..: the program, with the file `given` as its input, ends so and prints that
  status=$1
  text=$2
  shift 2
  "$room/typesheet" "$@" <"$room/given" >"$room/printed" 2>"$room/said" && got=0 || got=$?
  calls=$((calls + 1))
  [ "$got" -eq "$status" ] && cmp "$room/printed" "$room/$text" || { echo "typesheet.c, call $calls: status $got, not $status, or another text"; exit 1; }
}
: >"$room/nothing"
cp "$room/sheet" "$room/given"
expect 0 report
expect 2 nothing "$room/sheet" more
expect 2 nothing "$room/absent"
expect 2 nothing "$room"
cp "$room/nothing" "$room/given"
expect 0 report "$room/sheet"
echo 'refused,3,1' >"$room/empty"
expect 1 empty
sed 's/^bool,1$/bool,2/' "$room/sheet" >"$room/given"
echo 'refused,4,7' >"$room/range"
expect 1 range
head -c 65535 /dev/zero | tr '\0' a >"$room/given"
expect 1 empty
echo a >>"$room/given"
echo 'refused,1,0' >"$room/long"
expect 1 long
# What README shows of the program are lines of it.
awk '/^```c$/{here = 1; next} /^```$/{here = 0} here && NF' README.md >"$room/shown"
[ -s "$room/shown" ] || { echo "README.md shows no C" >&2; exit 1; }
while IFS= read -r line; do
  grep -qFx -- "$line" examples/c/typesheet.c || { echo "README.md shows '$line', which examples/c/typesheet.c has not"; exit 1; }
done <"$room/shown"
echo "examples/c/typesheet.c: $calls calls as expected"

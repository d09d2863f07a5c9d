#!/bin/sh
# try_typestore.sh: runs crates/typestore/out/typestore on a file of its own, call by call, and compares what it prints and leaves.
# Exit status 0: as expected; 1: a difference, which it names; 2: there is no program to try.
set -eu
cd "$(dirname "$0")/.."
program=$PWD/crates/typestore/out/typestore
[ -x "$program" ] || { echo "crates/typestore/out/typestore is missing: rt run in crates/typestore makes it" >&2; exit 2; }
room=$(mktemp -d)
trap 'rm -rf "$room"' EXIT
cd "$room"
calls=0
expect() { # TEXT WORDS..: the call prints the text
  text=$1
  shift
  got=$("$program" "$@" 2>said) || true
  calls=$((calls + 1))
  [ "$got" = "$text" ] || { echo "typestore $*: '$got', not '$text'"; exit 1; }
}
same() { cmp -s store kept || { echo "the call changed the file"; exit 1; }; }
left() { [ "$(ls)" = "$1" ] || { echo "files left: $(ls | tr '\n' ' ')"; exit 1; }; }

expect 'end,0,0' store list
expect 'refused,15,0' store show 1
expect 'refused,8,1' store enter D
left 'said'
expect 'entered,1,1' store enter 'D,'
[ "$(wc -c <store)" -eq 65536 ] || { echo "a store has 65536 bytes"; exit 1; }
expect 'entered,2,1' store enter 'J,D,'
expect 'entered,1,2' store enter 'D,'
expect 'live,1,2,D,' store show 1
cp store kept
expect 'refused,15,0' store release 3
expect 'refused,15,0' store release 0
expect 'refused,15,0' store show 18446744073709551616
expect 'refused,8,1' store enter "$(head -c 3000 /dev/zero | tr '\0' D)"
same
expect 'released,1,1' store release 1
expect 'released,1,0' store release 1
expect 'entered,3,1' store enter 'D,'
expect 'live,2,1,J,D,
live,3,1,D,
end,2,3' store list
# two writers: the second fails, and leaves all as it is
cp store kept
: >store.new
expect 'failed' store enter 'G,'
grep -q '^store.new: ' said || { echo "the failure names no file"; exit 1; }
same
rm store.new
# no catalogue: named, refused, left
printf 'x' | cat - kept >store
cp store kept
expect 'refused,2,0' store enter 'G,'
grep -q '^store: no catalogue' said || { echo "the refusal names no file"; exit 1; }
expect 'refused,2,0' store list
same
: >store
expect 'refused,2,0' store show 1
expect 'failed' . list
usage='usage: typestore FILE enter LINE | FILE release N | FILE show N | FILE list'
expect "$usage"
expect "$usage" store
expect "$usage" store enter
expect "$usage" store list more
expect "$usage" store add 'D,'
left 'kept
said
store'
echo "typestore: $calls calls as expected"

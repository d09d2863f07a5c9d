#!/bin/sh
# instructions.sh [WORDS]: the bench's table with instructions, on a machine that counts none itself.
# Runs each side of each family of `bench` under valgrind's callgrind, once with N turns and once with 2N, and takes the
# difference for one call; then measures the times and prints the one table (harness/README.md). With WORDS only the families
# whose names match that regular expression are counted. No part of the gate.
# Exit status 0: counted; 2: something needed is missing; else what failed.
set -eu
cd "$(dirname "$0")/.."
missing() { echo "$1" >&2; exit 2; }
command -v valgrind >/dev/null 2>&1 || missing "valgrind is missing: no instructions are counted"
command -v cargo >/dev/null 2>&1 || missing "cargo is missing: no instructions are counted"
[ -f crates/cyrs/out/libcyrs.a ] || missing "crates/cyrs/out/libcyrs.a is missing: tools/archive.sh makes it"
wanted=${1:-.}
export CYRS_LIB="$PWD/crates/cyrs/out/libcyrs.a"
cd harness
cargo build --release --offline --quiet
program=${CARGO_TARGET_DIR:-target}/release/cyrs-harness
# The C library clears and copies long buffers by one repeated instruction, which callgrind counts once for each byte; a loop over
# vectors is nearer to what the machine does.
export GLIBC_TUNABLES=glibc.cpu.x86_rep_stosb_threshold=1000000000:glibc.cpu.x86_rep_movsb_threshold=1000000000
room=$(mktemp -d)
trap 'rm -rf "$room"' EXIT

run() { # FAMILY SIDE TURNS: prints the instructions of the whole run, and how many calls it made
  valgrind --tool=callgrind --callgrind-out-file=/dev/null "$program" bench one "$@" >"$room/calls" 2>"$room/said" ||
    { cat "$room/said" >&2; exit 1; }
  collected=$(sed -n 's/^.*Collected : \([0-9]*\).*$/\1/p' "$room/said")
  [ -n "$collected" ] || { echo "callgrind said no count:" >&2; cat "$room/said" >&2; exit 1; }
  echo "$collected $(cat "$room/calls")"
}

"$program" bench list >"$room/list"
while read -r family side turns; do
  echo "$family" | grep -Eq "$wanted" || continue
  once=$(run "$family" "$side" "$turns")
  twice=$(run "$family" "$side" $((2 * turns)))
  echo "$family $side $once $twice" | awk '{ printf "%s %s %.1f\n", $1, $2, ($5 - $3) / ($6 - $4) }' >>"$room/counts"
  echo "counted: $(tail -n 1 "$room/counts")" >&2
done <"$room/list"
[ -s "$room/counts" ] || missing "no family matches $wanted"
unset GLIBC_TUNABLES
"$program" bench counts "$room/counts"

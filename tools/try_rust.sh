#!/bin/sh
# try_rust.sh: the library from Rust: the tests of bindings/rust, then the harness' own and its comparison with the Rust reference.
# Needs crates/cyrs/out/libcyrs.a (tools/archive.sh).
# Exit status 0: as expected, or there is no cargo, which it says; 2: there is no library; else what cargo ends with.
set -eu
cd "$(dirname "$0")/.."
command -v cargo >/dev/null 2>&1 || { echo "no cargo here: the library is neither tried from Rust nor compared with the reference"; exit 0; }
CYRS_LIB=$PWD/crates/cyrs/out/libcyrs.a
export CYRS_LIB
[ -f "$CYRS_LIB" ] || { echo "crates/cyrs/out/libcyrs.a is missing: tools/archive.sh makes it" >&2; exit 2; }
(cd bindings/rust && cargo test --offline --quiet)
cd harness
cargo test --release --offline --quiet
cargo run --release --offline --quiet -- quick

#!/bin/sh
# archive.sh: makes the static library crates/cyrs/out/libcyrs.a, the exports of crates/cyrs_c, from what is proved.
# In a checkout where a whole `rt ci` has just passed and nothing else has worked, the libraries that it proved stand in
# crates/*/out/rlib: cyrs_c is checked and compiled over these, with the words that rt gives the compiler. Else `rt lib` in crates/cyrs_c
# does it, which proves what has changed first.
set -eu
cd "$(dirname "$0")/.."
by_rt() {
  (cd crates/cyrs_c && rt lib)
  mkdir -p crates/cyrs/out
  cp crates/cyrs_c/out/libcyrs_c.a crates/cyrs/out/libcyrs.a
}
over_proved() {
  kit=$(dirname "$(rt doc)")
  set -- --extern "std=$kit/rlibs/std.rlib" -L "dependency=$kit/rlibs"
  for crate in $(sed -n 's/^cyrs_c staticlib: *//p' crates.txt); do
    set -- "$@" --extern "$crate=crates/$crate/out/rlib/$crate.rlib"
  done
  for folder in crates/*/out/rlib; do
    set -- "$@" -L "dependency=$folder"
  done
  mkdir -p crates/cyrs/out
  "$kit/bin/rattle" build --crate-name cyrs_c --crate-type staticlib crates/cyrs_c/src/lib.rt "$@" \
    --antt-project "$kit/rattle/logic/antt-project.json" --logic-built "$kit/logic_built" --links cyrs_c= \
    --toolchain "$kit/toolchain" --backend llvm -o crates/cyrs/out/libcyrs.a
}
# What `rt check` keeps in a folder: then the libraries there are its own, and may be older than the files.
if ls -d crates/*/out/incremental >/dev/null 2>&1; then
  by_rt
else
  over_proved || by_rt
fi

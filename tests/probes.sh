#!/bin/sh
# The proved crates below the machine against independent Rust versions of document 01, on millions of inputs. With --speed they are timed
# instead; a number is another seed.
set -eu
cd "$(dirname "$0")/.."
mkdir -p target/host
tests/native probes
for program in leaves records dealing; do
  rustc --edition 2021 -O -D warnings "host/$program.rs" -L target/native -l static=probes -o "target/host/$program"
  "target/host/$program" "$@"
done

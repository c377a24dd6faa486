#!/bin/sh
# The proved listing against the model's, on states of random histories and on others.
set -eu
cd "$(dirname "$0")/.."
tests/native probes
ARCHIVES=$PWD/target/native
export ARCHIVES
cd differential
cargo build --release --offline --quiet -p listing
../target/differential/release/listing 20000 20000 1

#!/bin/sh
# The proved replay and tape check, by the program `many`: the stored answers, then the model's on random, damaged and arbitrary tapes and on
# the tapes of demand 3's simulation.
set -eu
cd "$(dirname "$0")/.."
tests/built many
cd differential
built=../target/differential/release
many="../tests/program many"
log=../target/differential/replay.log

cargo build --release --offline --quiet -p compare
$built/compare stored $many
$built/compare plug 300 20 2000 1 $many >"$log" || { cat "$log"; exit 1; }
grep ' disagreements$' "$log"
$built/compare demand 300 1 $many

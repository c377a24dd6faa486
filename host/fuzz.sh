#!/bin/sh
# Fuzzes the C entries (host/fuzz.c) for so many seconds on two processors: host/fuzz.sh SECONDS [SLIP]. It needs clang with libFuzzer.
#
# The tapes and answer-buffer sizes are libFuzzer's, from the stored tapes on; the model judges every answer. What guides it is the coverage
# of the model, which is built with counters and says of each tape what the entries must say: the archive itself has none. Each process
# talks to the entries in a program of their own, whose C side is built with the address and undefined-behaviour sanitizers and which links
# the archive. With the name of a slip of differential/spoils.txt, this one is put into the copy of the model that judges, and must be found.
set -eu
cd "$(dirname "$0")/.."
seconds=$1
slip=${2:-}
command -v clang >/dev/null || { echo "fuzz: there is no clang here"; exit 1; }
. tests/c
compile entries -g -fsanitize=address,undefined -fno-sanitize-recover=all

fuzz=$PWD/target/fuzz
rm -rf "$fuzz/source"
mkdir -p "$fuzz/source" "$fuzz/seeds" "$fuzz/found${slip:+-spoiled}" "$fuzz/logs"
for part in Cargo.toml Cargo.lock model linked compare listing; do cp -r "differential/$part" "$fuzz/source"; done
if [ -n "$slip" ]; then
  python3 - "$fuzz/source/model/src" <<PLANT
import re, sys
spoil = re.search(r'name: $slip\n.*?file: (.+?)\nold: (.+?)\nnew: (.*?)\n', open('differential/spoils.txt').read(), re.S)
path = sys.argv[1] + '/' + spoil.group(1)
text = open(path).read()
assert text.count(spoil.group(2)) == 1
open(path, 'w').write(text.replace(spoil.group(2), spoil.group(3)))
PLANT
fi
counters='-Cpasses=sancov-module -Cllvm-args=-sanitizer-coverage-level=4 -Cllvm-args=-sanitizer-coverage-inline-8bit-counters'
counters="$counters -Cllvm-args=-sanitizer-coverage-pc-table -Cllvm-args=-sanitizer-coverage-trace-compares -Ccodegen-units=1"
export CARGO_TARGET_DIR="$fuzz/built${slip:+-spoiled}"
(cd "$fuzz/source" && RUSTFLAGS="$counters" cargo build --release --offline --quiet -p linked)
clang -std=c99 -O1 -g -Wall -Wextra -Wpedantic -Werror -fsanitize=fuzzer host/fuzz.c "$CARGO_TARGET_DIR/release/liblinked.a" \
  -lpthread -ldl -lm -o "$fuzz/fuzz${slip:+-spoiled}"

for tape in differential/stored/*.tape; do
  # the largest answer buffer, then the tape
  { printf '\377\377'; cat "$tape"; } >"$fuzz/seeds/$(basename "$tape" .tape)"
done
cd "$fuzz/logs"
rm -f fuzz-*.log
status=0
ENTRIES="$fuzz/../host/entries" "$fuzz/fuzz${slip:+-spoiled}" -jobs=2 -workers=2 -max_total_time="$seconds" -max_len=8192 \
  -timeout=60 -print_final_stats=1 -artifact_prefix="$fuzz/logs/" "$fuzz/found${slip:+-spoiled}" "$fuzz/seeds" >jobs.out 2>&1 || status=$?
grep -hE '^fuzz: |DONE +cov:' fuzz-*.log || true
if [ -n "$slip" ]; then
  [ $status -ne 0 ] && grep -q '^fuzz: .*differ' fuzz-*.log || { echo "fuzz: the slip $slip wasn't found"; exit 1; }
  echo "fuzz: the slip $slip was found"
elif [ $status -ne 0 ]; then
  echo "fuzz: something was found: $fuzz/logs"
  exit 1
else
  echo "fuzz: nothing was found"
fi

#!/bin/sh
# The pictures of every stored tape and of random ones, read back and held to the tapes and the answer bytes; docs/race.svg is as the
# program draws it: tests/picture.sh [TAPES] [SEED].
set -eu
cd "$(dirname "$0")/.."
work=target/picture
rm -rf "$work"
mkdir -p "$work/stored" "$work/tapes" "$work/random"
tests/built picture
(cd differential && cargo build --release --offline -p compare >"../$work/log" 2>&1) || { cat "$work/log"; exit 1; }

# The stored tapes noroom-* are answered into too short a buffer; the picture has room for every answer.
for tape in differential/stored/*.tape; do
  name=$(basename "$tape" .tape)
  case $name in noroom-*) continue ;; esac
  tests/program picture <"$tape" >"$work/stored/$name.svg"
done
cmp "$work/stored/race.svg" docs/race.svg

target/differential/release/compare tapes "${1:-100}" "${2:-1}" "$work/tapes"
for tape in "$work"/tapes/*.tape; do
  tests/program picture <"$tape" >"$work/random/$(basename "$tape" .tape).svg"
done
python3 -B tests/picture.py "$work/stored" differential/stored "$work/random" "$work/tapes"

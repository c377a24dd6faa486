#!/bin/sh
# The stories of every stored tape and of random ones, read back and held to the answer bytes: tests/story.sh [TAPES] [SEED].
set -eu
cd "$(dirname "$0")/.."
work=target/story
rm -rf "$work"
mkdir -p "$work/stored" "$work/tapes" "$work/random"
tests/built story
(cd differential && cargo build --release --offline -p compare >"../$work/log" 2>&1) || { cat "$work/log"; exit 1; }

# The stored tapes noroom-* are answered into too short a buffer; the story has room for every answer.
for tape in differential/stored/*.tape; do
  name=$(basename "$tape" .tape)
  case $name in noroom-*) continue ;; esac
  tests/program story <"$tape" >"$work/stored/$name.story"
done
python3 tests/story.py "$work/stored" differential/stored

target/differential/release/compare tapes "${1:-100}" "${2:-1}" "$work/tapes"
for tape in "$work"/tapes/*.tape; do
  tests/program story <"$tape" >"$work/random/$(basename "$tape" .tape).story"
done
python3 tests/story.py "$work/random" "$work/tapes"

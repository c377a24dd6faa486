#!/bin/sh
# The program `many` on inputs that it doesn't take: what came before them is answered, and they are told in words. What
# it answers to tapes is compared by tests/replay.sh.
set -eu
cd "$(dirname "$0")/.."
tests/built many
work=$(mktemp -d)
trap 'rm -rf "$work"' EXIT

# A whole tape, then bytes as printf has them: the tape is answered, the words are said, and the exit status is 1.
says() {
  { printf '\0\0\0\0\0\0\0\0\0\0\0\0\0\0\0\0'; printf "$2"; } >"$work/input"
  code=0
  tests/program many <"$work/input" >"$work/said" 2>"$work/words" || code=$?
  if [ "$code" != 1 ] || [ "$(cat "$work/said")" != '1 0 0 0 1' ] || [ "$(cat "$work/words")" != "many: $1" ]; then
    echo "many: other answers, words or exit status: $1"
    exit 1
  fi
}

says 'the input ends before a tape' '\1\0\0\0\0\0\0\0\0'
says 'the input ends inside a tape' '\2\0\0\0\0\0\0\0\0\0\0\0\0\0\0\0\1'
says 'a tape of more than 65,536 bytes' '\1\0\1\0\0\0\0\0\0\0\0\0\0\0\0\0'
says 'a tape of more than 65,536 bytes' '\0\0\0\0\0\0\0\1\0\0\0\0\0\0\0\0'

# The longest tape that it takes: no configuration has length 0, so it is Cut.
{ printf '\0\0\1\0\0\0\0\0\0\0\0\0\0\0\0\0'; head -c 65536 /dev/zero; } | tests/program many >"$work/said"
if [ "$(cat "$work/said")" != '1 0 0 0 1' ]; then
  echo 'many: another answer to a tape of 65,536 bytes'
  exit 1
fi
echo "many: 4 inputs that it doesn't take are told"

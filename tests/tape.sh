#!/bin/sh
# The program `tape` on the example, the empty tape, each refusal and a tape that is too long. What it says is held to
# the stored results and answers.
set -eu
cd "$(dirname "$0")/.."
tests/built tape
stored=differential/stored
work=$(mktemp -d)
trap 'rm -rf "$work"' EXIT
count=0

fail() {
  echo "tape: $*"
  exit 1
}

# The five numbers of a stored tape, its answers, and before each answer the word for its first byte.
replayed() {
  tests/program tape <"$stored/$1.tape" >"$work/said" || fail "$1: exit status $?"
  read -r status place written calls check <"$stored/$1.result"
  printf '%-7s %s\n' status "$status" place "$place" written "$written" calls "$calls" check "$check" >"$work/numbers"
  head -n 5 "$work/said" | cmp -s - "$work/numbers" || fail "$1: other numbers"
  tail -n +6 "$work/said" >"$work/answers"
  cut -c 10- "$work/answers" | tr -d ' \n' >"$work/bytes"
  od -An -v -tx1 "$stored/$1.answers" | tr -d ' \n' | cmp -s - "$work/bytes" || fail "$1: other answers"
  awk 'BEGIN { split("waiting query timer attempt cancel succeeded failed full input", word) }
    $2 !~ /^0[0-8]$/ || $1 != word[substr($2, 2) + 1] { exit 1 }' "$work/answers" || fail "$1: another word before an answer"
  count=$((count + 1))
}

# A stored tape of which a whole line is said.
says() {
  replayed "$1"
  grep -qx "$2" "$work/said" || fail "$1: nowhere says '$2'"
}

says example 'failed    06 01'
says empty 'status  1'
replayed random-retries-1
replayed body-ech-512

says configuration-cut 'status  1'
says configuration-long-form 'status  2'
says configuration-port-65536 'status  3'
says configuration-name-empty 'status  4'
says configuration-alternatives-5 'status  5'
says configuration-trailing 'status  6'
says frame-cut-30 'status  1'
says frame-moment-over 'status  2'
says frame-length-4097 'status  3'

says frame-length-0 'input     08 01'
says body-kinds 'input     08 02'
says body-kinds 'input     08 03'
says body-label-64 'input     08 04'
says body-name-254 'input     08 05'
says frame-check-call-trailing 'input     08 06'
says input-unknown 'input     08 07'
says input-answered 'input     08 08'
says input-wrong-type 'input     08 09'
says input-refresh 'input     08 0a'
says input-ech-none 'input     08 0b'
says input-ended 'input     08 0c'

head -c 65536 /dev/zero | tests/program tape >"$work/said" || fail "65,536 bytes: exit status $?"
[ "$(head -n 1 "$work/said")" = 'status  1' ] || fail '65,536 bytes: another status'
code=0
head -c 65537 /dev/zero | tests/program tape >"$work/said" 2>"$work/words" || code=$?
[ "$code" = 1 ] || fail "65,537 bytes: exit status $code"
[ ! -s "$work/said" ] || fail '65,537 bytes: something is said of them'
[ "$(cat "$work/words")" = 'tape: more than 65,536 bytes' ] || fail '65,537 bytes: other words'
echo "tape: $count stored tapes as stored, and a tape that is too long is told"

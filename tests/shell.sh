#!/bin/sh
# The shell's side: the header, the C entries against the stored answers and the model, an installed copy, writable data, stack, threads.
# `tests/shell.sh HISTORIES DAMAGED ARBITRARY SEED` compares more tapes with the model (differential/README.md, `compare plug`); without
# these words, few of them. With SANITIZE=1 the C side but for stack.c is built with the address and undefined-behaviour sanitizers.
set -eu
cd "$(dirname "$0")/.."
scratch=$(mktemp -d)
trap 'rm -rf "$scratch"' EXIT

python3 tests/header.py
echo '#include "braidhatch.h"' >"$scratch/c.c"
cp "$scratch/c.c" "$scratch/cpp.cc"
for cc in cc clang; do
  if command -v $cc >/dev/null; then
    $cc -std=c99 -Wall -Wextra -Wpedantic -Werror -Iinclude -fsyntax-only "$scratch/c.c"
    echo "header: C99 by $cc"
  fi
done
for cxx in c++ clang++; do
  if command -v $cxx >/dev/null; then
    $cxx -Wall -Wextra -Wpedantic -Werror -Iinclude -fsyntax-only "$scratch/cpp.cc"
    echo "header: C++ by $cxx"
  fi
done

. tests/c
tests/sections "$archive"
sanitizers=${SANITIZE:+-g -fsanitize=address,undefined -fno-sanitize-recover=all}
for program in race entries; do compile $program $sanitizers; done
compile threads -pthread $sanitizers
compile stack -pthread
# Many programs are started, and the search for leaks at the end of each takes longer than all the rest.
ASAN_OPTIONS=detect_leaks=0
export ASAN_OPTIONS

compare=target/differential/release/compare
(cd differential && cargo build --release --offline --quiet -p compare)
amounts=$*
[ -n "$amounts" ] || amounts='20 2 1000 1'
quiet() {
  "$@" >>"$scratch/compared" || { cat "$scratch/compared"; exit 1; }
}
quiet $compare stored target/host/entries
quiet $compare plug $amounts target/host/entries
grep -E 'disagreements|^refusals' "$scratch/compared"
if ! grep -q '^refusals' "$scratch/compared" || grep -q '^refusals.*: 0\(,\|$\)' "$scratch/compared"; then
  echo "shell: not every refusal from 1 to 13 was given"
  exit 1
fi
$compare delays 100000 1 target/host/entries --delays

target/host/race differential/stored/example.tape >"$scratch/race"
diff tests/race.txt "$scratch/race"
echo "race: the example in words"
tests/installed

target/host/stack differential/stored/*.tape >"$scratch/stack" 2>"$scratch/falls" || { cat "$scratch/falls"; exit 1; }
most=$(sed -n 's/^#define BRAIDHATCH_STACK_SIZE \([0-9]*\)$/\1/p' include/braidhatch.h)
awk -v most="$most" '{ print "stack:", $1, $2, "bytes" } most < $2 || 524288 <= most { wide = 1 } END { exit wide }' "$scratch/stack"
target/host/threads 1 differential/stored/*.tape
echo "shell: passed"

#!/bin/sh
# The judge's short run: std only, no network, no packages, no original.
set -eu
cd "$(dirname "$0")"
built=../target/differential/release
# The harness's chatter is kept for a failure.
log=../target/differential/short.log
mkdir -p ../target/differential

quiet() {
    if ! "$@" >"$log" 2>&1; then
        cat "$log"
        echo "differential: failed: $*"
        exit 1
    fi
}

quiet cargo build --release --offline --workspace
quiet cargo test --release --offline --workspace
$built/compare stored
$built/compare stored $built/model --many
quiet $built/compare plug 100 25 1000 1 $built/model --many
tail -n +1 "$log" | grep -m 4 ' disagreements'
if $built/compare plug 50 10 100 1 $built/wrong >"$log" 2>&1; then
    echo "differential: the wrong program wasn't caught"
    exit 1
fi
echo "a program that is wrong on purpose: caught"
$built/compare demand 2000 1
echo "differential: short run passed"

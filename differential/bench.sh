#!/bin/sh
# Times the proved code against the original, races and listings, on one core where it can be chosen. No test: read the ratios.
# What it prints is kept in target/bench.txt for `make figures`.
set -eu
cd "$(dirname "$0")"

./install.sh
../tests/native probes
../tests/native braidhatch
ARCHIVES=$PWD/../target/native
export ARCHIVES
(cd oracle && cargo build --profile speed --offline --quiet -p bench)

pin=""
if command -v taskset >/dev/null; then
    core=$(taskset -cp $$ | sed 's/.*[^0-9]//')
    pin="taskset -c $core"
    echo "pinned to core $core"
fi
$pin ../target/oracle/speed/bench | tee ../target/bench.txt

#!/bin/sh
# The whole judge: run.sh [HISTORIES] [SEED]
set -eu
cd "$(dirname "$0")"
histories=${1:-100000}
seed=${2:-1}
built=../target/differential/release
judge=../target/oracle/release/judge
many=../target/native/many

./install.sh
./short.sh

echo "--- the proved program"
../tests/native many

echo "--- the proved listing, as an archive"
../tests/native probes
ARCHIVES=$PWD/../target/native
export ARCHIVES

echo "--- the original, from ${HAPPY_EYEBALLS_SRC:-../shared/docs/src}"
(cd oracle && cargo build --release --offline --quiet && cargo test --release --offline --quiet)

echo "--- stored answers made again: the same bytes"
rm -rf ../target/stored
./store.sh ../target/stored
diff -r stored ../target/stored

echo "--- the model against the original"
$judge run "$histories" "$seed"

echo "--- the whole listing: the original's, the model's and the proved one's"
$judge listing 100000 "$seed" >../target/differential/listing.log || { cat ../target/differential/listing.log; exit 1; }
cat ../target/differential/listing.log
if grep -q 'with the proved listing: 0$' ../target/differential/listing.log; then
    echo "differential: the proved listing wasn't compared"
    exit 1
fi

echo "--- the proved program: the stored answers"
$built/compare stored $many

echo "--- the proved program against the original"
$judge run "$histories" "$seed" $many

echo "--- the proved program against the model: random, damaged and arbitrary tapes"
$built/compare plug 2000 1000 20000 "$seed" $many

echo "--- demand 3 by simulation, its tapes replayed by the proved program"
$built/compare demand 20000 "$seed" $many

echo "--- the judge judged, by the original and by the proved program"
$judge spoils . all $many
echo "differential: passed"

#!/bin/sh
# Makes the stored answers again, and what is made of them; or, into another folder, the answers alone. They change only if the tapes, the
# model or document 01's reading do.
set -eu
cd "$(dirname "$0")"
./install.sh
(cd oracle && cargo build --release --offline --quiet)
folder=${1:-stored}
../target/oracle/release/judge store "$folder" sources.sha256
if [ "$folder" = stored ]; then
    ./input.sh
fi

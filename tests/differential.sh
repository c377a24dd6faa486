#!/bin/sh
# The judge's short run: the model against the stored answers, a program under test, demand 3 by simulation.
set -eu
cd "$(dirname "$0")/.."
differential/short.sh

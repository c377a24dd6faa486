#!/bin/sh
# The papers against the code: every name they give exists, and docs/RULES.md names every public promise. No build is needed.
set -eu
cd "$(dirname "$0")/.."
exec python3 tests/papers.py

#!/bin/sh
# Tries tools/explain on scripts with one mistake each: the line, the kind, and a sentence that a person can act on.
# It skips itself where Python is missing.
set -u
cd "$(dirname "$0")/.." || exit 1
python3 -c 'import sys; sys.exit(sys.version_info < (3, 8))' 2>/dev/null ||
    { echo "explain: skipped, no Python from 3.8 on"; exit 0; }
./blkcrypt serial <examples/empty.txt >/dev/null || { echo "explain: the program doesn't run"; exit 1; }
exec python3 -B checks/explain_cases.py

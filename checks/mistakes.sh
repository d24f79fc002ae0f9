#!/bin/sh
# Makes the ten most likely mistakes of a newcomer. Each has to end with its status and a sentence that says what to do: from
# the launcher, from the program on a terminal, or from tools/explain. It skips itself where Python is missing.
set -u
cd "$(dirname "$0")/.." || exit 1
python3 -c 'import sys; sys.exit(sys.version_info < (3, 8))' 2>/dev/null ||
    { echo "mistakes: skipped, no Python from 3.8 on"; exit 0; }
./blkcrypt serial <examples/empty.txt >/dev/null || { echo "mistakes: the program doesn't run"; exit 1; }
exec python3 -B checks/mistakes.py

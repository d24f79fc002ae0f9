#!/bin/sh
# Runs the program on texts of a few lines, by the rules of docs/SCRIPT.md: those that are no script must be refused with their
# line and kind and without a report, the others accepted. It skips itself where Python is missing.
set -u
cd "$(dirname "$0")/.." || exit 1
python3 -c 'import sys; sys.exit(sys.version_info < (3, 8))' 2>/dev/null ||
    { echo "script_lines: skipped, no Python from 3.8 on"; exit 0; }

# One run, which builds the program where it isn't built. The hundreds of runs after it are of the program itself, since the
# launcher looks through all sources each time.
./blkcrypt serial <examples/empty.txt >/dev/null || { echo "script_lines: the program doesn't run"; exit 1; }
exec python3 -B checks/script_lines.py crates/blkcrypt/out/blkcrypt

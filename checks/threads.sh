#!/bin/sh
# Gives the command `threads` scripts whose sections ask for the same few slots, blocks and shards, and judges each run by an
# independent judge of reports. It skips itself while the program has no such command, and where the tools are missing.
#
#     checks/threads.sh [HOW_MANY [SEED]]
set -u
cd "$(dirname "$0")/.." || exit 1
./blkcrypt --help | grep -q 'blkcrypt threads' || { echo "threads: skipped, the program has no threads yet"; exit 0; }
python3 -c 'import cryptography, sys; sys.exit(sys.version_info < (3, 10))' 2>/dev/null ||
    { echo "threads: skipped, no Python from 3.10 on with cryptography"; exit 0; }
# One run, which builds the program where it isn't built.
./blkcrypt threads <examples/empty.txt >/dev/null || { echo "threads: the program doesn't run"; exit 1; }
exec python3 -B checks/threads_cases.py crates/blkcrypt/out/blkcrypt "$@"

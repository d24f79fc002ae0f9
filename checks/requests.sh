#!/bin/sh
# Gives the commands `serial` and `threads` requests of 1, 64 and 4096 data units over two devices and three shards, with
# and without planned faults: each run must give the report and the image of an independent model. Then two sections have
# such requests at once, and each run is judged. It skips itself where the tools are missing.
#
#     checks/requests.sh [SEED [UNITS]]
set -u
cd "$(dirname "$0")/.." || exit 1
python3 -c 'import cryptography, sys; sys.exit(sys.version_info < (3, 10))' 2>/dev/null ||
    { echo "requests: skipped, no Python from 3.10 on with cryptography"; exit 0; }
# One run, which builds the program where it isn't built.
./blkcrypt threads <examples/empty.txt >/dev/null || { echo "requests: the program doesn't run"; exit 1; }
exec python3 -B checks/requests_cases.py crates/blkcrypt/out/blkcrypt "$@"

#!/bin/sh
# Compares runs of the program with an independent model of scripts, their errors, their run and their report: generated
# scripts, with and without devices, with and without a fault in them. It skips itself where the tools are missing.
set -u
cd "$(dirname "$0")/.." || exit 1
python3 -c 'import cryptography, sys; sys.exit(sys.version_info < (3, 10))' 2>/dev/null ||
    { echo "serial_model: skipped, no Python from 3.10 on with cryptography"; exit 0; }

# One run, which builds the program where it isn't built. Where it can't be run at all, the launcher has said why. The
# thousands of runs after it are of the program itself, since the launcher looks through all sources each time.
./blkcrypt serial <examples/empty.txt >/dev/null || { echo "serial_model: the program doesn't run"; exit 1; }
exec python3 -B checks/serial_model.py crates/blkcrypt/out/blkcrypt "$@"

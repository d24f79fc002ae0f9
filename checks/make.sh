#!/bin/sh
# Compares the line of `make N` with the digest that an independent model gives, for several N, numbers of slots and of
# shards, section after section and by threads, and twice. It skips itself where the tools are missing.
set -u
cd "$(dirname "$0")/.." || exit 1
python3 -c 'import cryptography, sys; sys.exit(sys.version_info < (3, 10))' 2>/dev/null ||
    { echo "make: skipped, no Python from 3.10 on with cryptography"; exit 0; }
# One run, which builds the program where it isn't built.
./blkcrypt make 1 >/dev/null || { echo "make: the program doesn't run"; exit 1; }
exec python3 -B checks/make_model.py crates/blkcrypt/out/blkcrypt

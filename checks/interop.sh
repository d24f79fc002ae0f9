#!/bin/sh
# Compares whole images with what dm-crypt's aes-xts-plain64 and aes-cbc-essiv:sha256 store, both ways, by another
# implementation (see docs/INTEROP.md). It skips itself where rt or Python's cryptography is missing.
set -u
cd "$(dirname "$0")/.." || exit 1
command -v rt >/dev/null 2>&1 || { echo "interop: skipped, no rt"; exit 0; }
python3 -c 'import cryptography' 2>/dev/null || { echo "interop: skipped, no cryptography for python3"; exit 0; }
scratch=$(mktemp -d)
trap 'rm -rf "$scratch"' EXIT
./blkcrypt serial <examples/empty.txt >/dev/null || { echo "interop: the program doesn't run"; exit 1; }
python3 checks/interop.py "$PWD/crates/blkcrypt/out/blkcrypt" "$scratch"

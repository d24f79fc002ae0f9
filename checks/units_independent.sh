#!/bin/sh
# Compares the unit ciphers with an independent implementation, Python's `cryptography`: random keys, numbers and texts,
# all four sizes, both modes, both directions, in digits and as raw bytes. Then each way in which bc_unit refuses has its
# status and its sentence. It skips itself where the tools are missing.
set -u
cd "$(dirname "$0")/.." || exit 1
python3 -c 'import cryptography' 2>/dev/null || { echo "units_independent: skipped, no Python with cryptography"; exit 0; }
program=crates/bc_unit/out/bc_unit
if command -v rt >/dev/null; then
    (cd crates/bc_unit && rt run -- --help) >/dev/null || exit 1
elif ! [ -x "$program" ]; then
    echo "units_independent: skipped, no rt and no program"
    exit 0
fi
# README's example, in both modes
for bytes in 64 16; do
    key=$(python3 -c "print(bytes(range($bytes)).hex())")
    text=$(printf '%-4096s' 'block 5 of inode 12' | "$program" encrypt "$key" c00000005 | python3 examples/decipher.py "$key" c00000005)
    [ "$text" = "$(printf '%-4096s' 'block 5 of inode 12')" ] || { echo "units_independent: another text comes back"; exit 1; }
done
exec python3 -B checks/units_independent.py "$program" "${1:-200}"

#!/bin/sh
# Builds the programs of examples/c and examples/rust over the static library, and compares what they make of random files
# with Python's `cryptography`, in both modes; then calls the library itself on random data units of each size, and on each
# call that it refuses. The program in C runs once under valgrind, where that is there. A part whose tool is missing is
# skipped.
set -u
cd "$(dirname "$0")/.." || exit 1
library=crates/bc_c/out/libbc_c.a
if command -v rt >/dev/null; then
    (cd crates/bc_c && rt lib) >/dev/null || { echo "library: the library isn't proved or built"; exit 1; }
elif ! [ -f "$library" ]; then
    echo "library: skipped, no rt and no library"
    exit 0
fi
scratch=$(mktemp -d) || exit 1
trap 'rm -rf "$scratch"' EXIT

fail() {
    echo "library: $1"
    exit 1
}

compiler=
for name in cc gcc clang; do
    command -v "$name" >/dev/null && { compiler=$name; break; }
done
if [ -n "$compiler" ]; then
    warnings="-std=c99 -Wall -Wextra -Wpedantic -Werror"
    # shellcheck disable=SC2086 # the warnings are words
    "$compiler" $warnings -O2 -I include examples/c/units.c "$library" -o "$scratch/c" || fail "examples/c isn't built"
    # shellcheck disable=SC2086
    "$compiler" $warnings -O2 -I include checks/library_calls.c "$library" -o "$scratch/calls" || fail "the calls aren't built"
    "$scratch/calls" || fail "a call of the library answers otherwise"
else
    echo "library: no compiler for C, its part is skipped"
fi
if command -v rustc >/dev/null; then
    rustc --edition 2021 -O -L "$(dirname "$library")" examples/rust/units.rs -o "$scratch/rust" || fail "examples/rust isn't built"
else
    echo "library: no compiler for Rust, its part is skipped"
fi

if python3 -c 'import cryptography' 2>/dev/null; then
    for name in c rust; do
        [ -x "$scratch/$name" ] || continue
        python3 -B checks/library_independent.py "$scratch/$name" "$scratch" || exit 1
    done
    [ -z "$compiler" ] || python3 -B checks/library_independent.py --calls "$scratch/calls" "${1:-200}" || exit 1
else
    echo "library: no Python with cryptography, nothing is compared with it"
fi

# one MiB under valgrind, one way and back
if [ -n "$compiler" ] && command -v valgrind >/dev/null; then
    head -c 64 /dev/urandom >"$scratch/key"
    head -c 1048576 /dev/urandom >"$scratch/text"
    valgrind -q --error-exitcode=9 --leak-check=full "$scratch/c" encrypt "$scratch/key" "$scratch/text" "$scratch/raw" || fail "valgrind finds a fault"
    valgrind -q --error-exitcode=9 --leak-check=full "$scratch/c" decrypt "$scratch/key" "$scratch/raw" "$scratch/back" || fail "valgrind finds a fault"
    cmp -s "$scratch/text" "$scratch/back" || fail "the text doesn't come back"
    cmp -s "$scratch/text" "$scratch/raw" && fail "nothing was enciphered"
    valgrind -q --error-exitcode=9 "$scratch/calls" || fail "valgrind finds a fault among the calls"
fi
echo "library: as expected"

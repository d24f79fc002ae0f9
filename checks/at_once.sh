#!/bin/sh
# Carries every script of examples/ out by `threads`, over one shard and over three, some times each, and has each run
# judged by the independent judge of reports, from the script, the image that is left and the report. A script of one
# section at most must give the report and the image that `serial` gives: over one shard that is examples/NAME.out. It
# skips itself where the tools are missing.
set -u
cd "$(dirname "$0")/.." || exit 1
python3 -c 'import cryptography, sys; sys.exit(sys.version_info < (3, 10))' 2>/dev/null ||
    { echo "at_once: skipped, no Python from 3.10 on with cryptography"; exit 0; }

# One run, which builds the program where it isn't built.
./blkcrypt threads <examples/empty.txt >/dev/null || { echo "at_once: the program doesn't run"; exit 1; }

scratch=$(mktemp -d) || exit 1
trap 'rm -rf "$scratch"' EXIT
report=$scratch/report
image=$scratch/image
said=$scratch/said
times=4
count=0

fail() {
    echo "at_once: $1"
    exit 1
}

# judged NAME SHARDS: one run by threads, which says nothing and is lawful
judged() {
    rm -f "$image"
    ./blkcrypt threads --shards "$2" --out "$image" <"examples/$1.txt" >"$report" 2>"$said" ||
        fail "$1, $2 shards: it ends with status $?"
    [ -s "$said" ] && fail "$1, $2 shards: it says on standard error: $(cat "$said")"
    python3 -B checks/judge.py --shards "$2" "examples/$1.txt" - "$image" "$report" >"$said" ||
        fail "$1, $2 shards: $(cat "$said")"
    count=$((count + 1))
}

# as_serial NAME SHARDS: that run gave the report and the image of one caller
as_serial() {
    ./blkcrypt serial --shards "$2" --out "$image.serial" <"examples/$1.txt" >"$report.serial" ||
        fail "$1, $2 shards: serial ends with status $?"
    diff "$report.serial" "$report" || fail "$1, $2 shards: another report than that of serial"
    cmp "$image.serial" "$image" || fail "$1, $2 shards: another image than that of serial"
    [ "$2" != 1 ] || diff "examples/$1.out" "$report" || fail "$1 prints another report"
}

for script in examples/*.txt; do
    name=$(basename "$script" .txt)
    sections=$(grep -c '^thread$' "$script")
    for shards in 1 3; do
        turn=0
        while [ "$turn" -lt "$times" ]; do
            judged "$name" "$shards"
            [ "$sections" -gt 1 ] || as_serial "$name" "$shards"
            turn=$((turn + 1))
        done
    done
done
echo "at_once: $count runs are lawful"

#!/bin/sh
# Drives the built program with images: of each wrong length, missing, unreadable, too long; puts that fail, and what they
# leave; links, permissions and what is no file; and the words that name them. A test of permissions is skipped for a user
# who may read everything, one of a small disk where none can be mounted.
set -u
cd "$(dirname "$0")/.." || exit 1
command -v rt >/dev/null 2>&1 || { echo "images: skipped, no rt"; exit 0; }
scratch=$(mktemp -d)
small=$scratch/small
trap 'umount "$small" 2>/dev/null; chmod -R u+rwx "$scratch"; rm -rf "$scratch"' EXIT
found=$scratch/found
said=$scratch/said
count=0
skipped=

./blkcrypt serial <examples/empty.txt >/dev/null || { echo "images: the program doesn't run"; exit 1; }
program=$PWD/crates/blkcrypt/out/blkcrypt
empty=$PWD/examples/empty.txt
first=$PWD/examples/first.txt
cd "$scratch" || exit 1

fail() {
    echo "images: $1"
    exit 1
}

# ends NAME STATUS WANTED LINE: the last run ended so, with this line on standard error and no report
ends() {
    [ "$2" = "$3" ] || fail "$1 ends with status $2, not $3: $(cat "$said")"
    [ "$(cat "$said")" = "blkcrypt: $4" ] || fail "$1 says: $(cat "$said")"
    [ -s "$found" ] && fail "$1 writes a report"
    count=$((count + 1))
}

# passes NAME STATUS: it wrote its report and nothing else
passes() {
    [ "$2" = 0 ] || fail "$1 ends with status $2: $(cat "$said")"
    [ -s "$said" ] && fail "$1 says: $(cat "$said")"
    [ "$(tail -n 1 "$found")" = end ] || fail "$1 writes no whole report"
    count=$((count + 1))
}

run() {
    "$program" serial "$@" >"$found" 2>"$said"
}

# Who may read and write everything runs the tests of permissions as another user.
other=
if [ "$(id -u)" = 0 ]; then
    other="setpriv --reuid=65534 --regid=65534 --clear-groups"
    chmod 755 "$scratch"
    cp "$program" "$scratch/copy"
    $other "$scratch/copy" serial <"$empty" >"$found" 2>"$said" || other=none
    [ "$other" = none ] && skipped="$skipped; no test of permissions, since this user may do all"
fi

# run_other WORD..: a run by a user who may not do everything
run_other() {
    if [ -n "$other" ]; then
        # shellcheck disable=SC2086
        $other "$scratch/copy" serial "$@" >"$found" 2>"$said"
    else
        run "$@"
    fi
}

# nothing_beside: no file is left beside those that the tests made
nothing_beside() {
    [ -z "$(find . -name '*.part*')" ] || fail "$1 leaves $(find . -name '*.part*')"
}

# ---- images of each length

truncate -s 4096 whole
truncate -s 4095 short
truncate -s 4097 long
truncate -s 3584 sector_less
truncate -s 67108864 most
truncate -s 67108865 more
: >nothing

run --image whole <"$empty"
passes "an image of the disk's length" $?
run --image short <"$empty"
ends "one byte too few" $? 6 "image has 4095 bytes, script asks for 4096"
run --image long <"$empty"
ends "one byte too many" $? 6 "image has 4097 bytes, script asks for 4096"
run --image sector_less <"$empty"
ends "a sector too few" $? 6 "image has 3584 bytes, script asks for 4096"
run --image nothing <"$empty"
ends "no byte" $? 6 "image has 0 bytes, script asks for 4096"
run --image most <"$empty"
ends "64 MiB for one block" $? 6 "image has 67108864 bytes, script asks for 4096"
run --image more <"$empty"
ends "64 MiB and a byte" $? 7 "input longer than 67108864 bytes"
run --image /dev/zero <"$empty"
ends "zeros without end" $? 7 "input longer than 67108864 bytes"
run --image absent <"$empty"
ends "a missing file" $? 10 "no such file"
run --image absent/x <"$empty"
ends "a file of a missing folder" $? 10 "no such file"
run --image= <"$empty"
ends "no name" $? 10 "no such file"
run --image . <"$empty"
ends "a folder in place of a file" $? 5 "folder failed"
run --image whole/x <"$empty"
ends "a file in place of a folder" $? 5 "folder failed"
if [ "$other" != none ]; then
    truncate -s 4096 closed
    chmod 000 closed
    run_other --image closed <"$empty"
    ends "a file that may not be read" $? 5 "folder failed"
fi

printf 'blkcrypt 1\ndisk 16384\nfallback on\nend\n' >large
run --image most --out left <large
passes "an image of 64 MiB" $?
cmp -s most left || fail "an image of 64 MiB isn't left as it was"
rm left

# ---- the order of the stages: the script first, then the image

run --image absent <nothing
ends "a script that is none, and no image" $? 2 "script line 1: end"
run --image absent <.
ends "a source that can't be read, and no image" $? 3 "reading failed"

# ---- putting

run --out new <"$first"
passes "a new file" $?
[ "$(wc -c <new)" = 4096 ] || fail "a new file has another length"
cmp -s -n 512 new whole && fail "a new file has the plain sector"
cp new before
run --image new --out new <"$first"
passes "the same file" $?
cmp -s new before || fail "the same writes leave another image"
ln -s new link
chmod 640 new
run --out link <"$empty"
passes "through a link" $?
[ -L link ] || fail "the link is gone"
cmp -s new whole || fail "through a link another file is put"
[ "$(stat -c %a new)" = 640 ] || fail "a file that is replaced gets other permissions"
: >new.part0
run --out new <"$first"
passes "where the name beside is taken" $?
if [ ! -e new.part0 ] || [ -s new.part0 ]; then fail "a file that stood beside was changed"; fi
rm new.part0
cp new before

run --out . <"$first"
ends "a folder in place of the file to put" $? 5 "folder failed"
run --out absent/x <"$first"
ends "a put into a missing folder" $? 5 "folder failed"
run --out= <"$first"
ends "a put under no name" $? 5 "folder failed"
if [ -c /dev/full ]; then
    run --out /dev/full <"$first"
    ends "a put into what is full" $? 5 "folder failed"
    [ -c /dev/full ] || fail "the device is gone"
    run --out /dev/null <"$first"
    passes "a put into what is no file" $?
    [ -c /dev/null ] || fail "the device is gone"
    : >"$found"
    "$program" serial --out late <"$first" 2>"$said" >/dev/full
    ends "a full standard output" $? 4 "writing failed"
    cmp -s late before || fail "a full standard output finds the image not put"
fi
if [ "$other" != none ]; then
    mkdir shut open
    cp before shut/old
    cp before open/old
    chmod 666 shut/old
    chmod 555 shut
    chmod 777 open
    chmod 444 open/old
    run_other --out shut/old <"$empty"
    ends "a folder that may not be written" $? 5 "folder failed"
    cmp -s before shut/old || fail "the old file was changed"
    run_other --out open/old <"$empty"
    ends "a file that may not be written" $? 5 "folder failed"
    cmp -s before open/old || fail "the file was changed"
    run_other --out shut/new <"$empty"
    ends "a new file in a folder that may not be written" $? 5 "folder failed"
fi
nothing_beside "a put"

# a disk with less room than the image: the old file stays whole
mkdir "$small"
if mount -t tmpfs -o size=1m none "$small" 2>/dev/null; then
    printf 'blkcrypt 1\ndisk 512\nfallback on\nend\n' >wide
    cp before "$small/old"
    run --out "$small/old" <wide
    ends "a full disk" $? 5 "folder failed"
    cmp -s before "$small/old" || fail "the old file was changed"
    [ "$(ls "$small")" = old ] || fail "a full disk keeps a part of the new file"
else
    skipped="$skipped; no small disk could be mounted"
fi

# ---- words

# refused WORD..: a bad command line, with files that would serve
refused() {
    "$program" "$@" <"$first" >"$found" 2>"$said"
    ends "$*" $? 1 "bad command line"
}
refused serial --shards 0
refused serial --shards 65
refused serial --shards -1
refused serial --shards ''
refused serial --shards two
refused serial --shards 18446744073709551617
refused serial --shards
refused serial --image
refused serial --image whole --image whole
refused serial --shards 2 --shards=2
refused serial --img whole
refused serial -i whole
refused serial whole
refused serial --help
refused serial --version
refused serial --helpers 1
refused --image whole serial
refused make
refused make 0
refused make 2049
refused make 1 1
refused make 1 --slots 33
refused make 1 --shards 65
refused make 1 --threads=1
refused make 1 --helpers 0
refused threads --shards 65
refused threads --helpers 0
refused threads whole
refused --version
for words in "--shards 2" "--shards=2" "--shards 02" "--shards=+2"; do
    # shellcheck disable=SC2086
    run $words <"$empty"
    passes "$words" $?
    [ "$(grep -c ^shard "$found")" = 2 ] || fail "$words gives another number of shards"
done
for words in "--shards 1" "--shards=01"; do
    # shellcheck disable=SC2086
    run $words <"$empty"
    passes "$words" $?
    cmp -s "$found" "${empty%.txt}.out" || fail "$words gives another report"
done
run --shards 64 <"$empty"
passes "64 shards" $?
[ "$(grep -c ^shard "$found")" = 64 ] || fail "64 shards are not 64"

echo "images: $count runs as expected$skipped"

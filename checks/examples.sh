#!/bin/sh
# Runs the program as a user does. Each examples/NAME.txt must print exactly examples/NAME.out. Then each way in which a
# run ends without a report must have its status and its one line on standard error, and nothing on standard output.
#
# The .out files follow from the rules of docs/SCRIPT.md: checks/script_model.py, which has nothing of the program in it,
# gives them. The program made none of them.
set -u
cd "$(dirname "$0")/.." || exit 1

# One run, which builds the program where it isn't built. Where it can't be run at all, the launcher has said why.
./blkcrypt serial <examples/empty.txt >/dev/null || { echo "examples: the program doesn't run"; exit 1; }

scratch=$(mktemp -d) || exit 1
trap 'rm -rf "$scratch"' EXIT
found=$scratch/found
said=$scratch/said
count=0

fail() {
    echo "examples: $1"
    exit 1
}

# example NAME: the script prints its report and says nothing else
example() {
    ./blkcrypt serial <"examples/$1.txt" >"$found" 2>"$said" || fail "$1 ends with status $?"
    diff "examples/$1.out" "$found" || fail "$1 prints another report"
    [ -s "$said" ] && fail "$1 says on standard error: $(cat "$said")"
    count=$((count + 1))
}

# ends NAME STATUS WANTED LINE: the run that left $found and $said ended with WANTED and said LINE
ends() {
    [ "$2" = "$3" ] || fail "$1 ends with status $2, not $3"
    [ "$(cat "$said")" = "blkcrypt: $4" ] || fail "$1 says: $(cat "$said")"
    [ "$(wc -l <"$said")" -eq 1 ] || fail "$1 says more than one line"
    [ -s "$found" ] && fail "$1 writes to standard output"
    count=$((count + 1))
}

for script in examples/*.txt; do
    example "$(basename "$script" .txt)"
done

# words that are no command: the program's own line
program=crates/blkcrypt/out/blkcrypt
"$program" <examples/first.txt >"$found" 2>"$said"
ends "no word" $? 1 "bad command line"
"$program" serial x <examples/first.txt >"$found" 2>"$said"
ends "a word too many" $? 1 "bad command line"
"$program" Serial <examples/first.txt >"$found" 2>"$said"
ends "another word" $? 1 "bad command line"
"$program" "serial " <examples/first.txt >"$found" 2>"$said"
ends "a word with a blank" $? 1 "bad command line"
"$program" "$(printf '\377')" <examples/first.txt >"$found" 2>"$said"
ends "a word that isn't UTF-8" $? 1 "bad command line"
"$program" --help <examples/first.txt >"$found" 2>"$said"
ends "help, of which the program knows nothing" $? 1 "bad command line"

# The launcher answers help itself, and shows the usage after the line of a bad command.
usage() {
    [ "$2" = "$3" ] || fail "$1 ends with status $2, not $3"
    grep -q '^usage: blkcrypt serial' "$4" || fail "$1 shows no usage"
    [ -s "$5" ] && fail "$1 writes where it should not"
    count=$((count + 1))
}
for word in -h --help help; do
    ./blkcrypt "$word" >"$found" 2>"$said"
    usage "the word $word" $? 0 "$found" "$said"
done
./blkcrypt >"$found" 2>"$said"
usage "the launcher without words" $? 1 "$said" "$found"
[ "$(head -n 1 "$said")" = "blkcrypt: bad command line" ] || fail "the launcher without words says: $(cat "$said")"
./blkcrypt cereal >"$found" 2>"$said"
usage "the launcher with another word" $? 1 "$said" "$found"
[ "$(./blkcrypt --version | head -n 1)" = "blkcrypt $(cat VERSION)" ] || fail "the version isn't that of VERSION"

# It works from any folder, and through a symbolic link.
mkdir "$scratch/bin"
ln -s "$PWD/blkcrypt" "$scratch/bin/blkcrypt"
first=$PWD/examples/first
(cd / && "$scratch/bin/blkcrypt" serial <"$first.txt") >"$found" 2>"$said" || fail "through a link it ends with status $?"
diff "$first.out" "$found" || fail "through a link it prints another report"
count=$((count + 1))

# broken NAME LINE KIND: the text in $broken is no script, as its line LINE fails the test KIND
broken=$scratch/broken
broken() {
    ./blkcrypt serial <"$broken" >"$found" 2>"$said"
    ends "$1" $? 2 "script line $2: $3"
}

# mistake NAME LINE KIND EDIT: the script plug.txt with an edit of sed
mistake() {
    sed "$4" examples/plug.txt >"$broken"
    broken "$1" "$2" "$3"
}

mistake "another version" 1 word '1s/1/2/'
mistake "a leading zero" 2 number '2s/1/01/'
mistake "a key of 63 bytes" 4 key '4s/..$//'
mistake "a key of half a byte more" 4 hex '4s/$/0/'
mistake "line ends of another system" 1 word 's/$/\r/'
mistake "a number without a key" 7 word '7s/ a / - /'
mistake "a name that isn't declared" 7 name '7s/ a / b /'
mistake "257 units" 8 number '8s/ 2 2 2 / 2 257 2 /'
mistake "a byte in upper case" 8 hex '8s/22$/2F/'
mistake "a plug that stays open" 12 order '10d'
{ cat examples/plug.txt; echo end; } >"$broken"
broken "a line after the end" 14 end
{ sed '$d' examples/sections.txt; yes thread | head -n 13; echo end; } >"$broken"
broken "section 17" 27 limit
printf '%s' "$(cat examples/empty.txt)" >"$broken"
broken "an end line without a line feed" 4 end
: >"$broken"
broken "an empty text" 1 end

# standard input that can't be read
./blkcrypt serial <. >"$found" 2>"$said"
ends "a directory as standard input" $? 3 "reading failed"
./blkcrypt serial <&- >"$found" 2>"$said"
ends "a closed standard input" $? 3 "reading failed"

# standard output that can't be written
: >"$found"
./blkcrypt serial <examples/first.txt 2>"$said" >&-
ends "a closed standard output" $? 4 "writing failed"
if [ -c /dev/full ]; then
    ./blkcrypt serial <examples/first.txt 2>"$said" >/dev/full
    ends "a full standard output" $? 4 "writing failed"
fi

# the longest text that is read, and one byte more
head -c 16777216 /dev/zero | ./blkcrypt serial >"$found" 2>"$said"
ends "a text of 16777216 bytes" $? 2 "script line 1: end"
head -c 16777217 /dev/zero | ./blkcrypt serial >"$found" 2>"$said"
ends "a text of 16777217 bytes" $? 7 "input longer than 16777216 bytes"

# a disk of 64 MiB where a process gets less
printf 'blkcrypt 1\ndisk 16384\nfallback on\nend\n' >"$scratch/large"
if command -v prlimit >/dev/null 2>&1; then
    prlimit --as=61440000 ./blkcrypt serial <"$scratch/large" >"$found" 2>"$said"
    ends "a disk larger than memory" $? 9 "no memory"
fi

echo "examples: $count runs as expected"

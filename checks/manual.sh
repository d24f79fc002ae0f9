#!/bin/sh
# Looks through the manual page with mandoc and with groff, whichever is there, and compares its options and statuses with what
# the launcher's help has. It skips what is missing.
set -u
cd "$(dirname "$0")/.." || exit 1
page=docs/blkcrypt.1
with=
fail() {
    echo "manual: $1"
    exit 1
}
if command -v mandoc >/dev/null 2>&1; then
    said=$(mandoc -T lint -W warning "$page") || fail "$said"
    with="$with mandoc"
fi
if command -v groff >/dev/null 2>&1; then
    said=$(groff -ww -mdoc -Tutf8 "$page" 2>&1 >/dev/null)
    [ -z "$said" ] || fail "$said"
    with="$with groff"
fi
for option in $(./blkcrypt --help | sed -n 's/^  --\([a-z]*\) .*/\1/p'); do
    grep -q "^.*Fl.*-$option" "$page" || fail "the page doesn't have --$option"
done
for status in $(./blkcrypt --help | sed -n 's/^  \([0-9][0-9]*\) .*/\1/p'); do
    grep -q "^\.It $status\$" "$page" || fail "the page doesn't have status $status"
done
echo "manual: the page has each option and status; read by${with:- nothing}"

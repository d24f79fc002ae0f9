"""Broken scripts for tools/explain: each with the line and kind that docs/SCRIPT.md gives it, what is marked in the line,
and words of the sentence that a person can act on."""

import os
import subprocess
import sys
import tempfile

K = "".join(f"{it:02x}" for it in range(64))
E = "".join(f"{it:02x}" for it in range(0x80, 0x90))
LINES = ["blkcrypt 1", "disk 1", "fallback on", f"key a aes-256-xts 4096 8 {K}", "thread", "write a 0 1 0 fill 00", "end"]


def script(number=0, line="", ends="\n"):
    """The script, with another line in place of one of its lines."""
    lines = [line if at == number else it for at, it in enumerate(LINES, 1)]
    return "".join(it + ends for it in lines).encode("latin-1")


def key_line(text):
    return script(4, text)


def operation(text):
    return script(6, text)


# the text, the line, the kind, what is marked, words that are said
CASES = [
    ("carriage returns", script(ends="\r\n"), 1, "word", None, "tr -d"),
    ("a byte-order mark", b"\xef\xbb\xbf" + script(), 1, "word", None, "byte-order mark"),
    ("two bytes a character", script().decode().encode("utf-16"), 1, "word", None, "UTF-16"),
    ("an empty text", b"", 1, "end", None, "last line has to be: end"),
    ("no end line", b"blkcrypt 1\ndisk 1\nfallback on\n", 4, "end", None, "last line has to be: end"),
    ("no last line feed", script()[:-1], 7, "end", None, "echo >> SCRIPT"),
    ("an empty line after the end", script() + b"\n", 8, "end", None, "line 7, and nothing may follow"),
    ("a comment line", operation("# a write"), 6, "word", "# a write", "no comments"),
    ("a comment after a line", operation("read a 0 1 0 # back"), 6, "word", " # back", "no comments"),
    ("an empty line", operation(""), 6, "word", None, "The line is empty"),
    ("a tab", operation("write a\t0 1 0 fill 00"), 6, "word", None, "There is a tab"),
    ("two spaces", operation("write a 0  1 0 fill 00"), 6, "word", "  ", "two spaces in a row"),
    ("a space at the end", operation("write a 0 1 0 fill 00 "), 6, "word", " ", "after the last field"),
    ("an indented line", operation("  write a 0 1 0 fill 00"), 6, "word", "  ", "aren't indented"),
    ("a long dash", operation("write \xad 0 1 \xad fill 00"), 6, "name", None, "ad"),
    ("another version", script(1, "blkcrypt 2"), 1, "word", "2", "Here stands 1"),
    ("a word in capitals", operation("Write a 0 1 0 fill 00"), 6, "word", "Write", "lower case: write"),
    ("a word misspelt", operation("wirte a 0 1 0 fill 00"), 6, "word", "wirte", "Perhaps write is meant"),
    ("a line at a wrong place", operation("disk 1"), 6, "word", "disk", "can't stand here"),
    ("a field too few", operation("write a 0 1 fill 00"), 6, "word", "write a 0 1 fill 00", "write KEY SECTOR UNITS NUMBER fill XX"),
    ("a mode that isn't there", key_line(f"key a aes-128-xts 4096 8 {K}"), 4, "word", "aes-128-xts", "aes-128-cbc-essiv"),
    ("neither fill nor hex", operation("write a 0 1 0 zero 00"), 6, "word", "zero", "fill or hex"),
    ("a number without a key", operation("write - 0 1 0 fill 00"), 6, "word", "0", "write - for NUMBER"),
    ("a key without a number", operation("write a 0 1 - fill 00"), 6, "word", "-", "hexadecimal digits for NUMBER"),
    ("a disk of no blocks", script(2, "disk 0"), 2, "number", "0", "from 1 to 16384"),
    ("a leading zero", script(2, "disk 01"), 2, "number", "01", "write 1"),
    ("a sign", operation("write a +8 1 0 fill 00"), 6, "number", "+8", "no sign"),
    ("a number that is empty", script(2, "disk "), 2, "number", None, "empty"),
    ("too many units", operation("write a 0 257 0 fill 00"), 6, "number", "257", "from 0 to 256"),
    ("a number with 0x", operation("write a 0 1 0xc5 fill 00"), 6, "number", "0xc5", "without 0x"),
    ("a number in capitals", operation("write a 0 1 C5 fill 00"), 6, "number", "C5", "lower case: c5"),
    ("a device that isn't there", operation("reset 0"), 6, "number", "0", "no device"),
    ("a name that isn't declared", operation("write b 0 1 0 fill 00"), 6, "name", "b", "Declared are: a"),
    ("a name in capitals", key_line(f"key A aes-256-xts 4096 8 {K}"), 4, "name", "A", "lower-case letter"),
    ("a name declared twice", script(5, f"key a aes-256-xts 4096 8 {K}"), 5, "name", "a", "Line 4 declares this name"),
    ("an eviction of no key", operation("evict -"), 6, "name", "-", "No key line above declares"),
    ("digits in capitals", operation("write a 0 1 0 fill AB"), 6, "hex", "A", "lower case"),
    ("half a byte", operation("write a 0 1 0 fill 0"), 6, "hex", "0", "two digits"),
    ("too few digits", operation("write a 0 1 0 hex 00"), 6, "hex", "00", "8192 are wanted"),
    ("digits of no units", operation("write a 0 0 0 hex 00"), 6, "hex", "00", "write it with fill"),
    ("a key of 63 bytes", key_line(f"key a aes-256-xts 4096 8 {K[:-2]}"), 4, "key", None, "63 bytes (126 digits)"),
    ("a key of the other mode", key_line(f"key a aes-256-xts 4096 8 {E}"), 4, "key", E, "aes-128-cbc-essiv"),
    ("a unit of 768 bytes", key_line(f"key a aes-256-xts 768 8 {K}"), 4, "key", "768", "512, 1024, 2048 or 4096"),
    ("numbers of 17 bytes", key_line(f"key a aes-256-xts 4096 17 {K}"), 4, "key", "17", "1 to 16 bytes"),
    ("equal halves", key_line(f"key a aes-256-xts 4096 8 {'11' * 64}"), 4, "key", None, "halves of this key are equal"),
    ("a plug left open", operation("plug"), 7, "order", "end", "line 6 is still open"),
    ("a plug that isn't open", operation("unplug"), 6, "order", "unplug", "No plug is open"),
    ("a bio too long", operation("write a 0 33 0 fill 00"), 6, "limit", "33", "at most 256 sectors"),
    ("a fault in a section", operation("fault 0 0"), 6, "word", "fault", "can't stand here"),
    ("a shard too great", script(5, "fault 64 0"), 5, "number", "64", "from 0 to 63"),
    ("a place too great", script(5, "fault 0 65536"), 5, "number", "65536", "from 0 to 65535"),
    ("a fault twice", "".join(f"{it}\n" for it in [*LINES[:4], "fault 3 1", "fault 3 1", "end"]).encode(),
     6, "order", "fault 3 1", "none stands twice"),
    ("a fault too many", "".join(f"{it}\n" for it in [*LINES[:4], *(f"fault 1 {at}" for at in range(1025)), "end"]).encode(),
     1029, "limit", "fault 1 1024", "1024 fault lines"),
    ("a device elsewhere", key_line("device 1 1 1 1 0 8"), 4, "device", "1", "begins where the one before it ends"),
    ("a device too long", key_line("device 0 1024 1 1 0 8"), 5, "device", "thread", "BLOCKS of all devices together"),
    ("a mask of 16", key_line("device 0 1 1 16 0 8"), 4, "number", "16", "from 0 to 15"),
    ("a section too many", "".join(f"{it}\n" for it in [*LINES[:4], *["thread"] * 17, "end"]).encode(), 21, "limit", "thread", "16 sections"),
]


def marked(lines):
    """The part of the shown line over the mark."""
    at = next(it for it, line in enumerate(lines) if line.strip() and not line.strip("^ "))
    return lines[at - 1][lines[at].index("^"):len(lines[at])]


def check(name, text, line, kind, mark, words, room):
    """Runs the tool on one script, and says what is wrong with what it prints, or nothing."""
    path = os.path.join(room, "script")
    with open(path, "wb") as out:
        out.write(text)
    ran = subprocess.run(["tools/explain", path], stdout=subprocess.PIPE, stderr=subprocess.PIPE, check=False)
    lines = ran.stdout.decode().split("\n")
    if ran.returncode != 2 or ran.stderr:
        return f"{name}: ends with {ran.returncode}, {ran.stderr.decode()}"
    if lines[0] != f"script line {line}: {kind}":
        return f"{name}: {lines[0]}"
    if mark is not None and marked(lines) != mark:
        return f"{name}: marks {marked(lines)!r}, not {mark!r}"
    if words not in ran.stdout.decode():
        return f"{name}: doesn't say {words!r}:\n{ran.stdout.decode()}"
    if not lines[-2].startswith(f"{kind}: ") or len(lines[-2]) < 20:
        return f"{name}: the reference's sentence is missing"
    return None


def main():
    with tempfile.TemporaryDirectory() as room:
        wrong = [it for it in (check(*case, room) for case in CASES) if it]
        with open(os.path.join(room, "good"), "wb") as out:
            out.write(script())
        good = subprocess.run(["tools/explain", os.path.join(room, "good")], stdout=subprocess.PIPE, check=False)
        if good.returncode or good.stdout != b"The script is accepted.\n":
            wrong.append("a script that is accepted isn't told as such")
        missing = subprocess.run(["tools/explain", os.path.join(room, "none")], stderr=subprocess.PIPE, check=False)
        if missing.returncode != 3 or b"No such file" not in missing.stderr:
            wrong.append("a file that isn't there isn't told as such")
    for it in wrong:
        print(f"explain: {it}")
    if not wrong:
        print(f"explain: {len(CASES)} broken scripts as expected")
    return 1 if wrong else 0


if __name__ == "__main__":
    sys.exit(main())

"""The ten most likely mistakes: what each prints and how it ends, on a terminal as a newcomer sees it."""

import os
import subprocess
import sys
import tempfile

FIRST = "examples/first.txt"


def on_terminal(words, stdin=subprocess.DEVNULL, stdout=subprocess.DEVNULL):
    """Runs words with a terminal as standard error, and gives the status and what the terminal showed."""
    master, slave = os.openpty()
    with subprocess.Popen(words, stdin=stdin, stdout=stdout, stderr=slave) as ran:
        os.close(slave)
        shown = b""
        while True:
            try:
                part = os.read(master, 4096)
            except OSError:  # the other end is closed
                break
            if not part:
                break
            shown += part
    os.close(master)
    return ran.returncode, shown.decode().replace("\r\n", "\n")


def words_alone(*words):
    return on_terminal(["./blkcrypt", *words])


def to_full_disk():
    with open("/dev/full", "wb") as full, open(FIRST, "rb") as script:
        return on_terminal(["./blkcrypt", "serial"], script, full)


def to_broken_pipe():
    reader, writer = os.pipe()
    os.close(reader)
    try:
        with open(FIRST, "rb") as script:
            return on_terminal(["./blkcrypt", "serial"], script, writer)
    finally:
        os.close(writer)


def script_of(edit):
    """A script with a mistake, from the first example."""
    with open(FIRST, "rb") as script:
        return edit(script.read())


def refused(text, line, kind, sentence):
    """The program names the line and the tool that tells more; the tool says the sentence. Gives what is wrong, or nothing."""
    with tempfile.NamedTemporaryFile() as script:
        script.write(text)
        script.flush()
        with open(script.name, "rb") as stdin:
            status, shown = on_terminal(["./blkcrypt", "serial"], stdin)
        told = subprocess.run(["tools/explain", script.name], stdout=subprocess.PIPE, stderr=subprocess.PIPE, check=False)
    if status != 2 or not shown.startswith(f"blkcrypt: script line {line}: {kind}\n") or "tools/explain SCRIPT" not in shown:
        return f"the program ends with {status} and shows {shown!r}"
    if told.returncode != 2 or sentence not in told.stdout.decode():
        return f"tools/explain ends with {told.returncode} and says {told.stdout.decode()!r}"
    return None


def says(answer, status, *sentences):
    """Gives what is wrong with a status and what was shown, or nothing."""
    if answer[0] != status or not all(it in answer[1] for it in sentences):
        return f"it ends with {answer[0]} and shows {answer[1]!r}"
    return None


def missing_file():
    """A file that isn't there: the shell names it, and so does tools/explain."""
    by_shell = on_terminal(["sh", "-c", "./blkcrypt serial < no-such-script"])
    wrong = None if by_shell[0] != 0 and "no-such-script" in by_shell[1] else f"the shell shows {by_shell[1]!r}"
    return wrong or says(on_terminal(["tools/explain", "no-such-script"]), 3, "no-such-script: No such file or directory")


def key_line_without_a_byte(text):
    lines = text.split(b"\n")
    at = next(i for i, it in enumerate(lines) if it.startswith(b"key "))
    lines[at] = lines[at][:-2]
    return b"\n".join(lines)


def line_of(word):
    with open(FIRST, "rb") as script:
        return next(i for i, it in enumerate(script, 1) if it.startswith(word))


USAGE = "usage: blkcrypt serial [--image FILE] [--out FILE] [--shards N] < SCRIPT > REPORT"
MISTAKES = [
    ("no words", lambda: says(words_alone(), 1, "blkcrypt: bad command line\n", USAGE)),
    ("a wrong word", lambda: says(words_alone(FIRST), 1, "blkcrypt: bad command line\n", USAGE)),
    ("a missing file", missing_file),
    ("line ends of another system", lambda: refused(script_of(lambda t: t.replace(b"\n", b"\r\n")), 1, "word", "tr -d '\\r' < SCRIPT")),
    ("tabs", lambda: refused(script_of(lambda t: t.replace(b" ", b"\t")), 1, "word", "Fields are divided by one space.")),
    ("a comment", lambda: refused(script_of(lambda t: b"# my script\n" + t), 1, "word", "A script has no comments. Delete the line")),
    ("a key that isn't declared", lambda: refused(script_of(lambda t: t.replace(b"write a ", b"write b ", 1)), line_of(b"write "),
                                                  "name", "No key line above declares this name. Declared are: a.")),
    ("a key that is too short", lambda: refused(script_of(key_line_without_a_byte), line_of(b"key "), "key",
                                                "wants a key of 64 bytes (128 digits), and this one has 63 bytes (126 digits)")),
    ("a full disk", lambda: says(to_full_disk(), 4, "blkcrypt: writing failed\n", "its disk is full")),
    ("a broken pipe", lambda: says(to_broken_pipe(), 4, "blkcrypt: writing failed\n", "whoever read it has gone")),
]


def main():
    wrong = [(name, why) for name, why in ((name, attempt()) for name, attempt in MISTAKES) if why]
    for name, why in wrong:
        print(f"mistakes: {name}: {why}")
    if not wrong:
        print(f"mistakes: {len(MISTAKES)} are told what to do")
    return 1 if wrong else 0


if __name__ == "__main__":
    sys.exit(main())

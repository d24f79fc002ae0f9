"""A model of the text of reports after docs/REPORT.md, which has nothing of the program in it: it parses, prints, and names
the first line that no report has. It compares itself and the program (`bc_speed read`) with each other over the examples of
docs/REPORT.md, over reports made at random, and over the same ones broken in one or two places."""
import pathlib
import random
import re
import subprocess
import sys

ROOT = pathlib.Path(__file__).resolve().parent.parent
NUMBER = r"(0|[1-9][0-9]*)"
U8, U16, U32 = 255, 65535, 4294967295


def form(pattern, *limits):
    """A line of this pattern, in which each number is at most its limit."""
    compiled = re.compile(pattern.replace("#", NUMBER))

    def fits(line):
        found = compiled.fullmatch(line)
        return found is not None and all(int(n) <= most for n, most in zip(found.groups(), limits))

    return fits


ANSWERS = [form("done"), form("done fill [0-9a-f]{2}"), form("done sha256 [0-9a-f]{64}"), form("fault #", U32),
           form("refused (?:empty|misaligned|outside|dun|unsupported)"), form("evicted"), form("busy # # #", U8, U16, U16),
           form("reset"), form("plug"), form("unplug")]
ENTRIES = [form("# # # (?:plain|soft)", U16, U32, U32), form("# # # inline # # #", U16, U32, U32, U8, U16, U32)]
EVENTS = [form("program # #", U16, U16), form("idle #", U16), form("evict # #", U16, U16), form("busy # # #", U16, U16, U16),
          form("reset")]


def is_programming_with_skips(line):
    fields = line.split(" ")
    skips = fields[4:]
    return (len(fields) >= 5 and fields[3] == "skip" and EVENTS[0](" ".join(fields[:3])) and len(skips) <= 32
            and all(form("#:#", U16, U16)(skip) for skip in skips))


def is_answer(line):
    return any(fits(line) for fits in ANSWERS)


def is_entry(line):
    return any(fits(line) for fits in ENTRIES)


def is_event(line):
    return any(fits(line) for fits in EVENTS) or is_programming_with_skips(line)


def begins(lines):
    """How many of the lines some report begins with, and whether these are a whole report."""
    if lines[:1] != ["report 1"]:
        return 0, False
    at = 1
    for number in range(16):
        if at >= len(lines) or lines[at] != f"thread {number}":
            break
        at += 1
        while at < len(lines) and is_answer(lines[at]):
            at += 1
    for word, most, is_line in [("shard", 64, is_entry), ("device", 8, is_event)]:
        for number in range(most):
            head = re.fullmatch(f"{word} {number} {NUMBER}", lines[at]) if at < len(lines) else None
            if head is None or int(head[1]) > U32:
                break
            at += 1
            for _ in range(int(head[1])):
                if at >= len(lines) or not is_line(lines[at]):
                    return at, False
                at += 1
    if at < len(lines) and lines[at] == "end":
        return at + 1, True
    return at, False


def answer(text):
    """What `bc_speed read` prints for the text."""
    parts = text.decode("latin-1").split("\n")
    known, whole = begins(parts[:-1])
    if whole and known == len(parts) - 1 and parts[-1] == "":
        return text
    return f"report line {known + 1}\n".encode()


# ---- reports at random


def at_most(dice, most):
    return dice.choice([0, 1, dice.randrange(10), dice.randrange(most + 1), most])


def an_answer(dice):
    return dice.choice(["done", f"done fill {dice.randrange(256):02x}", "done sha256 " + dice.randbytes(32).hex(),
                        f"fault {at_most(dice, U32)}",
                        "refused " + dice.choice(["empty", "misaligned", "outside", "dun", "unsupported"]), "evicted",
                        f"busy {at_most(dice, U8)} {at_most(dice, U16)} {at_most(dice, U16)}", "reset", "plug", "unplug"])


def an_entry(dice):
    via = dice.choice(["plain", "soft", f"inline {at_most(dice, U8)} {at_most(dice, U16)} {at_most(dice, U32)}"])
    return f"{at_most(dice, U16)} {at_most(dice, U32)} {at_most(dice, U32)} {via}"


def an_event(dice):
    slot, key, refs = (at_most(dice, U16) for _ in range(3))
    skips = "".join(f" {at_most(dice, U16)}:{at_most(dice, U16)}" for _ in range(dice.choice([1, 2, 3, 31, 32])))
    return dice.choice([f"program {slot} {key}", f"program {slot} {key} skip{skips}", f"idle {slot}", f"evict {slot} {key}",
                        f"busy {slot} {key} {refs}", "reset"])


def a_part(dice, word, number, line):
    lines = [line(dice) for _ in range(dice.choice([0, 0, 1, 2, 5]))]
    return [f"{word} {number} {len(lines)}", *lines]


def a_report(dice):
    lines = ["report 1"]
    for number in range(dice.choice([0, 1, 1, 2, 3, 16])):
        lines += [f"thread {number}"] + [an_answer(dice) for _ in range(dice.choice([0, 1, 2, 5]))]
    for number in range(dice.choice([0, 1, 1, 2, 12, 64])):
        lines += a_part(dice, "shard", number, an_entry)
    for number in range(dice.choice([0, 0, 1, 2, 8])):
        lines += a_part(dice, "device", number, an_event)
    return [*lines, "end"]


def text_of(lines):
    return "".join(line + "\n" for line in lines).encode()


def broken(dice, lines):
    """The text with one mistake."""
    place = dice.randrange(len(lines))
    line = lines[place]
    numbers = [m for m in re.finditer(r"[0-9]+", line)]

    def with_line(*new):
        return text_of([*lines[:place], *new, *lines[place + 1:]])

    def with_number(new):
        if not numbers:
            return with_line(line + " 0")
        m = dice.choice(numbers)
        return with_line(line[:m.start()] + new(m[0]) + line[m.end():])

    text = text_of(lines)
    at = dice.randrange(len(text))
    return dice.choice([
        lambda: with_line(),
        lambda: with_line(line, line),
        lambda: with_line(dice.choice(lines)),
        lambda: with_line(an_answer(dice)),
        lambda: with_line(line, an_entry(dice)),
        lambda: with_line(an_event(dice), line),
        lambda: with_line(line.replace(" ", "  ", 1)),
        lambda: with_line(line + " "),
        lambda: with_line(" " + line),
        lambda: with_line(line + "\r"),
        lambda: with_line(line.upper()),
        lambda: with_line(line.rsplit(" ", 1)[0]),
        lambda: with_line(line + dice.choice([" 0", " skip", " 0:0", ":0", " plain"])),
        lambda: with_number(lambda n: str(int(n) + 1)),
        lambda: with_number(lambda n: str(max(int(n) - 1, 0))),
        lambda: with_number(lambda n: "0" + n),
        lambda: with_number(lambda n: "+" + n),
        lambda: with_number(lambda n: ""),
        lambda: with_number(lambda n: str(dice.choice([256, 65536, 4294967295, 4294967296, 2 ** 64, 10 ** 30]))),
        lambda: text[:-1],
        lambda: text[:at],
        lambda: text[:at] + text[at + 1:],
        lambda: text[:at] + dice.randbytes(1) + text[at:],
        lambda: text[:at] + dice.randbytes(1) + text[at + 1:],
        lambda: text + dice.randbytes(1),
        lambda: text + text,
        lambda: text.replace(b"\n", b"\r\n"),
    ])()


# ---- the comparison


def examples():
    """Each example of docs/REPORT.md, as the text of a report that has it as its one answer, entry or event."""
    part = None
    for row in (ROOT / "docs" / "REPORT.md").read_text().splitlines():
        if row.startswith("## "):
            part = {"## Answers": ["thread 0"], "## Entries": ["shard 0 1"], "## Events": ["device 0 1"]}.get(row)
        found = re.match(r"\| `[^`]*` \| `([^`]*)` \|", row)
        if part and found:
            yield text_of(["report 1", *part, found[1], "end"])


def program(text):
    found = subprocess.run([sys.argv[1], "read"], input=text, capture_output=True)
    return found.stdout if found.returncode == 0 else found.stderr


def compare(text):
    wanted, found = answer(text), program(text)
    if wanted != found:
        sys.exit(f"report_texts: of the text\n{text.decode('latin-1')}\nthe program says\n{found.decode('latin-1')}\n"
                 f"and the model\n{wanted.decode('latin-1')}")


def main():
    count = int(sys.argv[2])
    dice = random.Random("reports")
    shown = list(examples())
    if len(shown) != 14 + 3 + 6:
        sys.exit(f"report_texts: docs/REPORT.md has {len(shown)} examples")
    for text in shown:
        if answer(text) != text:
            sys.exit(f"report_texts: an example of docs/REPORT.md is no line of a report:\n{text.decode()}")
        compare(text)
    empty = b"report 1\nshard 0 0\nend\n"
    for byte in range(256):
        compare(empty + bytes([byte]))
    for _ in range(count):
        lines = a_report(dice)
        text = text_of(lines)
        if answer(text) != text:
            sys.exit(f"report_texts: the model refuses its own report:\n{text.decode()}")
        compare(text)
        for _ in range(4):
            compare(broken(dice, lines))
    print(f"report_texts: {len(shown)} examples, {count} reports and {4 * count + 256} broken ones as expected")


if __name__ == "__main__":
    main()

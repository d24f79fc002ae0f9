"""Reads the text of a report, by the rules of docs/REPORT.md: for the tools beside it and for the checks.

`read` gives the report, or raises NoReport with the first line, from 1, that no report has there.
"""

import re
from dataclasses import dataclass, field

U8, U16, U32 = 2**8 - 1, 2**16 - 1, 2**32 - 1
MOST_THREADS, MOST_SHARDS, MOST_DEVICES, MOST_SKIPS = 16, 64, 8, 32
NUMBER = re.compile(r"0|[1-9][0-9]{0,9}")


class NoReport(Exception):
    """The text is no report's: it has a line that no report has there."""

    def __init__(self, line, why="no report has this line here"):
        super().__init__(f"report line {line}: {why}")
        self.line = line


@dataclass
class Entry:
    """A data unit that a shard performed; device, slot and event are those of an inline one."""
    line: int
    thread: int
    op: int
    unit: int
    way: str
    device: int = None
    slot: int = None
    event: int = None


@dataclass
class Event:
    """What a device's keyslots went through: a word, and what of slot, key, references and skips it has."""
    line: int
    word: str
    slot: int = None
    key: int = None
    refs: int = None
    skips: list = field(default_factory=list)


@dataclass
class Report:
    threads: list  # for each thread its answers, as texts
    shards: list  # for each shard its entries
    devices: list  # for each device its events


def number(text, most):
    """The number that a field is, or None."""
    return int(text) if NUMBER.fullmatch(text) and int(text) <= most else None


def numbers(fields, *limits):
    """The numbers that fields are, each at most its limit, or None."""
    found = [number(text, most) for text, most in zip(fields, limits)]
    return found if len(fields) == len(limits) and None not in found else None


def is_answer(line):
    word, *fields = line.split(" ")
    if word == "busy":
        return numbers(fields, U8, U16, U16) is not None
    if word == "fault":
        return numbers(fields, U32) is not None
    return re.fullmatch(r"done|done fill [0-9a-f]{2}|done sha256 [0-9a-f]{64}|evicted|reset|plug|unplug"
                        r"|refused (?:empty|misaligned|outside|dun|unsupported)", line) is not None


def entry_of(at, line):
    fields = line.split(" ")
    place = numbers(fields[:3], U16, U32, U32)
    way = fields[3:4]
    if place and way in (["plain"], ["soft"]) and len(fields) == 4:
        return Entry(at, *place, *way)
    use = numbers(fields[4:], U8, U16, U32)
    return Entry(at, *place, *way, *use) if place and use and way == ["inline"] else None


def event_of(at, line):
    word, *fields = line.split(" ")
    if word == "reset" and not fields:
        return Event(at, word)
    if word == "idle":
        found = numbers(fields, U16)
        return Event(at, word, *found) if found else None
    if word in ("program", "evict") and len(fields) == 2:
        found = numbers(fields, U16, U16)
        return Event(at, word, *found) if found else None
    if word == "busy":
        found = numbers(fields, U16, U16, U16)
        return Event(at, word, *found) if found else None
    if word == "program" and len(fields) > 3 and fields[2] == "skip":
        found = numbers(fields[:2], U16, U16)
        skips = [numbers(it.split(":"), U16, U16) for it in fields[3:]]
        if found and None not in skips and len(skips) <= MOST_SKIPS:
            return Event(at, word, *found, skips=[tuple(it) for it in skips])
    return None


class Lines:
    """The lines of a text, one after the other."""

    def __init__(self, text):
        *self.lines, self.rest = text.decode("latin-1").split("\n")
        self.at = 0

    def next(self):
        """The next line, or None at the end of the text or before a last line without its line feed."""
        return self.lines[self.at] if self.at < len(self.lines) else None

    def skip(self):
        self.at += 1
        return self.at

    def fail(self):
        raise NoReport(self.at + 1)


def parts(lines, word, most, item_of):
    """The parts with this word, which run from 0, each with its items."""
    found = []
    while len(found) < most:
        head = (lines.next() or "").split(" ")
        count = number(head[2], U32) if len(head) == 3 and head[:2] == [word, str(len(found))] else None
        if count is None:
            break
        lines.skip()
        items = []
        while len(items) < count:
            item = item_of(lines.at + 1, lines.next() or "")
            if item is None:
                lines.fail()
            lines.skip()
            items.append(item)
        found.append(items)
    return found


def read(text):
    lines = Lines(text)
    if lines.next() != "report 1":
        lines.fail()
    lines.skip()
    threads = []
    while len(threads) < MOST_THREADS and lines.next() == f"thread {len(threads)}":
        lines.skip()
        threads.append([])
        while lines.next() is not None and is_answer(lines.next()):
            threads[-1].append(lines.next())
            lines.skip()
    report = Report(threads, parts(lines, "shard", MOST_SHARDS, entry_of), parts(lines, "device", MOST_DEVICES, event_of))
    if lines.next() != "end":
        lines.fail()
    lines.skip()
    if lines.next() is not None or lines.rest:
        lines.fail()
    return report

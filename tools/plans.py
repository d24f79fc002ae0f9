"""Reads what a script asks for: its keys, devices and operations, for the tools that show a report beside its script.

It isn't the program's reader: it takes a script that the program accepted, and says of another one where it can't follow it.
"""

import re
from dataclasses import dataclass

MOST_PLUGGED = 64
FIRST_LINES = [r"blkcrypt 1", r"disk [1-9][0-9]{0,4}", r"fallback (?:on|off)"]
DEVICE = re.compile(r"device ([0-9]{1,5}) ([0-9]{1,5}) ([0-9]{1,2}) [0-9]{1,2} [0-9]{1,2} [0-9]")
KEY = re.compile(r"key ([a-z][a-z0-9]{0,15}) (\S+) (512|1024|2048|4096) [0-9]{1,2} [0-9a-f]+")
FAULT = re.compile(r"fault [0-9]{1,2} [0-9]{1,5}")
BIO = re.compile(r"(write|read) (\S+) ([0-9]{1,10}) ([0-9]{1,3}) ([0-9a-f]{1,64}|-)(?: (?:fill|hex) [0-9a-f]+)?")
EVICT = re.compile(r"evict (\S+)")
RESET = re.compile(r"reset ([0-7])")


class NoScript(Exception):
    """The text is no script, or not the one that the report tells of."""


@dataclass
class Op:
    """An operation: its word and, of what it has, key (a number, or None), sector, units, data unit number and device."""
    word: str
    key: int = None
    sector: int = 0
    units: int = 0
    number: int = None
    device: int = None


@dataclass
class Piece:
    """A part of a request on one device, for which it uses a slot once: its units, each of an operation."""
    thread: int
    device: int
    key: int
    units: list


@dataclass
class Script:
    names: list  # of the keys
    unit_bytes: list  # of each key
    devices: list  # pairs of the first block and the one after the last
    slots: list  # of each device
    sections: list

    def bytes_of(self, op):
        return 512 if op.key is None else self.unit_bytes[op.key]

    def name(self, key):
        return self.names[key] if key is not None and key < len(self.names) else "-" if key is None else f"key {key}"

    def device_of(self, op, unit):
        block = (op.sector + unit * self.bytes_of(op) // 512) // 8
        return next((at for at, (first, end) in enumerate(self.devices) if first <= block < end), None)

    def label(self, op):
        """The operation in two words, as far as it has two."""
        if op.word in ("write", "read", "evict"):
            return f"{op.word} {self.name(op.key)}"
        return f"reset {op.device}" if op.word == "reset" else op.word


def read(text):
    script = Script([], [], [], [], [])
    lines = text.decode("latin-1").split("\n")
    if lines[-2:] != ["end", ""]:
        raise NoScript("the script has no end line")
    for at, line in enumerate(lines[:-2]):
        if at < 3:
            known = re.fullmatch(FIRST_LINES[at], line)
        else:
            known = line_of(script, line)
        if not known:
            raise NoScript(f"script line {at + 1}: this is no line of an accepted script")
    return script


def key_of(script, name):
    return script.names.index(name) if name in script.names else None


def line_of(script, line):
    """Takes in a line after the first three ones, and tells whether it is one."""
    if line == "thread":
        script.sections.append([])
        return True
    if not script.sections:
        if found := DEVICE.fullmatch(line):
            first, blocks, slots = map(int, found.groups())
            script.devices.append((first, first + blocks))
            script.slots.append(slots)
        elif found := KEY.fullmatch(line):
            script.names.append(found[1])
            script.unit_bytes.append(int(found[3]))
        return found or FAULT.fullmatch(line)
    section = script.sections[-1]
    if line in ("plug", "unplug"):
        section.append(Op(line))
        return True
    if found := RESET.fullmatch(line):
        section.append(Op("reset", device=int(found[1])))
        return True
    if (found := EVICT.fullmatch(line)) and key_of(script, found[1]) is not None:
        section.append(Op("evict", key_of(script, found[1])))
        return True
    found = BIO.fullmatch(line)
    if not found or (found[2] != "-" and key_of(script, found[2]) is None) or (found[2] == "-") != (found[5] == "-"):
        return False
    number = None if found[5] == "-" else int(found[5], 16)
    section.append(Op(found[1], key_of(script, found[2]), int(found[3]), int(found[4]), number))
    return True


def fit(script, report):
    """Asks whether a report can be one of this script's, as far as the numbers of its parts go."""
    if len(script.sections) != len(report.threads):
        raise NoScript(f"the script has {len(script.sections)} sections, and the report {len(report.threads)} threads")
    for thread, (section, answers) in enumerate(zip(script.sections, report.threads)):
        if len(section) != len(answers):
            raise NoScript(f"section {thread} of the script has {len(section)} operations, and the report {len(answers)} answers")
        for op, (operation, answer) in enumerate(zip(section, answers)):
            words = {"write": ["done", "fault", "refused"], "read": ["done", "fault", "refused"], "evict": ["evicted", "busy"]}
            if answer.split(" ")[0] not in words.get(operation.word, [operation.word]):
                raise NoScript(f"operation {op} of thread {thread} is a {operation.word} in the script, and the report answers `{answer}`")
    if len(script.devices) != len(report.devices):
        raise NoScript(f"the script has {len(script.devices)} devices, and the report {len(report.devices)}")
    for entries in report.shards:
        for entry in entries:
            operation = script.sections[entry.thread][entry.op] if entry.thread < len(script.sections) and entry.op < len(
                script.sections[entry.thread]) else None
            if operation is None or entry.unit >= operation.units:
                raise NoScript(f"report line {entry.line}: the script has no such data unit")
    for device, events in enumerate(report.devices):
        for event in events:
            slot = max([event.slot or 0, *(slot for slot, _ in event.skips)])
            if slot >= script.slots[device]:
                raise NoScript(f"report line {event.line}: the script's device {device} has no slot {slot}")


def windows(section, answers):
    """The accepted bios of a section in the groups in which they are submitted."""
    group, plugged = [], False
    for op, (operation, answer) in enumerate(zip(section, answers)):
        if operation.word in ("write", "read"):
            if answer.startswith("refused"):
                continue
            if len(group) == MOST_PLUGGED or not plugged:
                yield group
                group = []
            group.append((op, operation))
            continue
        yield group
        group = []
        plugged = operation.word == "plug" or (plugged and operation.word != "unplug")
    yield group


def runs_on(script, one, other):
    return (one.word == other.word and one.key == other.key
            and one.sector + one.units * script.bytes_of(one) // 512 == other.sector
            and (one.key is None or one.number + one.units == other.number))


def pieces(script, report, inline):
    """For each thread its pieces in their order. `inline` tells whether a key is enciphered by the devices."""
    found = []
    for thread, (section, answers) in enumerate(zip(script.sections, report.threads)):
        found.append([])
        for group in windows(section, answers):
            last = None
            for op, operation in group:
                joined = last is not None and runs_on(script, last, operation)
                last = operation
                for unit in range(operation.units if operation.key is not None and inline(operation.key) else 0):
                    device = script.device_of(operation, unit)
                    if not joined or found[-1][-1].device != device:
                        found[-1].append(Piece(thread, device, operation.key, []))
                    found[-1][-1].units.append((op, unit))
                    joined = True
    return found

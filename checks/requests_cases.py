"""Gives the program requests of 1, 64 and 4096 data units over two devices and three shards.

A request is one bio, or a plug of bios that run on from one another; its data units lie before and after the border
of the devices, and go inline, soft or plain. A request is written and then read back, or what the image has there is
read. There is no planned fault, or one at the first unit, the last one, one in the middle, or one beside the border: it
ends its own bio, and the bios after it go on.

What must be answered, each shard's order and each device's events are worked out here from the numbers of the units
alone. The independent model (script_model.py) must say the same of them, and `serial` and `threads` must give the
report of the model and leave its image.

Then two sections have such requests on overlapping blocks at once, under two keys, and each run is judged by judge.py.

    requests_cases.py PROGRAM [SEED [UNITS]]

Requests of more than UNITS data units are left out, for a build that takes its time.
"""
import collections
import hashlib
import random
import sys
import tempfile
from dataclasses import dataclass
from functools import cached_property

sys.dont_write_bytecode = True
from judge import judged
from script_cases import K1, K2, agrees, with_devices
from script_model import SECTOR, read_script, run_of
from threads_cases import Runner

SHARDS = 3
BLOCK = 8  # sectors
# Which data units the second device knows under XTS, by the way of the units. The first one knows all.
WAYS = {"inline": 15, "soft": 0, "plain": 15}
FIRST_NUMBER = 2 ** 32 - 16


@dataclass
class Request:
    """Bios that run on from one another, each of so many data units of so many bytes: a plug of them, or a bio alone.
    Of all its units so many lie before the border of the two devices. Each device has room for all of them, and a block
    more."""
    way: str
    size: int
    bios: int
    each: int
    before: int

    @property
    def name(self):
        many = f"{self.bios} bios of {self.each} units of {self.size} bytes"
        return f"{self.way}, {many}, {self.before} before the border"

    @property
    def units(self):
        return self.bios * self.each

    @property
    def step(self):
        return self.size // SECTOR

    @cached_property
    def blocks(self):
        """The blocks of each device."""
        return -(-self.units * self.step // BLOCK) + 1

    def sector(self, unit):
        return BLOCK * self.blocks + (unit - self.before) * self.step

    def shard(self, unit):
        return self.sector(unit) // BLOCK % SHARDS

    def device(self, unit):
        return int(unit >= self.before)

    def devices(self, slots):
        masks = [15, WAYS[self.way]]
        return [f"device {it * self.blocks} {self.blocks} {slots} {mask} 15 8" for it, mask in enumerate(masks)]

    def fault_at(self, unit):
        """The fault that meets this unit where the request comes first and no other unit fails."""
        return self.shard(unit), sum(self.shard(it) == self.shard(unit) for it in range(unit))

    def marked(self):
        """The first unit, the last one, one in the middle, and those on both sides of the border."""
        units = [0, self.units - 1, self.units // 2, self.before - 1, self.before]
        return sorted({it for it in units if 0 <= it < self.units})

    @cached_property
    def texts(self):
        """For each bio what it writes, and how a read of that is answered: all bytes are alike in every second bio, and
        each unit has others in the bios between."""
        return [self.filled(bio) if bio % 2 else self.counted(bio) for bio in range(self.bios)]

    @staticmethod
    def filled(bio):
        return f"fill {bio:02x}", f"done fill {bio:02x}"

    def counted(self, bio):
        data = b"".join(b"unit%04x" % (self.each * bio + it) * (self.size // 8) for it in range(self.each))
        return f"hex {data.hex()}", f"done sha256 {hashlib.sha256(data).hexdigest()}"

    def lines(self, word, key="a", moved=0):
        """The operations of the request, which may be moved by some units."""
        operations = []
        for bio, (text, _) in enumerate(self.texts):
            first = bio * self.each
            name, number = ("-", "-") if self.way == "plain" else (key, f"{FIRST_NUMBER + first:x}")
            fields = f"{word} {name} {self.sector(first + moved)} {self.each} {number}"
            operations.append(f"{fields} {text}" if word == "write" else fields)
        return ["plug", *operations, "unplug"] if self.bios > 1 else operations


def placed(way, size, bios, each, *befores):
    return [Request(way, size, bios, each, before) for before in befores]


def script_of(request, faults, *sections, slots=1, keys="a"):
    raw = {"a": K1, "b": K2}
    return with_devices(
        2 * request.blocks, "on", *request.devices(slots),
        *(f"key {it} aes-256-xts {request.size} 8 {raw[it]}" for it in keys),
        *(f"fault {shard} {place}" for shard, place in faults),
        *(line for section in sections for line in ["thread", *section]))


# ---- one section

# A bio has at most 256 sectors, and a plug holds at most 64 bios.
REQUESTS = [
    *(it for way in WAYS for it in placed(way, 512, 1, 1, 0, 1)),
    *(it for way in ["inline", "soft"] for it in placed(way, 4096, 1, 1, 0, 1)),
    *(it for way in WAYS for it in placed(way, 512, 1, 64, 0, 1, 37, 63, 64)),
    *(it for way in WAYS for it in placed(way, 512, 64, 1, 1, 40)),
    *(it for way in WAYS for it in placed(way, 512, 8, 8, 32, 37)),
    *placed("inline", 4096, 2, 32, 31, 32, 33),
    *placed("inline", 512, 64, 64, 2048, 2053),
    *placed("soft", 512, 64, 64, 2053),
    *placed("plain", 512, 64, 64, 2053),
    *placed("inline", 2048, 64, 64, 2053),
]


class Report:
    """The report of a section of requests, one after the other, worked out from the numbers of the units."""

    def __init__(self):
        self.answers = []
        self.shards = [[] for _ in range(SHARDS)]
        self.journals = [[], []]

    def request(self, request, answers_of_bios, fault=None):
        """Adds a request, in which the unit `fault` meets one. The other bios are answered so; None is any digest."""
        first_op = len(self.answers) + (request.bios > 1)
        answers = []
        for bio, answer in enumerate(answers_of_bios):
            units = range(bio * request.each, (bio + 1) * request.each)
            answers.append(f"fault {fault - units.start}" if fault in units else answer)
            for unit in units[:fault - units.start + 1] if fault in units else units:
                way = f"inline {request.device(unit)} 0 0" if request.way == "inline" else request.way
                self.shards[request.shard(unit)].append(f"0 {first_op + bio} {unit - units.start} {way}")
        self.answers += ["plug", *answers, "unplug"] if request.bios > 1 else answers
        # A piece for each device, also where all its units stand after a fault of their bio.
        pieces = {request.device(unit) for unit in range(request.units)} if request.way == "inline" else set()
        for device in sorted(pieces):
            self.journals[device] += ["idle 0"] if self.journals[device] else ["program 0 0", "idle 0"]

    def lines(self):
        lines = ["report 1", "thread 0", *self.answers]
        for word, parts in [("shard", self.shards), ("device", self.journals)]:
            for place, part in enumerate(parts):
                lines += [f"{word} {place} {len(part)}", *part]
        return [*lines, "end"]


def cases_of(request):
    """What is told of a request, its script and the lines of its report."""
    for fault in [None, *request.marked()]:
        told = "" if fault is None else f", a fault at unit {fault}"
        faults = [] if fault is None else [request.fault_at(fault)]
        wanted = Report()
        wanted.request(request, ["done"] * request.bios, fault)
        # Of the bio that met the fault a part isn't written.
        broken = None if fault is None else fault // request.each
        wanted.request(request, [None if bio == broken else answer for bio, (_, answer) in enumerate(request.texts)])
        there_and_back = request.lines("write") + request.lines("read")
        yield f"written{told}", script_of(request, faults, there_and_back), wanted.lines()
        wanted = Report()
        wanted.request(request, [None] * request.bios, fault)
        yield f"read{told}", script_of(request, faults, request.lines("read")), wanted.lines()


def one_section(runner, request, before):
    """What is wrong with the runs of a request from an image, or nothing."""
    for name, text, lines in cases_of(request):
        report, after = run_of(read_script(text), SHARDS, before)
        if not agrees(lines, report):
            return f"{name}: the model says otherwise than is worked out", report
        for command in ["serial", "threads"]:
            found, left = runner.ran(text, SHARDS, before, command)
            if found is None:
                return f"{name}, by {command}: {left}", b""
            if found != report:
                return f"{name}, by {command}: another report than the model's", found
            if left != after:
                return f"{name}, by {command}: another image than the model's", found
    return None


# ---- two sections at once

AT_ONCE = [
    *placed("inline", 512, 1, 1, 1),
    *placed("inline", 512, 1, 64, 37),
    *placed("inline", 512, 64, 1, 40),
    *placed("inline", 4096, 2, 32, 33),
    *placed("soft", 512, 8, 8, 37),
    *placed("plain", 512, 8, 8, 37),
    *placed("inline", 512, 64, 64, 2053),
]


def plans(request):
    """The faults of two sections that write and read a request each: none; the first access of each shard; those in the
    middle of the first request and of all; and the last access of each shard."""
    counts = collections.Counter(request.shard(unit) for unit in range(request.units))
    yield []
    for places_of in [lambda count: [0], lambda count: sorted({count // 2, 2 * count}), lambda count: [4 * count - 1]]:
        yield [(shard, place) for shard in sorted(counts) for place in places_of(counts[shard])]


def two_sections(request):
    """What is told of two sections, and their script. The second one has its request some units before that of the
    first one, and under another key."""
    first = request.lines("write") + request.lines("read") + ["evict a", "evict b"]
    moved = -(request.units // 4)
    second = request.lines("read", "b", moved) + request.lines("write", "b", moved) + ["evict a"]
    for slots in [1, 2]:
        for faults in plans(request):
            told = f"{slots} slots, faults at {faults}"
            yield told, script_of(request, faults, first, second, slots=slots, keys="ab")


def at_once(runner, request, before, seen):
    """What is wrong with the runs of two sections with a request each, or nothing."""
    for name, text in two_sections(request):
        report, after = runner.ran(text, SHARDS, before)
        if report is None:
            return f"two sections, {name}: {after}", b""
        points = judged(read_script(text), before, after, report, SHARDS)
        if points:
            return f"two sections, {name}: {points}", report
        lines = report.decode().split("\n")
        threads = [line[0] for line in lines if line.endswith((" soft", " plain")) or " inline " in line]
        seen["mixed"] += sum(one != other for one, other in zip(threads, threads[1:])) > 2 * SHARDS
        seen.update(word for line in lines for word in ["fault", "busy", "skip"] if word in line)
    return None


def main(words):
    seed, most = (int(words[at]) if len(words) > at else usual for at, usual in [(1, 1), (2, 4096)])
    dice = random.Random(seed)
    seen = collections.Counter()
    alone, beside = ([it for it in requests if it.units <= most] for requests in [REQUESTS, AT_ONCE])
    with tempfile.TemporaryDirectory() as room:
        runner = Runner(words[0], room)
        tried = [(one_section, it, ()) for it in alone] + [(at_once, it, (seen,)) for it in beside]
        for carry_out, request, more in tried:
            before = dice.randbytes(2 * request.blocks * BLOCK * SECTOR)
            wrong = carry_out(runner, request, before, *more)
            if wrong:
                print(f"requests: seed {seed}, {request.name}: {wrong[0]}\n{wrong[1].decode()}")
                return 1
    told = ", ".join(f"{seen[word]} {word}" for word in ["mixed", "fault", "busy", "skip"])
    print(f"requests: {len(alone)} requests of one section and {len(beside)} of two at once, {runner.turns} runs"
          f" (seed {seed}; at once {told})")
    return 0


if __name__ == "__main__":
    sys.exit(main(sys.argv[1:]))

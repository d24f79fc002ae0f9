"""Judges whether a report and the image that a run left are a lawful run of a script:

    python3 checks/judge.py [--shards N] [--no-holders] SCRIPT BEFORE AFTER REPORT

It has nothing of the program in it, and no model of how threads run: it decides each point that a lawful run has to meet, from
the script, both images and the report alone. BEFORE is a file, or `-` for zeros; AFTER is one, or `-` where it isn't to be
judged. `--no-holders` leaves out the point Holders behind a refusal. It prints `lawful`, or a line for each point that fails,
and ends with 0 or 1; with 2 where the script is none, or a file can't be read.

A lawful run, point by point:

- Text: the report is a report's text.
- Parts: it has an answer for each operation of each section, and a list for each shard and each device.
- Orders: a data unit is attempted where no earlier one of its bio met a planned fault. Each shard's entries of a thread are the
  thread's attempted units on that shard, each once, in the thread's order.
- Answers: those of a disk without slots that performs the entries in order, or the refusal of the bio.
- Image: the one that this disk leaves.
- Ways: plain without a key; inline where every device supports the key, on the device of the unit's sector; else soft.
- Journals: each event is allowed where it stands, and at the end every slot stands on the idle list.
- Programmings: the event that an inline entry names programmed its slot with its key. For one thread, key and device these
  events don't go back, and go on across an eviction of the key that was answered `evicted`, or `busy` at a later device.
- Evictions: `evicted`, or for an inline key `busy` at a device of the script. A device has at most as many `evict` and `busy`
  events of a key as there are evictions of it.
- Busy answers: each has its event; further ones are at most the evictions that an earlier device answered `busy`.
- Holders behind a refusal: references that an eviction or a skip found are those of as many other threads, which have bios
  under the key on that device.
- Counts: as many `reset` events as resets of the device; at most as many programmings of a key as bios under it that touch
  the device, and at most as many `idle` events as inline bios that touch it.
"""
import collections
import hashlib
import os
import sys

sys.dont_write_bytecode = True
sys.path.insert(1, os.path.join(os.path.dirname(os.path.dirname(os.path.realpath(__file__))), "tools"))
import reports
from script_model import SECTOR, UNIT_SIZES, XTS, Evict, Read, Reset, Script, Write, ciphered, read_script


class Unlawful(Exception):
    """What is wrong, in a sentence."""


def need(met, sentence):
    if not met:
        raise Unlawful(sentence)


class Planned:
    """A bio of the plan: its operation, why it is refused, and the way of its units."""

    def __init__(self, script, operation):
        self.bio = operation.bio
        self.writes = isinstance(operation, Write)
        self.data = operation.data if self.writes else None
        self.refused = refusal(script, self.bio)
        self.way = "plain" if self.bio.key is None else "inline" if is_inline(script, self.bio.key) else "soft"
        self.fault = None
        self.read = {}

    def sector(self, unit):
        return self.bio.sector + unit * (self.bio.unit_bytes // SECTOR)

    def text(self, unit):
        return self.data[unit * self.bio.unit_bytes:(unit + 1) * self.bio.unit_bytes]


def is_inline(script, key):
    """Whether every device, and there is one at least, supports the key's data unit in its mode, and its number bytes."""
    bit = 1 << UNIT_SIZES.index(key.unit)
    return script.devices != [] and all(
        (it.xts if key.mode == XTS else it.essiv) & bit and it.number_bytes >= key.number_bytes for it in script.devices)


def refusal(script, bio):
    step = bio.unit_bytes // SECTOR
    if bio.units == 0:
        return "empty"
    if bio.sector % step != 0:
        return "misaligned"
    if bio.sector + bio.units * step > 8 * script.blocks:
        return "outside"
    if bio.key and bio.number + bio.units > 2 ** (8 * bio.key.number_bytes):
        return "dun"
    if bio.key and not script.fallback and not is_inline(script, bio.key):
        return "unsupported"
    return None


def touched(script, bio):
    """The devices that have a block of the bio."""
    first, last = bio.sector // 8, (bio.sector + bio.units * (bio.unit_bytes // SECTOR) - 1) // 8
    return [at for at, it in enumerate(script.devices) if it.first <= last and first < it.first + it.blocks]


def fold(device, events):
    """Goes along a device's journal, and gives before each event the key of each slot; each event must be allowed there. At the
    end every slot must stand on the idle list."""
    keys = [None] * device.slots
    idle = list(range(device.slots))
    for at, event in enumerate(events):
        yield event, keys
        where = f"event {at}, `{event.word}`"
        if event.word == "reset":
            continue
        need(event.slot < device.slots, f"{where}: there is no slot {event.slot}")
        if event.word == "program":
            need(event.key not in keys, f"{where}: key {event.key} has a slot already")
            order = idle + [it for it in range(device.slots) if it not in idle]
            before = order[:order.index(event.slot)]
            need([slot for slot, _ in event.skips] == before,
                 f"{where}: the slots before {event.slot} in the idle order are {before}, and skipped are {event.skips}")
            need(all(keys[slot] is not None and refs for slot, refs in event.skips),
                 f"{where}: a skipped slot has no key or no reference")
            keys[event.slot] = event.key
            idle = [it for it in idle if it != event.slot]
        elif event.word == "idle":
            idle = [it for it in idle if it != event.slot] + [event.slot]
        elif event.word == "evict":
            need(keys[event.slot] == event.key, f"{where}: slot {event.slot} doesn't have key {event.key}")
            keys[event.slot] = None
        else:
            need(keys[event.slot] == event.key, f"{where}: slot {event.slot} doesn't have key {event.key}")
            need(event.refs > 0, f"{where}: no reference was found")
    need(len(idle) == device.slots, f"at the end of the journal the idle list is {idle}")


class Judge:
    """A script, both images, a report and the number of shards; and what each point needs of them."""

    def __init__(self, script, before, after, report, shards):
        self.script, self.before, self.after, self.report = script, before, after, report
        self.count = shards
        self.plan = {(thread, op): Planned(script, operation) for thread, op, operation in self.operations(Read, Write)}
        self.evictions = [(thread, op, operation.key) for thread, op, operation in self.operations(Evict)]
        self.users = collections.defaultdict(collections.Counter)  # device and key: bios of each thread
        for (thread, _), bio in self.plan.items():
            if not bio.refused and bio.way == "inline":
                for device in touched(script, bio.bio):
                    self.users[device, bio.bio.key.place][thread] += 1

    def operations(self, *sorts):
        return [(thread, op, operation) for thread, section in enumerate(self.script.sections)
                for op, operation in enumerate(section) if isinstance(operation, sorts)]

    def answer(self, thread, op):
        return self.report.threads[thread][op]

    def entries(self):
        """Each entry with its shard, its place there and its bio."""
        for shard, entries in enumerate(self.report.shards):
            for place, entry in enumerate(entries):
                yield shard, place, entry, self.plan[entry.thread, entry.op]

    def device_of(self, sector):
        return next(at for at, it in enumerate(self.script.devices) if it.first <= sector // 8 < it.first + it.blocks)

    # ---- the points

    def parts(self):
        script, report = self.script, self.report
        need(len(report.threads) == len(script.sections),
             f"the report has {len(report.threads)} threads, and the script {len(script.sections)} sections")
        for thread, (answers, section) in enumerate(zip(report.threads, script.sections)):
            need(len(answers) == len(section), f"thread {thread} has {len(answers)} answers to {len(section)} operations")
        need(len(report.shards) == self.count, f"the report has {len(report.shards)} shards, and the run {self.count}")
        need(len(report.devices) == len(script.devices),
             f"the report has {len(report.devices)} devices, and the script {len(script.devices)}")

    def orders(self):
        places = {}
        latest = {}
        for shard, entries in enumerate(self.report.shards):
            for place, entry in enumerate(entries):
                name = (entry.thread, entry.op, entry.unit)
                what = f"entry {place} of shard {shard}"
                bio = self.plan.get(name[:2])
                need(bio is not None and not bio.refused and entry.unit < bio.bio.units, f"{what} is no unit that is to be performed")
                need(bio.sector(entry.unit) // 8 % self.count == shard, f"{what} is another shard's unit")
                need(latest.get((shard, entry.thread), (-1, -1)) < name[1:], f"{what} is out of its thread's order, or a second one")
                latest[shard, entry.thread] = name[1:]
                places[name] = (shard, place)
        attempted = set()
        planned = set(self.script.faults)
        for (thread, op), bio in self.plan.items():
            for unit in range(0 if bio.refused else bio.bio.units):
                name = (thread, op, unit)
                need(name in places, f"unit {unit} of operation {op} of thread {thread} isn't performed")
                attempted.add(name)
                if places[name] in planned:
                    break
        extra = sorted(set(places) - attempted)
        need(not extra, f"unit {extra and extra[0]} is performed after a fault of its bio")

    def outcome(self):
        """Performs the entries in order over the image before: gives the image, and notes in each bio what it read or met."""
        disk = bytearray(self.before)
        planned = set(self.script.faults)
        for shard, place, entry, bio in self.entries():
            at = SECTOR * bio.sector(entry.unit)
            size = bio.bio.unit_bytes
            if (shard, place) in planned:
                bio.fault = entry.unit
            elif bio.writes:
                disk[at:at + size] = ciphered(bio.bio.key, bio.bio.number + entry.unit, bio.text(entry.unit), True)
            else:
                bio.read[entry.unit] = ciphered(bio.bio.key, bio.bio.number + entry.unit, bytes(disk[at:at + size]), False)
        return bytes(disk)

    def answers(self):
        self.left = self.outcome()
        for thread, section in enumerate(self.script.sections):
            for op, operation in enumerate(section):
                if isinstance(operation, Evict):
                    continue
                wanted = "reset" if isinstance(operation, Reset) else operation
                if isinstance(operation, (Read, Write)):
                    wanted = self.wanted(self.plan[thread, op])
                found = self.answer(thread, op)
                need(found == wanted, f"operation {op} of thread {thread} is answered `{found}`, not `{wanted}`")

    @staticmethod
    def wanted(bio):
        if bio.refused:
            return f"refused {bio.refused}"
        if bio.fault is not None:
            return f"fault {bio.fault}"
        if bio.writes:
            return "done"
        data = b"".join(bio.read[unit] for unit in range(bio.bio.units))
        return f"done fill {data[0]:02x}" if len(set(data)) == 1 else f"done sha256 {hashlib.sha256(data).hexdigest()}"

    def image(self):
        if self.after is None:
            return
        left = self.outcome()
        need(len(self.after) == len(left), f"the image left has {len(self.after)} bytes, not {len(left)}")
        wrong = next((at for at in range(0, len(left), SECTOR) if left[at:at + SECTOR] != self.after[at:at + SECTOR]), None)
        need(wrong is None, f"the image left differs in sector {(wrong or 0) // SECTOR}")

    def ways(self):
        for shard, place, entry, bio in self.entries():
            what = f"entry {place} of shard {shard}"
            need(entry.way == bio.way, f"{what} is {entry.way}, not {bio.way}")
            if bio.way == "inline":
                device = self.device_of(bio.sector(entry.unit))
                need(entry.device == device, f"{what} names device {entry.device}, and its sector is on device {device}")

    def journals(self):
        for device, events in enumerate(self.report.devices):
            try:
                for _ in fold(self.script.devices[device], events):
                    pass
            except Unlawful as wrong:
                raise Unlawful(f"device {device}: {wrong}") from wrong

    def programmings(self):
        latest = {}
        gone = {(thread, op): answer_of_eviction(self.answer(thread, op)) for thread, op, _ in self.evictions}
        entries = sorted(self.entries(), key=lambda it: (it[2].thread, it[2].op, it[2].unit))
        for shard, place, entry, bio in entries:
            if entry.way != "inline" or bio.bio.key is None or entry.device >= len(self.report.devices):
                continue
            what = f"entry {place} of shard {shard}"
            journal = self.report.devices[entry.device]
            need(entry.event < len(journal), f"{what} names event {entry.event}, and device {entry.device} has {len(journal)}")
            event = journal[entry.event]
            key = bio.bio.key.place
            need(event.word == "program" and event.slot == entry.slot and event.key == key,
                 f"{what} names event {entry.event}, which is no programming of slot {entry.slot} with key {key}")
            use = (entry.thread, key, entry.device)
            if use in latest:
                op, before = latest[use]
                need(before <= entry.event, f"{what} names event {entry.event}, and an earlier one of its thread {before}")
                between = any(thread == entry.thread and it.place == key and op < at < entry.op and entry.device < gone[thread, at]
                              for thread, at, it in self.evictions)
                need(not between or before < entry.event,
                     f"{what} names event {entry.event} as before, and the thread evicted the key between")
            latest[use] = (entry.op, entry.event)

    def evicted(self):
        for thread, op, key in self.evictions:
            found = self.answer(thread, op)
            busy = found.startswith("busy ") and is_inline(self.script, key) and int(found.split(" ")[1]) < len(self.script.devices)
            need(found == "evicted" or busy, f"operation {op} of thread {thread}, an eviction, is answered `{found}`")
        asked = collections.Counter(key.place for _, _, key in self.evictions)
        for device, events in enumerate(self.report.devices):
            made = collections.Counter(it.key for it in events if it.word in ("evict", "busy"))
            for key, count in made.items():
                need(count <= asked[key], f"device {device} has {count} events of evictions of key {key}, of which there are {asked[key]}")

    def busy_answers(self):
        answers = collections.Counter()
        before = collections.Counter()  # device and key: evictions that a device before it refused
        for thread, op, key in self.evictions:
            found = self.answer(thread, op)
            if found.startswith("busy "):
                device, slot, refs = map(int, found.split(" ")[1:])
                answers[device, slot, key.place, refs] += 1
                for later in range(device + 1, len(self.report.devices)):
                    before[later, key.place] += 1
        events = collections.Counter(
            (device, it.slot, it.key, it.refs) for device, journal in enumerate(self.report.devices) for it in journal
            if it.word == "busy")
        for (device, slot, key, refs), count in answers.items():
            need(events[device, slot, key, refs] >= count,
                 f"`busy {device} {slot} {refs}` of key {key} is answered {count} times, without as many events")
        further = collections.Counter()
        for (device, _, key, _), count in events.items():
            further[device, key] += count
        for (device, _, key, _), count in answers.items():
            further[device, key] -= count
        for (device, key), count in further.items():
            need(count <= before[device, key],
                 f"device {device} has {count} `busy` events of key {key} beyond the answers, and {before[device, key]} are possible")

    def holders(self):
        for device, events in enumerate(self.report.devices):
            for event, keys in fold(self.script.devices[device], events):
                if event.word == "busy":
                    asking = {thread for thread, _, key in self.evictions if key.place == event.key}
                    self.held(device, event.key, event.refs, asking, "an eviction")
                for slot, refs in event.skips:
                    asking = set(self.users[device, event.key])
                    self.held(device, keys[slot], refs, asking, f"a programming of key {event.key}")

    def held(self, device, key, refs, asking, what):
        using = set(self.users[device, key])
        need(any(len(using - {thread}) >= refs for thread in asking),
             f"{what} found {refs} references of key {key} on device {device}, and {sorted(using)} are the threads with bios under it"
             f" there, {sorted(asking)} those that may have asked")

    def counts(self):
        resets = collections.Counter(operation.device for _, _, operation in self.operations(Reset))
        for device, events in enumerate(self.report.devices):
            words = collections.Counter(it.word for it in events)
            need(words["reset"] == resets[device], f"device {device} has {words['reset']} reset events, and {resets[device]} resets")
            programmed = collections.Counter(it.key for it in events if it.word == "program")
            for key, count in programmed.items():
                most = sum(self.users[device, key].values())
                need(count <= most, f"device {device} has {count} programmings of key {key} by {most} bios")
            most = sum(count for (at, _), users in self.users.items() if at == device for count in users.values())
            need(words["idle"] <= most, f"device {device} has {words['idle']} idle events by {most} bios")


def answer_of_eviction(answer):
    """The first device that the eviction isn't known to have passed: none where it was answered `evicted`."""
    return int(answer.split(" ")[1]) if answer.startswith("busy ") else float("inf")


# Each point with the way it is decided, and the points that must hold for it to be decided.
POINTS = [
    ("Orders", Judge.orders, []),
    ("Answers", Judge.answers, ["Orders"]),
    ("Image", Judge.image, ["Orders"]),
    ("Ways", Judge.ways, ["Orders"]),
    ("Journals", Judge.journals, []),
    ("Programmings", Judge.programmings, ["Orders"]),
    ("Evictions", Judge.evicted, []),
    ("Busy answers", Judge.busy_answers, ["Evictions"]),
    ("Holders behind a refusal", Judge.holders, ["Journals"]),
    ("Counts", Judge.counts, []),
]


def judged(script, before, after, text, shards, holders=True):
    """The points that fail, in their order, each with a sentence. A point that rests on one that fails isn't decided."""
    try:
        report = reports.read(text)
    except reports.NoReport as wrong:
        return {"Text": str(wrong)}
    judge = Judge(script, before, after, report, shards)
    failed = {}
    for name, decide, rests in [("Parts", Judge.parts, []), *POINTS]:
        if "Parts" in failed or any(it in failed for it in rests) or (name.startswith("Holders") and not holders):
            continue
        try:
            decide(judge)
        except Unlawful as wrong:
            failed[name] = str(wrong)
    return failed


def main(words):
    shards, holders = 1, "--no-holders" not in words
    words = [it for it in words if it != "--no-holders"]
    if words[:1] == ["--shards"] and len(words) > 1 and words[1].isdecimal() and 1 <= int(words[1]) <= 64:
        shards, words = int(words[1]), words[2:]
    if len(words) != 4 or words[0].startswith("--"):
        print("usage: judge.py [--shards N] [--no-holders] SCRIPT BEFORE AFTER REPORT", file=sys.stderr)
        return 2
    try:
        script, before, after, report = (None if it == "-" else open(it, "rb").read() for it in words)
    except OSError as error:
        print(f"judge: {error.filename}: {error.strerror}", file=sys.stderr)
        return 2
    script = read_script(script or b"")
    if not isinstance(script, Script):
        print(f"judge: script line {script[0]}: {script[1]}", file=sys.stderr)
        return 2
    size = 8 * SECTOR * script.blocks
    before = bytes(size) if before is None else before
    if len(before) != size:
        print(f"judge: the image before has {len(before)} bytes, and the script asks for {size}", file=sys.stderr)
        return 2
    failed = judged(script, before, after, report or b"", shards, holders)
    for point, sentence in failed.items():
        print(f"{point}: {sentence}")
    if not failed:
        print("lawful")
    return 1 if failed else 0


if __name__ == "__main__":
    sys.exit(main(sys.argv[1:]))

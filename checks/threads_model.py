"""A model of threads that carry out their sections at once over shared keyslots, by steps in an order that dice give. It has
nothing of the program in it; its reports are what the judge of reports (judge.py) must find lawful.

A thread goes step by step: a look for its key, a reference taken or given back, the turn of a device taken, a slot claimed
under it, a data unit performed. Between two steps any other thread may go.

    python3 checks/threads_model.py [SEED [SHARDS]] < SCRIPT
"""
import random
import sys

sys.dont_write_bytecode = True
from script_model import (MOST_PLUGGED, SECTOR, Evict, Plugged, Read, Reset, Run, Script, Write, answer_of, read_script, refusal,
                          runs_on, supports)


class SharedSlots:
    """The keyslots of a device: for each its key, the event that programmed it and its references; the idle list; the turn,
    under which keys and journal are changed; and the journal. A call is a generator that yields before each step."""

    def __init__(self, slots):
        self.keys = [None] * slots
        self.events = [None] * slots
        self.references = [0] * slots
        self.idle = list(range(slots))
        self.turn = False
        self.journal = []

    def order(self):
        return self.idle + [slot for slot in range(len(self.keys)) if slot not in self.idle]

    def take_turn(self):
        yield
        while self.turn:
            yield
        self.turn = True

    def grab(self, key):
        """The slot that has the key, with a reference more, or None."""
        slot = self.keys.index(key) if key in self.keys else None
        if slot is not None:
            self.references[slot] += 1
        return slot

    def hold(self, key):
        """Gives the slot that has the key; where none has it, the first of the idle order that is found without references."""
        while True:
            yield
            slot = self.grab(key)
            if slot is not None:
                return slot
            yield from self.take_turn()
            slot = self.grab(key)
            skipped = []
            for slot in self.order() if slot is None else []:
                yield
                if self.references[slot] == 0:
                    self.keys[slot] = None  # claimed
                    yield
                    self.events[slot] = len(self.journal)
                    skips = "".join(f" {it}:{count}" for it, count in skipped)
                    self.journal.append(f"program {slot} {key}" + (f" skip{skips}" if skips else ""))
                    self.idle = [it for it in self.idle if it != slot]
                    self.keys[slot] = key
                    self.references[slot] = 1
                    break
                skipped.append((slot, self.references[slot]))
                slot = None
            self.turn = False
            if slot is not None:
                return slot

    def put(self, slot):
        yield
        self.references[slot] -= 1
        if self.references[slot] == 0:
            yield from self.take_turn()
            self.idle = [it for it in self.idle if it != slot] + [slot]
            self.journal.append(f"idle {slot}")
            self.turn = False

    def evict(self, key):
        """The slot that refuses and its references, or None."""
        yield from self.take_turn()
        found = None
        if key in self.keys:
            slot = self.keys.index(key)
            yield
            if self.references[slot]:
                found = slot, self.references[slot]
                self.journal.append(f"busy {slot} {key} {self.references[slot]}")
            else:
                self.keys[slot] = None
                self.journal.append(f"evict {slot} {key}")
        self.turn = False
        return found

    def reset(self):
        while True:
            yield from self.take_turn()
            if not any(self.references):
                self.journal.append("reset")
                self.turn = False
                return
            self.turn = False


class ThreadsRun(Run):
    """All sections at once."""
    slots_class = SharedSlots

    def __init__(self, script, shards, image):
        super().__init__(script, shards, image)
        self.slots = [self.slots_class(device.slots) for device in script.devices]

    joins = staticmethod(runs_on)

    def supports(self, key):
        return supports(self.devices, key)

    def asked(self, key):
        """The devices' slots that an eviction asks."""
        return self.slots if self.supports(key) else []

    def steps(self, thread, operations, answers):
        """A section, as a generator that yields before each step."""
        plugged = []
        open_plug = False
        for number, operation in enumerate(operations):
            yield
            if isinstance(operation, (Read, Write)):
                refused = refusal(operation.bio, len(self.disk) // SECTOR)
                if not refused and operation.bio.key and not self.fallback and not self.supports(operation.bio.key):
                    refused = "unsupported"
                if refused:
                    answers[number] = f"refused {refused}"
                    continue
                if len(plugged) == MOST_PLUGGED:
                    yield from self.submitted(thread, plugged, answers)
                plugged.append(Plugged(number, operation, []))
                if not open_plug:
                    yield from self.submitted(thread, plugged, answers)
                continue
            yield from self.submitted(thread, plugged, answers)
            if isinstance(operation, Evict):
                refusals = []
                for device, slots in enumerate(self.asked(operation.key)):
                    found = yield from slots.evict(operation.key.place)
                    refusals += [(device, *found)] if found else []
                answers[number] = f"busy {' '.join(map(str, refusals[0]))}" if refusals else "evicted"
            elif isinstance(operation, Reset):
                yield from self.slots[operation.device].reset()
                answers[number] = "reset"
            else:
                open_plug = operation == "plug"
                answers[number] = operation

    def submitted(self, thread, plugged, answers):
        requests = []
        for bio in plugged:
            if requests and self.joins(requests[-1][-1].operation, bio.operation):
                requests[-1].append(bio)
            else:
                requests.append([bio])
        for request in requests:
            key = request[0].operation.bio.key
            inline = key is not None and self.supports(key)
            held = None  # the device, and the slot of it that is held
            for bio in request:
                for unit in range(bio.operation.bio.units):
                    way = "soft" if key else "plain"
                    if inline:
                        device = self.device_of(bio.operation.bio.sector + unit * bio.operation.bio.unit_sectors)
                        if held and held[0] != device:
                            yield from self.slots[held[0]].put(held[1])
                            held = None
                        if not held:
                            held = device, (yield from self.slots[device].hold(key.place))
                        way = f"inline {device} {held[1]} {self.slots[device].events[held[1]]}"
                    yield
                    self.unit(thread, bio, unit, way)
            if held:
                yield from self.slots[held[0]].put(held[1])
        for bio in plugged:
            if bio.answer is None:
                bio.answer = "done" if isinstance(bio.operation, Write) else answer_of(b"".join(bio.texts))
            answers[bio.number] = bio.answer
        plugged.clear()


def threaded(script, shards, image, dice, run_class=ThreadsRun):
    """The report of one run of all sections at once, and the image that it leaves."""
    run = run_class(script, shards, image)
    answers = [[None] * len(section) for section in script.sections]
    going = [run.steps(thread, section, answers[thread]) for thread, section in enumerate(script.sections)]
    goes_on = dice.choice([0, 0.5, 0.9, 0.99])  # how likely the thread of the last step goes on
    thread = None
    while going:
        if thread not in going or dice.random() >= goes_on:
            thread = dice.choice(going)
        if next(thread, going) is going:
            going.remove(thread)
        elif any(slots.turn for slots in run.slots):
            goes_on = min(goes_on, 0.9)
    lines = ["report 1"]
    for number, of_thread in enumerate(answers):
        lines += [f"thread {number}", *of_thread]
    for shard, entries in enumerate(run.shards):
        lines += [f"shard {shard} {len(entries)}", *entries]
    for device, slots in enumerate(run.slots):
        lines += [f"device {device} {len(slots.journal)}", *slots.journal]
    return "".join(line + "\n" for line in [*lines, "end"]).encode(), bytes(run.disk)


def main(words):
    script = read_script(sys.stdin.buffer.read())
    if not isinstance(script, Script):
        print(f"threads_model: script line {script[0]}: {script[1]}", file=sys.stderr)
        return 2
    report, _ = threaded(script, int(words[1]) if len(words) > 1 else 1, None, random.Random(int(words[0]) if words else 1))
    sys.stdout.buffer.write(report)
    return 0


if __name__ == "__main__":
    sys.exit(main(sys.argv[1:]))

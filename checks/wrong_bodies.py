"""Runs of threads by wrong programs: each of them makes one mistake that somebody might make, and the judge of reports (judge.py)
must refuse one of its runs for a point that the mistake breaks.

    wrong_bodies.py [SEED]
"""
import random
import sys

sys.dont_write_bytecode = True
from judge import judged
from script_cases import text_of
from script_model import SECTOR, UNIT_SIZES, XTS, Read, Write, ciphered, read_script
from script_texts import a_script_of_threads, a_script_with_devices
from threads_model import SharedSlots, ThreadsRun, threaded

MOST_TRIES = 400


def with_slots(slots):
    """A run whose devices' slots go by this class."""
    return type("Wrong", (ThreadsRun,), {"slots_class": slots})


# ---- slots


class MostRecentlyIdle(SharedSlots):
    def order(self):
        return super().order()[::-1]


class NeverIdle(SharedSlots):
    def put(self, slot):
        yield
        self.references[slot] -= 1


class IdleAtEachRelease(SharedSlots):
    def put(self, slot):
        yield from super().put(slot)
        if self.references[slot]:
            self.journal.append(f"idle {slot}")


class SkipsUntold(SharedSlots):
    def hold(self, key):
        slot = yield from super().hold(key)
        self.journal[self.events[slot]] = self.journal[self.events[slot]].split(" skip")[0]
        return slot


class NoReset(SharedSlots):
    def reset(self):
        yield


class ResetSlotBySlot(SharedSlots):
    def reset(self):
        for _ in self.keys:
            yield from super().reset()


class ForgetsByReset(SharedSlots):
    def reset(self):
        yield from super().reset()
        self.keys = [None] * len(self.keys)


class NeverBusy(SharedSlots):
    def evict(self, key):
        yield from super().evict(key)
        return None


class AlwaysBusy(SharedSlots):
    def evict(self, key):
        found = yield from super().evict(key)
        return found or (0, 1)


class EvictsNothing(SharedSlots):
    def evict(self, key):
        yield
        return None


class OldEvent(SharedSlots):
    """A hit is told with the event before the slot's programming."""
    def hold(self, key):
        hit = key in self.keys
        slot = yield from super().hold(key)
        if hit and self.events[slot]:
            self.events[slot] -= 1
        return slot


class WrongKey(SharedSlots):
    """A slot that some key has is taken for a hit."""
    def grab(self, key):
        slot = next((at for at, other in enumerate(self.keys) if other is not None), None)
        if slot is not None:
            self.references[slot] += 1
        return slot


# ---- runs


class PartialEviction(ThreadsRun):
    def asked(self, key):
        return super().asked(key)[:1]


class JoinedCapabilities(ThreadsRun):
    def supports(self, key):
        bit = UNIT_SIZES.index(key.unit)
        return any((it.xts if key.mode == XTS else it.essiv) >> bit & 1 and key.number_bytes <= it.number_bytes for it in self.devices)


class WideMerge(ThreadsRun):
    """Bios of other keys are merged too."""
    @staticmethod
    def joins(one, other):
        return type(one) is type(other) and one.bio.key is not None and other.bio.key is not None


class EndsTheRequest(ThreadsRun):
    """A fault ends the other bios of its plug too."""
    def submitted(self, thread, plugged, answers):
        bios = list(plugged)
        for step in super().submitted(thread, plugged, answers):
            met = next((bio.answer for bio in bios if bio.answer and bio.answer.startswith("fault")), None)
            for bio in bios if met else []:
                bio.answer = bio.answer or met
            yield step


class Wrote(ThreadsRun):
    """A run in which a unit's bytes are written or read by `text`."""
    def unit(self, thread, plugged, unit, way):
        before = len(plugged.texts)
        bio, at = plugged.operation.bio, SECTOR * (plugged.operation.bio.sector + unit * plugged.operation.bio.unit_sectors)
        old = bytes(self.disk[at:at + bio.unit_bytes])
        super().unit(thread, plugged, unit, way)
        if plugged.answer is None and isinstance(plugged.operation, Write):
            self.disk[at:at + bio.unit_bytes] = self.written(plugged.operation, unit, way, old, bytes(self.disk[at:at + bio.unit_bytes]))
        if len(plugged.texts) > before:
            plugged.texts[-1] = self.read(plugged.operation, unit, way, old, plugged.texts[-1], at)

    def written(self, operation, unit, way, old, new):
        return new

    def read(self, operation, unit, way, old, text, at):
        return text


class DroppedWrite(Wrote):
    def written(self, operation, unit, way, old, new):
        return old if unit else new


class OneNumber(Wrote):
    def written(self, operation, unit, way, old, new):
        bio, size = operation.bio, operation.bio.unit_bytes
        return ciphered(bio.key, bio.number, operation.data[unit * size:(unit + 1) * size], True)

    def read(self, operation, unit, way, old, text, at):
        return ciphered(operation.bio.key, operation.bio.number, old, False)


class PlainFallback(Wrote):
    def written(self, operation, unit, way, old, new):
        size = operation.bio.unit_bytes
        return operation.data[unit * size:(unit + 1) * size] if way == "soft" else new

    def read(self, operation, unit, way, old, text, at):
        return old if way == "soft" else text


class OpeningImage(Wrote):
    def __init__(self, script, shards, image):
        super().__init__(script, shards, image)
        self.opening = bytes(self.disk)

    def read(self, operation, unit, way, old, text, at):
        bio = operation.bio
        return ciphered(bio.key, bio.number + unit, self.opening[at:at + bio.unit_bytes], False)


class GoesOnAfterFaults(ThreadsRun):
    def unit(self, thread, plugged, unit, way):
        answer = plugged.answer
        plugged.answer = None
        super().unit(thread, plugged, unit, way)
        plugged.answer = answer or plugged.answer


class SkipsOtherShards(ThreadsRun):
    """A bio goes on where another shard has its next unit, and is told as done."""
    def unit(self, thread, plugged, unit, way):
        bio = plugged.operation.bio
        if bio.sector // 8 % len(self.shards) == (bio.sector + unit * bio.unit_sectors) // 8 % len(self.shards):
            super().unit(thread, plugged, unit, way)
        elif isinstance(plugged.operation, Read) and plugged.answer is None:
            plugged.texts.append(bytes(bio.unit_bytes))


class OtherThread(ThreadsRun):
    def unit(self, thread, plugged, unit, way):
        super().unit(0, plugged, unit, way)


class TwiceCarriedOut(ThreadsRun):
    def steps(self, thread, operations, answers):
        yield from super().steps(thread, operations, answers)
        yield from super().steps(thread, operations, answers)


class LeavesOneOut(ThreadsRun):
    """The last bio of a plug of several is answered and not carried out."""
    def submitted(self, thread, plugged, answers):
        last = plugged.pop() if len(plugged) > 1 else None
        yield from super().submitted(thread, plugged, answers)
        if last:
            answers[last.number] = "done"


class FromTheEnd(ThreadsRun):
    """A plug is submitted with its last bio first."""
    def submitted(self, thread, plugged, answers):
        plugged.reverse()
        yield from super().submitted(thread, plugged, answers)


# ---- reports that are changed afterwards


def sorted_by_thread(lines):
    """The entries of each shard, by thread."""
    at = 0
    while at < len(lines):
        words = lines[at].split(" ")
        if words[0] == "shard":
            count = int(words[2])
            lines[at + 1:at + 1 + count] = sorted(lines[at + 1:at + 1 + count], key=lambda line: int(line.split(" ")[0]))
            at += count
        at += 1
    return lines


def first_answers_exchanged(lines):
    """The first answer of thread 0 for that of thread 1."""
    one, other = lines.index("thread 0") + 1, lines.index("thread 1") + 1
    if lines[one] != "thread 1" and not lines[other].startswith(("thread", "shard")):
        lines[one], lines[other] = lines[other], lines[one]
    return lines


# name, the points of which one must refuse it, the class or the change of the report
WRONG = [
    ("the most recently idle slot", {"Journals"}, with_slots(MostRecentlyIdle)),
    ("no idle event", {"Journals"}, with_slots(NeverIdle)),
    ("an idle event at each release", {"Counts", "Journals"}, with_slots(IdleAtEachRelease)),
    ("skips that aren't told", {"Journals"}, with_slots(SkipsUntold)),
    ("a reset without its event", {"Counts"}, with_slots(NoReset)),
    ("a reset slot by slot", {"Counts"}, with_slots(ResetSlotBySlot)),
    ("a reset that forgets the keys", {"Journals"}, with_slots(ForgetsByReset)),
    ("a refusal that is answered `evicted`", {"Busy answers", "Programmings"}, with_slots(NeverBusy)),
    ("an eviction that is always refused", {"Busy answers", "Evictions"}, with_slots(AlwaysBusy)),
    ("an eviction that asks no device", {"Programmings"}, with_slots(EvictsNothing)),
    ("an entry that names the event before", {"Programmings"}, with_slots(OldEvent)),
    ("a hit under another key", {"Programmings"}, with_slots(WrongKey)),
    ("an eviction from the first device alone", {"Programmings"}, PartialEviction),
    ("joined capabilities", {"Ways", "Answers", "Orders"}, JoinedCapabilities),
    ("bios of other keys in one request", {"Programmings", "Ways"}, WideMerge),
    ("a fault that ends its whole plug", {"Orders", "Answers"}, EndsTheRequest),
    ("a write that is dropped", {"Answers", "Image"}, DroppedWrite),
    ("one number for all units", {"Answers", "Image"}, OneNumber),
    ("a fallback that doesn't encipher", {"Answers", "Image"}, PlainFallback),
    ("reads from the opening image", {"Answers"}, OpeningImage),
    ("units after the fault of their bio", {"Orders"}, GoesOnAfterFaults),
    ("units of other shards that are left out", {"Orders"}, SkipsOtherShards),
    ("another thread's number", {"Orders"}, OtherThread),
    ("sections carried out twice", {"Orders", "Counts"}, TwiceCarriedOut),
    ("a bio that is left out", {"Orders"}, LeavesOneOut),
    ("a plug that is submitted from its end", {"Orders"}, FromTheEnd),
    ("entries sorted by thread", {"Answers", "Image", "Orders"}, sorted_by_thread),
    ("answers exchanged between threads", {"Answers", "Evictions"}, first_answers_exchanged),
]


def refused(body, dice):
    """The first point for which a run by this body is refused, after how many runs; or nothing."""
    for turn in range(1, MOST_TRIES + 1):
        script = read_script([a_script_of_threads, a_script_with_devices][turn % 2](dice))
        shards = dice.choice([1, 2, 3])
        if len(script.sections) < 2:
            continue
        before = dice.randbytes(8 * SECTOR * script.blocks)
        if isinstance(body, type):
            report, after = threaded(script, shards, before, dice, body)
        else:
            report, after = threaded(script, shards, before, dice)
            report = text_of(body(report.decode().split("\n")[:-1]))
        points = judged(script, before, after, report, shards)
        if points:
            return next(iter(points)), turn
    return None, MOST_TRIES


def main(words):
    seed = int(words[0]) if words else 1
    most = 0
    for name, points, body in WRONG:
        point, turns = refused(body, random.Random(seed))
        most = max(most, turns)
        if point not in points:
            print(f"wrong_bodies: seed {seed}: {name} should be refused for {sorted(points)}, and is for {point}, in {turns} runs")
            return 1
    print(f"wrong_bodies: {len(WRONG)} wrong programs are refused, each within {most} runs (seed {seed})")
    return 0


if __name__ == "__main__":
    sys.exit(main(sys.argv[1:]))

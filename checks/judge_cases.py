"""Tries the judge of reports (judge.py): reports that are lawful, of which those of several threads are written by hand or made
by the model of threads (threads_model.py), and broken ones. Each broken one breaks one point of a lawful run, and must be
refused for that point alone.

    judge_cases.py [HOW_MANY [SEED]]
"""
import collections
import random
import sys

sys.dont_write_bytecode = True
from judge import POINTS, judged
from script_cases import B512, C512, E1, H512, H4096, one_device, text_of, with_devices, writes
from script_model import SECTOR, Script, ciphered, read_script, run_of
from script_texts import a_script_of_threads
from threads_model import threaded


class Run:
    """A script, the image before, the image left, the report's text and the number of shards."""

    def __init__(self, script, shards=1, report=None, after=None):
        self.script = read_script(script)
        assert isinstance(self.script, Script), self.script
        self.shards = shards
        self.before = bytes(8 * SECTOR * self.script.blocks)
        found, left = run_of(self.script, shards, self.before)
        self.report = found.decode() if report is None else "".join(line + "\n" for line in report)
        self.after = left if after is None else after

    def judged(self, report=None, after=None, holders=True):
        text = self.report if report is None else report
        return judged(self.script, self.before, self.after if after is None else after, text.encode(), self.shards, holders)


# A run of two sections over two shards and two devices, with a fault, a plug, evictions, a reset, and every way.
LARGE = Run(text_of([
    "blkcrypt 1", "disk 4", "fallback on", "device 0 2 2 1 0 8", "device 2 2 1 1 0 8", H512, B512, f"key c aes-128-cbc-essiv 512 8 {E1}",
    "fault 0 5",
    "thread", "write a 0 2 0 fill 11", "write b 12 10 0 fill 22", "read a 0 2 0", "evict a", "read a 0 1 0", "write - 30 1 - fill 33",
    "write c 20 1 5 fill 44", "reset 1", "read b 12 1 0", "read b 16 4 0",
    "thread", "plug", "write a 1 1 1 fill 55", "write a 2 1 2 fill 66", "unplug", "evict c", "evict b", "read - 30 1 -", "read a 40 1 0",
    "read b 12 1 0", "end"]), 2)

ONE_KEY = Run(one_device(2, [H512], *writes("a", "a")))
THREE_KEYS = Run(one_device(2, [H512, B512, C512], *writes("a", "b", "c", "a")))
EVICTED = Run(one_device(1, [H512], *writes("a"), "evict a"))
EVICTED_OTHER = Run(one_device(1, [H512, B512], *writes("a"), "evict b"))


def by_hand(script, shards, *report):
    return Run(script, shards, report)


BUSY = with_devices(2, "off", "device 0 2 2 8 0 8", H4096, "thread", "write a 0 1 0 fill 11", "read a 0 1 0", "thread", "evict a")
BUSY_REPORT = [
    "report 1", "thread 0", "done", "done fill 11", "thread 1", "busy 0 0 1", "shard 0 2", "0 0 0 inline 0 0 0", "0 1 0 inline 0 0 0",
    "device 0 4", "program 0 0", "busy 0 0 1", "idle 0", "idle 0", "end"]
IDLE_REPORT = [
    "report 1", "thread 0", "done", "done fill 11", "thread 1", "evicted", "shard 0 2", "0 0 0 inline 0 0 0", "0 1 0 inline 0 0 0",
    "device 0 4", "program 0 0", "idle 0", "idle 0", "evict 0 0", "end"]
# Two callers and two slots: the first has a's slot again while the second, which has given b's back, asks for c's.
SKIP = with_devices(2, "off", "device 0 2 2 1 0 8", H512, B512, C512, "thread", "write a 0 1 0 fill 11", "read a 0 1 0", "thread",
                    "write b 8 1 0 fill 22", "write c 9 1 0 fill 33")
SKIP_REPORT = [
    "report 1", "thread 0", "done", "done fill 11", "thread 1", "done", "done", "shard 0 4", "0 0 0 inline 0 0 0", "1 0 0 inline 0 1 2",
    "0 1 0 inline 0 0 0", "1 1 0 inline 0 1 4", "device 0 7", "program 0 0", "idle 0", "program 1 1", "idle 1", "program 1 2 skip 0:1",
    "idle 0", "idle 1", "end"]
TWO_DEVICES = with_devices(2, "off", "device 0 1 1 8 0 8", "device 1 1 1 8 0 8", H4096, "thread", "write a 0 2 0 fill 11", "thread",
                           "evict a")
SECOND_BUSY_REPORT = [
    "report 1", "thread 0", "done", "thread 1", "busy 1 0 1", "shard 0 2", "0 0 0 inline 0 0 0", "0 0 1 inline 1 0 0", "device 0 3",
    "program 0 0", "idle 0", "evict 0 0", "device 1 3", "program 0 0", "busy 0 0 1", "idle 0", "end"]
SAME_KEY = with_devices(2, "off", "device 0 2 2 8 0 8", H4096, "thread", "write a 0 1 0 fill 11", "thread", "write a 8 1 0 fill 22",
                        "thread", "evict a")
# Both threads hold the one slot when the third asks; its last reference is given back once.
TWO_HOLDERS_REPORT = [
    "report 1", "thread 0", "done", "thread 1", "done", "thread 2", "busy 0 0 2", "shard 0 2", "1 0 0 inline 0 0 0",
    "0 0 0 inline 0 0 0", "device 0 3", "program 0 0", "busy 0 0 2", "idle 0", "end"]
# The reference was given back, and before its idle event is written another caller has programmed the slot.
LATE_IDLE = with_devices(2, "off", "device 0 2 1 1 0 8", H512, B512, "thread", "write a 0 1 0 fill 11", "thread", "write b 8 1 0 fill 22")
LATE_IDLE_REPORT = [
    "report 1", "thread 0", "done", "thread 1", "done", "shard 0 2", "0 0 0 inline 0 0 0", "1 0 0 inline 0 0 1", "device 0 4",
    "program 0 0", "program 0 1", "idle 0", "idle 0", "end"]

BUSY_RUN = by_hand(BUSY, 1, *BUSY_REPORT)
SKIP_RUN = by_hand(SKIP, 1, *SKIP_REPORT)
SECOND_BUSY_RUN = by_hand(TWO_DEVICES, 1, *SECOND_BUSY_REPORT)

LAWFUL = [
    ("a run of one caller over two devices", LARGE), ("two writes under a key", ONE_KEY), ("three keys over two slots", THREE_KEYS),
    ("an eviction", EVICTED),
    ("an eviction of a key that is in use", BUSY_RUN), ("an eviction after the last use", by_hand(BUSY, 1, *IDLE_REPORT)),
    ("a slot that is skipped", SKIP_RUN), ("an eviction that the second device refuses", SECOND_BUSY_RUN),
    ("an eviction of a key with two holders", by_hand(SAME_KEY, 1, *TWO_HOLDERS_REPORT)),
    ("an idle event after the slot's next programming", by_hand(LATE_IDLE, 1, *LATE_IDLE_REPORT)),
]

DIGEST = next(line for line in LARGE.report.split("\n") if "sha256" in line)

# name, the point, the run, and edits of its report: what stands there once, and what stands there instead
BROKEN = [
    ("no foot", "Text", LARGE, [("\nend\n", "\n")]),
    ("a leading zero", "Text", LARGE, [("\nfault 7", "\nfault 07")]),
    ("a shard with an entry more than it says", "Text", LARGE, [("shard 1 8", "shard 1 7")]),
    ("an answer left out", "Parts", LARGE, [("\nplug\n", "\n")]),
    ("an answer too many", "Parts", LARGE, [("\nunplug\n", "\nunplug\nunplug\n")]),
    ("a thread too many", "Parts", LARGE, [("shard 0", "thread 2\nshard 0")]),
    ("a device too many", "Parts", LARGE, [("\nend\n", "\ndevice 2 0\nend\n")]),
    ("no devices", "Parts", EVICTED, [("device 0 3\nprogram 0 0\nidle 0\nevict 0 0\n", "")]),
    ("a shard too many", "Parts", EVICTED, [("device 0 3", "shard 1 0\ndevice 0 3")]),

    ("a unit left out", "Orders", LARGE, [("shard 0 16", "shard 0 15"), ("1 2 0 inline 0 1 6\n", "")]),
    ("a unit performed twice", "Orders", LARGE, [("shard 0 16", "shard 0 17"), ("1 2 0 inline 0 1 6\n", "1 2 0 inline 0 1 6\n" * 2)]),
    ("two units of a bio in the other order", "Orders", LARGE,
        [("0 1 4 inline 1 0 0\n0 1 5 inline 1 0 0", "0 1 5 inline 1 0 0\n0 1 4 inline 1 0 0")]),
    ("two bios in the other order", "Orders", LARGE,
        [("1 1 0 inline 0 1 6\n1 2 0 inline 0 1 6", "1 2 0 inline 0 1 6\n1 1 0 inline 0 1 6")]),
    ("a unit on another shard", "Orders", LARGE,
        [("shard 0 16", "shard 0 17"), ("1 8 0 inline 0 0 12\n", ""), ("shard 1 8", "1 8 0 inline 0 0 12\nshard 1 7")]),
    ("a unit after the fault of its bio", "Orders", LARGE,
        [("shard 0 16", "shard 0 17"), ("0 1 7 inline 1 0 0", "0 1 7 inline 1 0 0\n0 1 8 inline 1 0 0")]),
    ("a bio that ends without a fault", "Orders", LARGE, [("shard 1 8", "shard 1 7"), ("0 1 3 inline 0 1 2\n", "")]),
    ("a unit of a refused bio", "Orders", LARGE, [("shard 1 8", "shard 1 9"), ("1 6 0 plain\n", "1 6 0 plain\n1 7 0 inline 0 0 12\n")]),
    ("a unit that the bio doesn't have", "Orders", LARGE, [("0 4 0 inline 0 1 6", "0 4 1 inline 0 1 6")]),
    ("a unit of an eviction", "Orders", LARGE, [("0 4 0 inline 0 1 6", "0 3 0 inline 0 1 6")]),
    ("another thread's number", "Orders", LARGE, [("1 6 0 plain", "0 6 0 plain")]),
    ("a thread that isn't there", "Orders", LARGE, [("1 6 0 plain", "2 6 0 plain")]),
    ("entries sorted by number of unit", "Orders", LARGE,
        [("0 0 1 inline 0 0 0\n", ""), ("0 2 0 inline 0 0 0\n", "0 2 0 inline 0 0 0\n0 0 1 inline 0 0 0\n")]),

    ("a read before the write that it saw", "Answers", LARGE,
        [("1 6 0 plain\n", ""), ("0 5 0 plain\n", "1 6 0 plain\n0 5 0 plain\n")]),
    ("another byte", "Answers", LARGE, [("done fill 33", "done fill 34")]),
    ("another digest", "Answers", LARGE, [(DIGEST, DIGEST[:-1] + ("0" if DIGEST[-1] != "0" else "1"))]),
    ("a digest of bytes that are equal", "Answers", LARGE, [("done fill 33", DIGEST)]),
    ("a fault that isn't told", "Answers", LARGE, [("\nfault 7\n", "\ndone\n")]),
    ("a fault of another unit", "Answers", LARGE, [("\nfault 7\n", "\nfault 6\n")]),
    ("a fault that wasn't met", "Answers", LARGE, [("done fill 33", "fault 0")]),
    ("another refusal", "Answers", LARGE, [("refused outside", "refused dun")]),
    ("a refused bio that is done", "Answers", LARGE, [("refused outside", "done fill 00")]),
    ("an accepted bio that is refused", "Answers", LARGE, [("done fill 33", "refused unsupported")]),
    ("a write that is answered as a read", "Answers", ONE_KEY, [("thread 0\ndone\n", "thread 0\ndone fill 00\n")]),
    ("a reset that is answered as an eviction", "Answers", LARGE, [("\nreset\ndone", "\nevicted\ndone")]),
    ("a plug that is answered as its end", "Answers", LARGE, [("thread 1\nplug", "thread 1\nunplug")]),
    ("a busy read", "Answers", LARGE, [("done fill 33", "busy 0 0 1")]),

    ("a soft unit as a plain one", "Ways", LARGE, [("0 6 0 soft", "0 6 0 plain")]),
    ("a plain unit as a soft one", "Ways", LARGE, [("0 5 0 plain", "0 5 0 soft")]),
    ("an inline unit as a soft one", "Ways", LARGE, [("0 0 0 inline 0 0 0", "0 0 0 soft")]),
    ("a device that doesn't have the sector", "Ways", LARGE, [("0 9 0 inline 1 0 0", "0 9 0 inline 0 0 8")]),
    ("a device that isn't there", "Ways", LARGE, [("0 9 0 inline 1 0 0", "0 9 0 inline 2 0 0")]),

    ("a slot that isn't given back", "Journals", LARGE, [("device 0 14", "device 0 13"), ("idle 0\ndevice 1", "device 1")]),
    ("the most recently idle slot", "Journals", THREE_KEYS,
        [("program 0 2\nidle 0\nprogram 1 0\nidle 1", "program 1 2\nidle 1\nprogram 0 0\nidle 0"),
         ("0 2 0 inline 0 0 4", "0 2 0 inline 0 1 4"), ("0 3 0 inline 0 1 6", "0 3 0 inline 0 0 6")]),
    ("a second slot for a key", "Journals", ONE_KEY,
        [("device 0 3", "device 0 4"), ("idle 0\nidle 0", "idle 0\nprogram 1 0\nidle 1"), ("0 1 0 inline 0 0 0", "0 1 0 inline 0 1 2")]),
    ("an eviction from a slot without the key", "Journals", LARGE, [("evict 0 0", "evict 1 0")]),
    ("an eviction of another key", "Journals", EVICTED_OTHER, [("device 0 2", "device 0 3"), ("idle 0\n", "idle 0\nevict 0 1\n")]),
    ("a slot that isn't there", "Journals", LARGE, [("evict 0 0", "evict 2 0")]),
    ("an idle slot that isn't there", "Journals", ONE_KEY, [("idle 0\nidle 0", "idle 0\nidle 2")]),
    ("a skip without references", "Journals", SKIP_RUN, [("skip 0:1", "skip 0:0")]),
    ("a skip that isn't told", "Journals", SKIP_RUN, [(" skip 0:1", "")]),
    ("a skip of a slot that doesn't stand before", "Journals", SKIP_RUN, [("skip 0:1", "skip 1:1")]),
    ("a skip of a slot without a key", "Journals", ONE_KEY,
        [("program 0 0", "program 1 0 skip 0:1"), ("idle 0\nidle 0", "idle 1\nidle 1"), ("0 0 0 inline 0 0 0", "0 0 0 inline 0 1 0"),
         ("0 1 0 inline 0 0 0", "0 1 0 inline 0 1 0")]),
    ("a refusal without references", "Journals", BUSY_RUN,
        [("thread 1\nbusy 0 0 1", "thread 1\nbusy 0 0 0"), ("program 0 0\nbusy 0 0 1", "program 0 0\nbusy 0 0 0")]),
    ("a refusal by a slot without the key", "Journals", BUSY_RUN,
        [("program 0 0\nbusy 0 0 1", "busy 0 0 1\nprogram 0 0"), ("0 0 0 inline 0 0 0", "0 0 0 inline 0 0 1"),
         ("0 1 0 inline 0 0 0", "0 1 0 inline 0 0 1")]),

    ("the event before", "Programmings", LARGE, [("0 4 0 inline 0 1 6", "0 4 0 inline 0 1 5")]),
    ("the event after", "Programmings", LARGE, [("0 4 0 inline 0 1 6", "0 4 0 inline 0 1 7")]),
    ("another slot", "Programmings", LARGE, [("0 4 0 inline 0 1 6", "0 4 0 inline 0 0 6")]),
    ("another key's programming", "Programmings", LARGE, [("0 2 1 inline 0 0 0", "0 2 1 inline 0 1 2")]),
    ("an event that isn't there", "Programmings", LARGE, [("0 4 0 inline 0 1 6", "0 4 0 inline 0 1 14")]),
    ("the programming that the thread's own eviction undid", "Programmings", LARGE, [("0 4 0 inline 0 1 6", "0 4 0 inline 0 0 0")]),
    ("programmings that go back", "Programmings", LARGE,
        [("0 1 3 inline 0 1 2", "0 1 3 inline 0 0 8"), ("0 8 0 inline 0 0 8", "0 8 0 inline 0 1 2")]),
    ("programmings that go back within a bio", "Programmings", LARGE, [("0 1 2 inline 0 1 2", "0 1 2 inline 0 0 8")]),

    ("an eviction that is done", "Evictions", EVICTED, [("\nevicted\n", "\ndone\n")]),
    ("a busy eviction of a soft key", "Evictions", LARGE, [("unplug\nevicted\n", "unplug\nbusy 0 0 1\n")]),
    ("a busy eviction at a device that isn't there", "Evictions", BUSY_RUN, [("thread 1\nbusy 0 0 1", "thread 1\nbusy 1 0 1")]),
    ("an eviction that nobody asked for", "Evictions", ONE_KEY,
        [("device 0 3", "device 0 5"), ("idle 0\nidle 0", "idle 0\nevict 0 0\nprogram 1 0\nidle 1"),
         ("0 1 0 inline 0 0 0", "0 1 0 inline 0 1 3")]),
    ("a refusal and an eviction by one operation on one device", "Evictions", by_hand(BUSY, 1, *IDLE_REPORT),
        [("device 0 4", "device 0 5"), ("program 0 0", "program 0 0\nbusy 0 0 1"), ("\nevicted\n", "\nbusy 0 0 1\n")]),

    ("a busy answer without its event", "Busy answers", BUSY_RUN, [("device 0 4\nprogram 0 0\nbusy 0 0 1", "device 0 3\nprogram 0 0")]),
    ("a busy answer with other references", "Busy answers", BUSY_RUN, [("thread 1\nbusy 0 0 1", "thread 1\nbusy 0 0 2")]),
    ("a busy answer with another slot", "Busy answers", BUSY_RUN, [("thread 1\nbusy 0 0 1", "thread 1\nbusy 0 1 1")]),
    ("a busy event of an eviction that is answered `evicted`", "Busy answers", BUSY_RUN, [("thread 1\nbusy 0 0 1", "thread 1\nevicted")]),
    ("a busy answer that names the second device in place of the first", "Busy answers", SECOND_BUSY_RUN,
        [("program 0 0\nidle 0\nevict 0 0", "program 0 0\nbusy 0 0 1\nidle 0")]),
    ("a busy answer that names a device which evicted", "Busy answers", SECOND_BUSY_RUN,
        [("thread 1\nbusy 1 0 1", "thread 1\nbusy 0 0 1")]),

    ("more references than other threads", "Holders behind a refusal", BUSY_RUN,
        [("thread 1\nbusy 0 0 1", "thread 1\nbusy 0 0 2"), ("program 0 0\nbusy 0 0 1", "program 0 0\nbusy 0 0 2")]),
    ("a busy eviction of one thread", "Holders behind a refusal", EVICTED,
        [("\nevicted\n", "\nbusy 0 0 1\n"), ("program 0 0\nidle 0\nevict 0 0", "program 0 0\nbusy 0 0 1\nidle 0")]),
    ("a skip over more references than other threads", "Holders behind a refusal", SKIP_RUN, [("skip 0:1", "skip 0:2")]),
    ("a skip of one thread", "Holders behind a refusal", THREE_KEYS,
        [("program 0 2\nidle 0\nprogram 1 0\nidle 1", "program 1 2 skip 0:1\nidle 1\nidle 0"), ("device 0 8", "device 0 7"),
         ("0 2 0 inline 0 0 4", "0 2 0 inline 0 1 4"), ("0 3 0 inline 0 1 6", "0 3 0 inline 0 0 0")]),

    ("a reset without its event", "Counts", LARGE, [("device 1 5", "device 1 4"), ("idle 0\nreset\nidle 0", "idle 0\nidle 0")]),
    ("a reset slot by slot", "Counts", LARGE, [("device 1 5", "device 1 6"), ("idle 0\nreset\nidle 0", "idle 0\nreset\nreset\nidle 0")]),
    ("a reset on another device", "Counts", LARGE,
        [("device 1 5", "device 1 4"), ("idle 0\nreset\nidle 0", "idle 0\nidle 0"), ("device 0 14", "device 0 15"),
         ("idle 0\ndevice 1", "idle 0\nreset\ndevice 1")]),
    ("a programming that no bio asked for", "Counts", EVICTED,
        [("device 0 3", "device 0 5"), ("evict 0 0", "evict 0 0\nprogram 0 0\nidle 0")]),
    ("a programming of a key that the script doesn't have", "Counts", ONE_KEY,
        [("device 0 3", "device 0 4"), ("idle 0\nidle 0", "idle 0\nprogram 1 7\nidle 1"), ("0 1 0 inline", "0 1 0 inline")]),
    ("an idle event too many", "Counts", ONE_KEY, [("device 0 3", "device 0 4"), ("idle 0\nidle 0", "idle 0\nidle 0\nidle 0")]),
]


def enciphered(run, key, number, text):
    return ciphered(run.script.keys[key], number, text, True)


def with_sector(run, sector, data):
    return run.after[:SECTOR * sector] + data + run.after[SECTOR * (sector + 1):]


# name, the run, and another image in place of the one that it leaves
IMAGES = [
    ("an image with another bit", LARGE, LARGE.after[:-1] + bytes([LARGE.after[-1] ^ 1])),
    ("an image that is too short", LARGE, LARGE.after[:-1]),
    ("an image that is too long", LARGE, LARGE.after + b"\0"),
    ("an image without a write", LARGE, with_sector(LARGE, 30, bytes(SECTOR))),
    ("one number for all units", LARGE, with_sector(LARGE, 13, enciphered(LARGE, 1, 0, b"\x22" * SECTOR))),
    ("another key", LARGE, with_sector(LARGE, 0, enciphered(LARGE, 1, 0, b"\x11" * SECTOR))),
    ("plaintext", LARGE, with_sector(LARGE, 20, b"\x44" * SECTOR)),
    ("a unit that met a fault and was written", LARGE, with_sector(LARGE, 19, enciphered(LARGE, 1, 7, b"\x22" * SECTOR))),
]


def edited(run, edits):
    report = run.report
    for old, new in edits:
        assert report.count(old) == 1, (old, report.count(old), report)
        report = report.replace(old, new)
    return report


def fail(message):
    print(f"judge: {message}")
    return 1


def broken_at_random(dice, run, report, after):
    """A broken report or image for a lawful one, with the point that it breaks."""
    lines = report.decode().split("\n")
    answers = [at for at, line in enumerate(lines) if line.startswith("done fill")]
    entries = [(at, n) for at, line in enumerate(lines) if line.startswith("shard ") and (n := int(line.split(" ")[2]))]
    turn = dice.randrange(3)
    if turn == 0 and answers:
        at = dice.choice(answers)
        lines[at] = f"done fill {(int(lines[at][-2:], 16) + dice.randrange(1, 256)) % 256:02x}"
        return "Answers", "\n".join(lines), after
    if turn == 1 and entries:
        at, count = dice.choice(entries)
        lines[at] = f"{lines[at].rsplit(' ', 1)[0]} {count - 1}"
        del lines[at + dice.randrange(count) + 1]
        return "Orders", "\n".join(lines), after
    at = dice.randrange(len(after))
    return "Image", report.decode(), after[:at] + bytes([after[at] ^ 1 << dice.randrange(8)]) + after[at + 1:]


def main(words):
    how_many, seed = (int(words[0]) if words else 300), (int(words[1]) if len(words) > 1 else 1)
    for name, run in LAWFUL:
        if run.judged():
            return fail(f"{name} is judged unlawful: {run.judged()}")
    points = collections.Counter()
    for name, point, run, edits in BROKEN:
        report = edited(run, edits)
        found = run.judged(report)
        if list(found) != [point]:
            return fail(f"{name} breaks the point {point}, and is judged so: {found}")
        if bool(run.judged(report, holders=False)) == point.startswith("Holders"):
            return fail(f"{name} is judged wrongly without Holders behind a refusal")
        points[point] += 1
    for name, run, after in IMAGES:
        if list(run.judged(after=after)) != ["Image"]:
            return fail(f"{name} is judged so: {run.judged(after=after)}")
        points["Image"] += 1
    missing = [point for point in ["Text", "Parts", *(it[0] for it in POINTS)] if not points[point]]
    if missing:
        return fail(f"no broken report is refused for {missing}")
    dice = random.Random(seed)
    seen = collections.Counter()
    for turn in range(how_many):
        text = a_script_of_threads(dice)
        script = read_script(text)
        shards = dice.choice([1, 1, 2, 3])
        before = dice.randbytes(8 * SECTOR * script.blocks)
        report, after = threaded(script, shards, before, dice)
        found = judged(script, before, after, report, shards)
        if found:
            return fail(f"seed {seed}, turn {turn}: a run of threads is judged unlawful: {found}\n{text.decode()}{report.decode()}")
        seen.update(word for line in report.decode().split("\n") for word in ["busy", "skip", "evict"] if word in line)
        point, other, left = broken_at_random(dice, script, report, after)
        found = judged(script, before, left, other.encode(), shards)
        if next(iter(found), None) != point:
            return fail(f"seed {seed}, turn {turn}: a run that breaks {point} is judged so: {found}")
    if how_many >= 100 and not all(seen[word] for word in ["busy", "skip", "evict"]):
        return fail(f"the runs of threads had no {[word for word in ['busy', 'skip', 'evict'] if not seen[word]]}")
    print(f"judge: {len(LAWFUL)} reports and {how_many} of threads are lawful, {sum(points.values())} broken ones and as many of"
          f" threads are refused for their point (seed {seed}; {seen['busy']} times busy, {seen['skip']} skips)")
    return 0


if __name__ == "__main__":
    sys.exit(main(sys.argv[1:]))

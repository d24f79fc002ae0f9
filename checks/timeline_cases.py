"""Tries tools/timeline and tools/summary: the reader of reports against the model of their texts (report_model.py), the order in
which a report is drawn against the order in which the model of scripts went, what stands in the pictures against the lines of
the reports, and what is refused.

    timeline_cases.py [HOW_MANY [SEED]]     tries all of this
    timeline_cases.py --draw                makes the pictures of docs/timeline again
"""
import collections
import importlib.machinery
import importlib.util
import os
import pathlib
import random
import re
import subprocess
import sys
import tempfile
import xml.etree.ElementTree as xml

sys.dont_write_bytecode = True
ROOT = pathlib.Path(__file__).resolve().parent.parent
sys.path.insert(1, str(ROOT / "tools"))
import inputs
import orders
import plans
import report_model
import reports
from judge_cases import (BUSY, BUSY_REPORT, IDLE_REPORT, LATE_IDLE, LATE_IDLE_REPORT, LAWFUL, SAME_KEY, SECOND_BUSY_REPORT, SKIP,
                         SKIP_REPORT, TWO_DEVICES, TWO_HOLDERS_REPORT)
from make_model import script_of
from script_cases import DEVICES_REPORTED
from script_model import Run, Slots, read_script, report_of
from script_texts import a_script_of_threads, a_script_with_devices
from threads_model import threaded


def tool(name):
    """A tool as a module."""
    loader = importlib.machinery.SourceFileLoader(name, str(ROOT / "tools" / name))
    module = importlib.util.module_from_spec(importlib.util.spec_from_loader(name, loader))
    loader.exec_module(module)
    return module


timeline = tool("timeline")
DRAWN = ROOT / "docs" / "timeline"
EXAMPLES = ROOT / "examples"
SVG = "{http://www.w3.org/2000/svg}"


class Wrong(Exception):
    pass


def need(met, sentence):
    if not met:
        raise Wrong(sentence)


# ---- the reader of reports


def read_as_the_model(text):
    """The reader takes what the model of texts takes, and names the same line of what it doesn't."""
    wanted = report_model.answer(text)
    try:
        reports.read(text)
        found = text
    except reports.NoReport as wrong:
        found = f"report line {wrong.line}\n".encode()
    need(found == wanted, f"of the text\n{text.decode('latin-1')}\nthe tools' reader says\n{found.decode('latin-1')}")


def crowded(threads=1, shards=1, devices=1, skips=1):
    """A report with so many parts of each sort."""
    lines = ["report 1", *(f"thread {it}" for it in range(threads)), *(f"shard {it} 0" for it in range(shards)),
             *(f"device {it} 0" for it in range(devices - 1)), f"device {devices - 1} 1",
             "program 0 0 skip " + " ".join(f"{it}:1" for it in range(skips)), "end"]
    return report_model.text_of(lines)


CROWDED = [crowded(threads=16, shards=64, devices=8, skips=32), crowded(threads=17), crowded(shards=65), crowded(devices=9),
           crowded(skips=33)]


# ---- the order

# Of reports of several threads, the order in which they are drawn: `e` is an entry by shard and place, `j` an event by device
# and place, `o` an operation without data units by thread and number.
DRAWN_SO = [
    (BUSY, BUSY_REPORT, "j00 e00 j01 o10 j02 e01 j03"),
    (BUSY, IDLE_REPORT, "j00 e00 j01 e01 j02 j03 o10"),
    (SKIP, SKIP_REPORT, "j00 e00 j01 j02 e01 j03 e02 j04 j05 e03 j06"),
    (TWO_DEVICES, SECOND_BUSY_REPORT, "j00 e00 j01 j02 o10 j10 e01 j11 j12"),
    (SAME_KEY, TWO_HOLDERS_REPORT, "j00 e00 e01 j01 o20 j02"),
    (LATE_IDLE, LATE_IDLE_REPORT, "j00 e00 j01 e01 j02 j03"),
]


def orders_by_hand():
    for script, lines, wanted in DRAWN_SO:
        report, plan = reports.read(report_model.text_of(lines)), plans.read(script)
        plans.fit(plan, report)
        found = orders.ordered(report, plan, inputs.pieces(report, plan))
        steps = [f"o{step.thread}{step.op}" if step.kind == "op" else f"{'e' if step.kind == 'entry' else 'j'}{step.place}{step.at}"
                 for step in found.steps]
        need(" ".join(steps) == wanted, f"a report is drawn in the order {' '.join(steps)}, and not {wanted}:\n{lines}")


class Noted(list):
    """A journal that notes its events in a log too."""

    def __init__(self, log, device):
        super().__init__()
        self.log, self.device = log, device

    def append(self, event):
        self.log.append(("event", self.device, len(self)))
        super().append(event)


class NotedRun(Run):
    """A run that notes accesses and events in the order in which they happen."""

    def __init__(self, script, shards):
        super().__init__(script, shards, None)
        self.log = []
        self.slots = [Slots(device.slots) for device in script.devices]
        for device, slots in enumerate(self.slots):
            slots.journal = Noted(self.log, device)

    def access(self, sector, entry):
        shard = sector // 8 % len(self.shards)
        self.log.append(("entry", shard, len(self.shards[shard])))
        return super().access(sector, entry)


def order_is_the_runs(text, shards):
    """With its script, a report of one caller is put into the order of the run itself."""
    script = read_script(text)
    run = NotedRun(script, shards)
    for thread, section in enumerate(script.sections):
        run.section(thread, section)
    report, plan = reports.read(report_of(script, shards)), plans.read(text)
    plans.fit(plan, report)
    found = orders.ordered(report, plan, inputs.pieces(report, plan))
    steps = [(step.kind, step.place, step.at) for step in found.steps if step.kind != "op"]
    need(found.way == "sections", f"a report of one caller is drawn by {found.way}")
    at = next((n for n, (one, other) in enumerate(zip(steps, run.log)) if one != other), min(len(steps), len(run.log)))
    need(steps == run.log, f"step {at} of {len(run.log)} is {steps[at:at + 1]}, and was {run.log[at:at + 1]}")


def order_keeps_the_lists(report, plan):
    """What any order of a lawful report must keep."""
    found = orders.ordered(report, plan, inputs.pieces(report, plan))
    need(found.way != "torn", "there is no order of a lawful report")
    numbers = collections.defaultdict(list)
    programmed = {}
    keys = {}
    for step in found.steps:
        if step.kind == "event":
            numbers["device", step.place].append(step.at)
            if step.what.word in ("program", "evict"):
                keys[step.place, step.what.slot] = step.at if step.what.word == "program" else None
            programmed[step.place, step.at] = True
        else:
            numbers["thread", step.thread].append((step.op, step.what.unit if step.kind == "entry" else 0))
        if step.kind == "entry":
            numbers["shard", step.place].append(step.at)
            if step.what.way == "inline":
                need(keys.get((step.what.device, step.what.slot)) == step.what.event, "an entry stands where its slot has another key")
    for lane, own in numbers.items():
        need(own == sorted(own), f"{lane} isn't in its order: {own}")
    need(len(found.steps) == len(set(found.steps)), "a step stands twice")
    operations = {(step.thread, step.op) for step in found.steps if step.kind != "event"}
    need(len(operations) == sum(len(it) for it in report.threads), "an operation is missing")
    events = sum(len(it) for it in report.devices)
    need(len(programmed) == events, "an event is missing")


# ---- pictures


def counted(report):
    """What a report's lines ask for in a picture, read without the tools' reader."""
    lines = report.decode().split("\n")
    counts = collections.Counter()
    part = None
    for line in lines:
        word = line.split(" ")[0]
        if word in ("thread", "shard", "device", "report", "end", ""):
            part = word
            counts["lane"] += word in ("thread", "shard")
        elif part == "thread":
            counts["op"] += 1
            counts["fault"] += word == "fault"
            counts["bad"] += word in ("fault", "refused")
            counts["kept"] += word == "busy"
        elif part == "shard":
            counts["entry"] += 1
            counts[line.split(" ")[3]] += 1
        elif part == "device":
            counts[word] += 1
            counts["key"] += word == "program"
            counts["skip"] += len(line.split(" skip ")[-1].split(" ")) if " skip " in line else 0
    return counts


def classes_of(picture):
    """How many elements of each class a picture has, beside those of its legend."""
    root = xml.fromstring(picture)
    need(root.tag == f"{SVG}svg", "the picture's root is no svg")
    counts = collections.Counter()
    for child in root:
        if child.get("class") == "legend":
            continue
        for element in child.iter():
            if element.tag != f"{SVG}text" and element.get("class"):
                counts.update(set(element.get("class").split(" ")))
    inside(root)
    return counts


def inside(root):
    """Everything stands within the picture."""
    width, height = float(root.get("width")), float(root.get("height"))
    for element in root.iter(f"{SVG}rect"):
        x, y = float(element.get("x", 0)), float(element.get("y", 0))
        right, low = x + float(element.get("width")), y + float(element.get("height"))
        need(0 <= x and 0 <= y and right <= width + 1 and low <= height, f"a rectangle stands outside: {element.attrib}")
    for element in root.iter(f"{SVG}text"):
        need(0 <= float(element.get("y")) <= height and 0 <= float(element.get("x")) <= width, f"a text stands outside: {element.text}")


def spans(group, kind):
    """Left, right, top and colour of each element of a kind in a group of the picture."""
    for element in group.iter(f"{SVG}rect"):
        classes = element.get("class").split(" ")
        if classes[0] == kind:
            x, width = float(element.get("x")), float(element.get("width"))
            yield x, x + width, float(element.get("y")), classes[-1]


def places_are_the_reports(picture, report):
    """Each shard's entries stand in their order from left to right, and an inline one within a use of its slot by its key."""
    groups = {group.get("id"): group for group in xml.fromstring(picture).iter(f"{SVG}g")}
    tops = {}
    used = {"key": [], "held": []}
    for name, group in groups.items():
        if name.startswith("device-"):
            device = int(name.removeprefix("device-"))
            names = [it.text for it in group.iter(f"{SVG}text") if it.get("class") == "name"]
            for name, (_, _, top, _) in zip(names, spans(group, "lane")):
                tops[device, int(name.removeprefix("slot "))] = top
            for kind, inset in [("key", 0), ("held", 4)]:
                used[kind] += [(device, top - inset, *rest) for *rest, top, colour in spans(group, kind) for rest in [[*rest, colour]]]
    for shard, entries in enumerate(report.shards):
        drawn = list(spans(groups[f"shard-{shard}"], "entry"))
        need(drawn == sorted(drawn), f"the entries of shard {shard} aren't in their order")
        for entry, (left, right, _, colour) in zip(entries, drawn):
            if entry.way == "inline":
                for kind, own in used.items():
                    need(any(device == entry.device and abs(top - tops[device, entry.slot]) < 0.2 and begun <= left + 0.2
                             and right <= ended + 0.2 and colour == of for device, top, begun, ended, of in own),
                         f"entry {entry.line} stands in no {kind} of its slot")


KINDS = ["op", "fault", "bad", "kept", "entry", "plain", "soft", "inline", "key", "program", "idle", "evict", "busy", "reset", "skip"]


def picture_is_the_reports(report, script, serial):
    """The picture has what the report has, with the script and without. Of a run of one caller whose script is known, a slot is
    in use as often as it became idle; without the script, in which bios share a use, at most as often. It is in use as often as
    it was programmed at least."""
    wanted = counted(report)
    for plan in [None, plans.read(script)]:
        read = reports.read(report)
        picture = timeline.picture(read, plan)
        found = classes_of(picture)
        thinned = "Thinned: a column stands for" in picture
        if not thinned:
            places_are_the_reports(picture, read)
        for kind in [] if thinned else KINDS:
            need(found[kind] == wanted[kind], f"the picture has {found[kind]} of the kind {kind}, and the report {wanted[kind]}")
        # A use without a data unit, all of which were passed over after a fault, has nothing to be seen by.
        if not thinned and serial and plan and not wanted["fault"]:
            need(found["held"] == wanted["idle"], f"{found['held']} uses are drawn, and the report has {wanted['idle']}")
        need(found["held"] <= wanted["idle"] or thinned or not serial, "there are more uses than the slots became idle")
        need(found["held"] >= wanted["program"] or thinned, "a use is missing")
        slots = sum(lanes_of(events, plan.slots[device] if plan else None) for device, events in enumerate(read.devices))
        need(found["lane"] == wanted["lane"] + slots, f"there are {found['lane']} lanes")


def lanes_of(events, slots):
    """How many slots of a device have a lane: all, or those that are named where three and more aren't."""
    used = {it.slot for it in events} | {slot for it in events for slot, _ in it.skips}
    used.discard(None)
    slots = slots or max(used, default=0) + 1
    return len(used) if slots - len(used) >= 3 else slots


def windows_are_parts(report, script):
    """Windows that follow each other have each step once."""
    read, plan = reports.read(report), plans.read(script)
    count = len(orders.ordered(read, plan, inputs.pieces(read, plan)).steps)
    found = collections.Counter()
    for first in range(1, count + 1, 7):
        picture = timeline.picture(read, plan, first, first + 6)
        need("Steps" in picture or count <= 7, "a window isn't told as one")
        found += classes_of(picture)
    wanted = counted(report)
    for kind in ["entry", "program", "idle", "evict", "busy", "reset", "skip"]:
        need(found[kind] == wanted[kind], f"the windows have {found[kind]} of the kind {kind}, and the report {wanted[kind]}")


def labels_are_the_scripts(report, script):
    """Names stand in the labels with the script, and numbers without."""
    read, plan = reports.read(report), plans.read(script)
    with_names, without = timeline.picture(read, plan), timeline.picture(read, None)
    texts = [it.text for it in xml.fromstring(with_names).iter(f"{SVG}text")]
    used = {plan.names[entry_key(plan, it)] for own in read.shards for it in own if entry_key(plan, it) is not None}
    need(all(name in texts for name in used), f"a name of {used} is missing")
    need("key 0" in without or not read.devices, "the keys have no number")


def entry_key(plan, entry):
    return plan.sections[entry.thread][entry.op].key


# ---- the commands


def ran(name, words, text, **more):
    return subprocess.run([str(ROOT / "tools" / name), *words], input=text, capture_output=True, check=False, timeout=60, **more)


EXAMPLE = b"report 1\nthread 0\ndone\nshard 0 1\n0 0 0 inline 0 0 0\ndevice 0 2\nprogram 0 0\nidle 0\nend\n"

# name, the report, the line that is named
NO_REPORTS = [
    ("an empty text", b"", 1),
    ("a script", b"blkcrypt 1\ndisk 1\nfallback on\nend\n", 1),
    ("another version", EXAMPLE.replace(b"report 1", b"report 2"), 1),
    ("a picture", b"\x89PNG\r\n\x1a\n" + bytes(range(256)), 1),
    ("carriage returns", EXAMPLE.replace(b"\n", b"\r\n"), 1),
    ("no foot", EXAMPLE.removesuffix(b"end\n"), 9),
    ("a line after the foot", EXAMPLE + b"end\n", 10),
    ("a last line without a line feed", EXAMPLE[:-1], 9),
    ("an answer that is none", EXAMPLE.replace(b"done", b"dine"), 3),
    ("an entry too few", EXAMPLE.replace(b"shard 0 1", b"shard 0 2"), 6),
    ("an entry too many", EXAMPLE.replace(b"shard 0 1", b"shard 0 0"), 5),
    ("a way that is none", EXAMPLE.replace(b"inline 0 0 0", b"online 0 0 0"), 5),
    ("a number too great", EXAMPLE.replace(b"0 0 0 inline 0 0 0", b"0 0 4294967296 inline 0 0 0"), 5),
    ("an event that is none", EXAMPLE.replace(b"idle 0", b"idle"), 8),
    ("a slot that no device has", EXAMPLE.replace(b"idle 0", b"idle 32"), 8),
    ("a skip of a slot that no device has", EXAMPLE.replace(b"program 0 0", b"program 0 0 skip 32:1"), 7),
    ("an entry of a thread that isn't there", EXAMPLE.replace(b"0 0 0 inline", b"1 0 0 inline"), 5),
    ("an entry of an operation that isn't there", EXAMPLE.replace(b"0 0 0 inline", b"0 1 0 inline"), 5),
    ("an entry of a plug", EXAMPLE.replace(b"done", b"plug"), 5),
    ("an entry of a device that isn't there", EXAMPLE.replace(b"inline 0 0 0", b"inline 1 0 0"), 5),
    ("an entry of an event that isn't there", EXAMPLE.replace(b"inline 0 0 0", b"inline 0 0 2"), 5),
    ("an entry of an event that programs nothing", EXAMPLE.replace(b"inline 0 0 0", b"inline 0 0 1"), 5),
    ("an entry of another slot", EXAMPLE.replace(b"inline 0 0 0", b"inline 0 1 0"), 5),
    ("an entry that stands twice", EXAMPLE.replace(b"shard 0 1\n", b"shard 0 2\n0 0 0 inline 0 0 0\n"), 6),
]

OTHER = b"blkcrypt 1\ndisk 1\nfallback off\ndevice 0 1 1 1 0 8\nkey a aes-256-xts 512 8 00\nthread\nwrite a 0 1 0 fill 00\nend\n"

SKIPS = EXAMPLE.replace(b"program 0 0", b"program 0 0 skip 1:1")

# name, the script, words of what is said
NO_SCRIPTS = [
    ("an empty script", b"", "has no end line"),
    ("a report in place of the script", EXAMPLE, "script line 1"),
    ("a script of another version", OTHER.replace(b"blkcrypt 1", b"blkcrypt 2"), "script line 1"),
    ("a script of two sections", OTHER.replace(b"end\n", b"thread\nend\n"), "2 sections"),
    ("a script of two operations", OTHER.replace(b"end\n", b"plug\nend\n"), "2 operations"),
    ("a script whose operation is another", OTHER.replace(b"write a 0 1 0 fill 00", b"evict a"), "is a evict"),
    ("a script of no devices", OTHER.replace(b"device 0 1 1 1 0 8\n", b""), "0 devices"),
    ("a script of no units", OTHER.replace(b"write a 0 1", b"write a 0 0"), "no such data unit"),
    ("a script with a name that isn't declared", OTHER.replace(b"write a", b"write b"), "script line 7"),
    ("a script with bytes that are none", OTHER.replace(b"write a", b"write \xff\xfe"), "script line 7"),
]


def refused(name, tool_name, words, text, status, *parts):
    found = ran(tool_name, words, text)
    said = found.stderr.decode()
    need(found.returncode == status and not found.stdout, f"{tool_name}, {name}: ends with {found.returncode}, and says {said}")
    need(said.startswith(f"{tool_name}: ") and said.count("\n") == 1 and said.endswith("\n"), f"{tool_name}, {name}: says {said!r}")
    need(all(part in said for part in parts), f"{tool_name}, {name}: says {said!r}")


def refusals():
    count = 0
    with tempfile.TemporaryDirectory() as room:
        path = os.path.join(room, "script")
        for tool_name in ["timeline", "summary"]:
            for name, text, line in NO_REPORTS:
                refused(name, tool_name, [], text, 2, f"report line {line}: ")
            for name, script, part in NO_SCRIPTS:
                with open(path, "wb") as out:
                    out.write(script)
                refused(name, tool_name, ["--script", path], EXAMPLE, 2, part)
            with open(path, "wb") as out:
                out.write(OTHER)
            refused("a skip of a slot that the script doesn't have", tool_name, ["--script", path], SKIPS, 2, "no slot 1")
            need(ran(tool_name, ["--script", path], EXAMPLE).returncode == 0, "the script of the example is refused")
            words = [["x"], ["--scrip", path], ["--script"], ["--script", path, path]]
            words += [["--from", "0"], ["--from", "x"], ["--to", "-1"], ["--from", "\u0661"], ["--from", "6"], ["--from", "3", "--to", "2"],
                      ["--to", "9" * 30]] if tool_name == "timeline" else [["--from", "1"]]
            for own in words:
                refused(f"words {own}", tool_name, own, EXAMPLE, 1)
            refused("a file that isn't there", tool_name, ["--script", os.path.join(room, "none")], EXAMPLE, 3, "No such file")
            refused("a folder in place of a file", tool_name, ["--script", room], EXAMPLE, 3, "directory")
            count += len(NO_REPORTS) + len(NO_SCRIPTS) + len(words) + 3
            help_text = ran(tool_name, ["--help"], b"")
            need(help_text.returncode == 0 and help_text.stdout.decode().startswith(f"{tool_name} [--script FILE]"), "help isn't told")
            if os.path.exists("/dev/full"):
                with open("/dev/full", "wb") as full:
                    found = subprocess.run([str(ROOT / "tools" / tool_name)], input=EXAMPLE, stdout=full, stderr=subprocess.PIPE,
                                           check=False)
                need((found.returncode, found.stderr) == (4, f"{tool_name}: the output can't be written\n".encode()),
                     f"a full disk: {found.returncode}, {found.stderr.decode()}")
    return count


# ---- the summary

SUMMARY = """\
2 threads, 13 operations, 1 shard, 2 devices

way     units  faults  bytes written  bytes read
plain       1       0              0         512
soft        2       0           1024           0
inline     12       1          10240        9728
all        15       1          11264       10240

answer   times
done         8
fault        1
refused      1
reset        1
plug         1
unplug       1

device  events  programmings  hits  evictions  busy  skips  resets
0            7             2     3          0     0      0       0
1            4             1     1          0     0      0       1

bytes enciphered or deciphered: 20992
"""


def summaries():
    """The summary of the first example, worked out by hand; and of a run of threads, where hits are told whole with the script."""
    found = ran("summary", ["--script", str(EXAMPLES / "inline.txt")], (EXAMPLES / "inline.out").read_bytes())
    need(found.stdout.decode() == SUMMARY, f"the summary is another:\n{found.stdout.decode()}")
    without = ran("summary", [], (EXAMPLES / "inline.out").read_bytes()).stdout.decode()
    need("3 or more" in without and "told with --script" in without, f"the summary without the script is another:\n{without}")


# ---- docs/timeline


def drawn():
    """The files of docs/timeline: each name with what it must hold."""
    for name in ["evictions", "inline", "realistic", "stacked"]:
        text, report = ((EXAMPLES / f"{name}.{end}").read_bytes() for end in ["txt", "out"])
        yield DRAWN / f"{name}.svg", timeline.picture(reports.read(report), plans.read(text)).encode()
    text = script_of(8)
    yield DRAWN / "make8.svg", timeline.picture(reports.read(report_of(read_script(text), 8)), plans.read(text)).encode()


def serial_runs():
    """Scripts with the reports that a run of one caller gives: the examples, and `make 8`."""
    for report in sorted(EXAMPLES.glob("*.out")):
        yield report.with_suffix(".txt").read_bytes(), report.read_bytes()
    yield script_of(8), report_of(read_script(script_of(8)), 8)


def texts_of_lawful():
    """The reports of the judge's cases; the scripts that some of them are of stand in the judge's cases too."""
    return [run.report.encode() for _, run in LAWFUL]


def tried(how_many, seed):
    dice = random.Random(seed)
    for _ in range(how_many):
        lines = report_model.a_report(dice)
        read_as_the_model(report_model.text_of(lines))
        for _ in range(4):
            read_as_the_model(report_model.broken(dice, lines))
    for text in CROWDED:
        read_as_the_model(text)
    orders_by_hand()
    for _, shards, script, _ in DEVICES_REPORTED:
        order_is_the_runs(script, shards)
    pictures = 0
    for script, report in serial_runs():
        picture_is_the_reports(report, script, True)
        labels_are_the_scripts(report, script)
        windows_are_parts(report, script)
        order_keeps_the_lists(reports.read(report), plans.read(script))
        pictures += 1
    for report in texts_of_lawful():
        order_keeps_the_lists(reports.read(report), None)
        classes_of(timeline.picture(reports.read(report), None))
        pictures += 1
    for _ in range(how_many // 4):
        script = a_script_with_devices(dice)
        order_is_the_runs(script, dice.choice([1, 1, 2, 3]))
        report = report_of(read_script(script), dice.choice([1, 1, 2, 3]))
        picture_is_the_reports(report, script, True)
        script = a_script_of_threads(dice)
        report, _ = threaded(read_script(script), dice.choice([1, 2, 3]), None, dice)
        order_keeps_the_lists(reports.read(report), plans.read(script))
        order_keeps_the_lists(reports.read(report), None)
        picture_is_the_reports(report, script, False)
        pictures += 2
        unlawful(dice, report, script)
    for path, content in drawn():
        need(path.exists() and path.read_bytes() == content,
             f"{path.relative_to(ROOT)} isn't what the tools make: python3 checks/timeline_cases.py --draw")
    summaries()
    return pictures, refusals()


def unlawful(dice, report, script):
    """A report with a mistake is drawn or refused by one line, and nothing else happens."""
    lines = report.decode().split("\n")[:-1]
    for plan in [None, plans.read(script)]:
        broken = report_model.broken(dice, lines)
        try:
            found = reports.read(broken)
            if plan:
                plans.fit(plan, found)
            timeline.picture(found, plan)
        except (reports.NoReport, plans.NoScript) as wrong:
            need(re.fullmatch(r"[^\n]{10,300}", str(wrong)), f"a refusal says {wrong!r}")


def main(words):
    if words == ["--draw"]:
        for path, content in drawn():
            path.write_bytes(content)
        return 0
    how_many, seed = (int(words[0]) if words else 100), (int(words[1]) if len(words) > 1 else 1)
    try:
        pictures, count = tried(how_many, seed)
    except Wrong as wrong:
        print(f"timeline: seed {seed}: {wrong}")
        return 1
    print(f"timeline: {pictures} reports are drawn as they are, {count} mistakes are refused by a line (seed {seed})")
    return 0


if __name__ == "__main__":
    sys.exit(main(sys.argv[1:]))

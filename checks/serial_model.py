"""Compares runs of the program with a model of them: serial_model.py [PROGRAM [SEED]]

The model (script_model.py) says the rules of docs/SCRIPT.md once more and has nothing of the program in it. It is held
against cases that are worked out by hand (script_cases.py) first. Then the program gets these cases and generated scripts
(script_texts.py), valid ones and broken ones, the same for the same seed; status, report and line on standard error must be
the model's, byte by byte. The program runs over one shard. The model runs over several too, and these runs are held against
the cases and against its own ones over one shard. Without PROGRAM all this is done with the model alone.

The judge of reports (judge.py) must find each run of the model lawful.
"""
import collections
import dataclasses
import random
import subprocess
import sys

import script_cases
import script_texts
from judge import judged
from script_model import SECTOR, Script, modelled, read_script, report_of, run_of

KINDS = ["end", "word", "number", "name", "hex", "key", "order", "device", "limit"]
ANSWERS = ["done", "done fill", "done sha256", "fault 0", "fault 1", "fault 255", "refused empty", "refused misaligned",
           "refused outside", "refused dun", "evicted", "plug", "unplug"]


# The words of events, and what some script with devices must be answered.
EVENTS = ["program", "idle", "evict", "reset"]
WITH_DEVICES = ["end", "word", "number", "name", "hex", "key", "order", "limit", "device", "done", "done fill", "done sha256",
                "fault 0", "fault 1", "refused empty", "refused misaligned", "refused outside", "refused dun",
                "refused unsupported", "evicted", "plug", "unplug", *EVENTS]
# Runs of more bytes of script aren't given to the judge, which takes its time.
MOST_JUDGED = 65536


def texts(dice):
    """Every text: its name, and whether a script says it where that is known beforehand."""
    yield from ((name, text, None) for name, text in script_cases.texts())
    yield from script_texts.texts(dice)


def device_texts(dice):
    """The same of texts with devices."""
    yield from ((name, text, None) for name, text in script_cases.device_texts())
    yield from script_texts.device_texts(dice)


def ran(program, text):
    found = subprocess.run([program, "serial"], input=text, capture_output=True, timeout=120)
    return found.returncode, found.stdout, found.stderr


def shown(data):
    if not isinstance(data, bytes):
        return str(data)
    return repr(data) if len(data) <= 4000 else repr(data[:4000]) + f" and so on, {len(data)} bytes"


def note(seen, answer):
    """Counts the kind of a refusal, or the words of a report's answers and events."""
    status, output, error = answer
    if status == 2:
        seen[error.decode().rstrip("\n").split(": ")[-1]] += 1
    for line in output.decode().split("\n"):
        words = line.split(" ")
        if words[0] in ["done", "fault", "refused", "evicted", "plug", "unplug"]:
            seen[" ".join(words[:2])] += 1
        elif words[0] in EVENTS:
            seen[words[0]] += 1


def parted(report):
    """The lines of a report before its shards, the entries of each shard, and the lines of its devices."""
    text, *devices = report.decode().removesuffix("end\n").split("device ")
    head, *shards = text.split("shard ")
    return head, [entries.split("\n")[1:-1] for entries in shards], devices


def alike(text, shards):
    """Whether a run over so many shards is as the run over one in which the same accesses fail: it gives the same answers and
    journals, and the accesses of all shards, which are in the order of their data units, are those of the one."""
    script = read_script(text)
    if not isinstance(script, Script):
        return True
    planned = set(script.faults)
    head, orders, journals = parted(report_of(script, shards))
    accesses = sorted(
        (*map(int, entry.split(" ")[:3]), entry, (shard, place) in planned)
        for shard, order in enumerate(orders) for place, entry in enumerate(order))
    faults = [(0, place) for place, (*_, failed) in enumerate(accesses) if failed]
    one = report_of(dataclasses.replace(script, faults=faults), 1)
    return parted(one) == (head, [[entry for *_, entry, _ in accesses]], journals)


def unlawful(text, shards, image):
    """What the judge finds wrong with the model's run from an image of zeros, or from one of other bytes; or nothing."""
    script = read_script(text)
    if not isinstance(script, Script):
        return None
    before = image(8 * SECTOR * script.blocks)
    report, after = run_of(script, shards, before)
    return next(iter(judged(script, before, after, report, shards).items()), None)


def fail(message):
    print(f"serial_model: {message}")
    return 1


def compared(program, dice, source, judge):
    """Compares the texts of a source, and gives how many there are, how many of them are accepted, and what was seen; or what
    differs."""
    count = accepted = 0
    seen = collections.Counter()
    for name, text, valid in source(dice):
        wanted = modelled(text)
        if valid is not None and valid != (wanted[0] == 0):
            return f"the model or the generator is wrong on {name!r}: {shown(wanted[2])}\nscript: {shown(text)}"
        shards = 2 + count % 63
        if len(text) < 65536 and not alike(text, shards):
            return f"the model runs {name!r} otherwise over {shards} shards\nscript: {shown(text)}"
        if judge and len(text) <= MOST_JUDGED:
            image = bytes if count % 2 else dice.randbytes
            wrong = unlawful(text, [1, shards][count // 2 % 2], image)
            if wrong:
                return f"the judge finds the model's run of {name!r} unlawful: {': '.join(wrong)}\nscript: {shown(text)}"
        found = ran(program, text) if program else wanted
        if found != wanted:
            parts = [
                f"{part} of the model:   {shown(one)}\n{part} of the program: {shown(other)}"
                for part, one, other in zip(["status", "output", "error"], wanted, found) if one != other]
            return "\n".join([f"{name!r} differs", f"script: {shown(text)}", *parts])
        count += 1
        accepted += wanted[0] == 0
        note(seen, wanted)
    return count, accepted, seen


def run(program, seed, sort, source, kinds):
    found = compared(program, random.Random(seed), source, source is device_texts)
    if isinstance(found, str):
        return fail(f"seed {seed}: {found}")
    count, accepted, seen = found
    missing = [word for word in kinds if not seen[word]]
    if missing:
        return fail(f"seed {seed}: no text is answered {', '.join(missing)}")
    agree = "agree" if program else "are the model's alone"
    print(f"serial_model: {count} scripts {sort} devices {agree}, {accepted} of them accepted (seed {seed})")
    return 0


def main():
    for name, answer in script_cases.wrong(modelled):
        return fail(f"the model is wrong on {name!r}: {', '.join(shown(part) for part in answer)}")
    program = sys.argv[1] if len(sys.argv) > 1 else None
    seed = int(sys.argv[2]) if len(sys.argv) > 2 else 1
    return (run(program, seed, "without", texts, KINDS + ANSWERS)
            or run(program, seed, "with", device_texts, WITH_DEVICES))


sys.exit(main())

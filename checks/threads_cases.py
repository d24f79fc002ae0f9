"""Gives the command `threads` of the program scripts of 2 to 16 sections that ask for the same few slots, blocks and keys, and
judges each run from its script, both images and its report (judge.py). A script of one section must give the report of the
independent model (script_model.py), and its image.

    threads_cases.py PROGRAM [HOW_MANY [SEED]]

The runs go on 1, 2 and 4 processors by turns, where `taskset` is there.
"""
import collections
import os
import random
import shutil
import subprocess
import sys
import tempfile

sys.dont_write_bytecode = True
from judge import judged
from script_cases import DEVICES_REPORTED, REPORTED, SHARDED, agrees
from script_model import SECTOR, Script, read_script, run_of
from script_texts import a_script_of_threads, a_script_with_devices

PROCESSORS = ["0", "0-1", "0-3"]


class Runner:
    """The program in a folder of its own."""

    def __init__(self, program, room):
        self.program, self.room = os.path.abspath(program), room
        self.turns = 0

    def ran(self, text, shards, before, command="threads"):
        """The report of a run and the image that it leaves; or nothing, and the status and what is said."""
        with open(os.path.join(self.room, "before"), "wb") as out:
            out.write(before)
        words = [self.program, command, "--shards", str(shards), "--image", "before", "--out", "after"]
        if shutil.which("taskset") and os.cpu_count() >= 4:
            words = ["taskset", "-c", PROCESSORS[self.turns % 3], *words]
        self.turns += 1
        found = subprocess.run(words, input=text, capture_output=True, cwd=self.room, timeout=300, check=False)
        if found.returncode or found.stderr:
            return None, f"it ends with {found.returncode} and says {found.stderr.decode()}"
        with open(os.path.join(self.room, "after"), "rb") as image:
            return found.stdout, image.read()


def sections_of(text):
    script = read_script(text)
    return len(script.sections) if isinstance(script, Script) else 0


def judged_run(runner, text, shards, before):
    """What is wrong with a run, or nothing; and its report."""
    script = read_script(text)
    report, after = runner.ran(text, shards, before)
    if report is None:
        return after, b""
    points = judged(script, before, after, report, shards)
    if points:
        return str(points), report
    if len(script.sections) < 2 and (report, after) != run_of(script, shards, before):
        return "a run of one section is another than the model's", report
    return None, report


def texts(dice, how_many):
    for turn in range(how_many):
        yield f"turn {turn}", (a_script_with_devices if turn % 5 == 0 else a_script_of_threads)(dice)


def main(words):
    program, how_many, seed = words[0], int(words[1]) if len(words) > 1 else 300, int(words[2]) if len(words) > 2 else 1
    dice = random.Random(seed)
    seen = collections.Counter()
    with tempfile.TemporaryDirectory() as room:
        runner = Runner(program, room)
        cases = [*((name, 1, text, lines) for name, text, lines in REPORTED), *SHARDED, *DEVICES_REPORTED]
        for name, shards, text, lines in [it for it in cases if sections_of(it[2]) < 2]:
            report, said = runner.ran(text, shards, bytes(8 * SECTOR * read_script(text).blocks))
            if report is None or not agrees(lines, report):
                print(f"threads: {name!r} gives another report, or none: {said if report is None else report.decode()}")
                return 1
        for name, text in texts(dice, how_many):
            shards = dice.choice([1, 1, 2, 3, 64])
            before = dice.randbytes(8 * SECTOR * read_script(text).blocks)
            wrong, report = judged_run(runner, text, shards, before)
            if wrong:
                print(f"threads: seed {seed}, {name}, {shards} shards: {wrong}\n{text.decode()}{report.decode()}")
                return 1
            seen.update(word for line in report.decode().split("\n") for word in ["busy", "skip", "evict "] if word in line)
    told = ", ".join(f"{seen[word]} {word.strip()}" for word in ["busy", "skip", "evict "])
    print(f"threads: {runner.turns} runs are lawful (seed {seed}; lines with {told})")
    return 0


if __name__ == "__main__":
    sys.exit(main(sys.argv[1:]))

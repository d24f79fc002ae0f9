"""The script of `make N` and the line that it writes, by an independent model; and a comparison with the program.

    make_model.py [PROGRAM]     checks the model against what is worked out by hand and against the digests below, and the
                                lines of the program, which is blkcrypt's own where no other one is named
    make_model.py N [SLOTS]     prints the script of `make N`

The digest is computed twice: by the model of scripts (script_model.py), which reads the script's text and carries it out
over keyslots, and by a loop over the data units that knows no scripts.
"""
import hashlib
import subprocess
import sys
import time

from script_model import read_script, run_of
from units_independent import expected

KEYS = [("a", "aes-256-xts", 4096, bytes(range(0x00, 0x40))), ("b", "aes-256-xts", 512, bytes(range(0x40, 0x80))),
        ("c", "aes-128-cbc-essiv", 4096, bytes(range(0x80, 0x90)))]
THREADS = 16
BLOCKS = 1024

# SHA-256 of the image that is left, by N.
DIGESTS = {
    1: "0dc92f9b0c04df3cfcff33347b68bd5bf34b2206e06e1c5a2126f3d4c92d81d5",
    8: "5683c4d3c3517a7a7a92e51504c4031276b6cd41f4bd4e3760751d2e18b032a3",
    1000: "3bb3b6eea4dc46543c8cdb1daffa052ddb3f9ad6911fe3dd8c71c440ec2a70e7",
}


def places(count):
    """For each thread the key, sector, number and byte of each pair of a write and a read."""
    for thread in range(THREADS):
        yield [((thread + j) % 3, 8 * (64 * thread + (7 * j + count) % 64), j, (16 * thread + j) % 256) for j in range(count)]


def script_of(count, slots=1):
    lines = ["blkcrypt 1", f"disk {BLOCKS}", "fallback on", f"device 0 {BLOCKS} {slots} 9 0 8"]
    lines += [f"key {name} {mode} {unit} 8 {raw.hex()}" for name, mode, unit, raw in KEYS]
    for pairs in places(count):
        lines.append("thread")
        for key, sector, number, byte in pairs:
            fields = f"{KEYS[key][0]} {sector} 1 {number:x}"
            lines += [f"write {fields} fill {byte:02x}", f"read {fields}"]
    return "".join(line + "\n" for line in [*lines, "end"]).encode()


def image_of(count):
    """The image that is left: the last write of each data unit, one after the other."""
    image = bytearray(4096 * BLOCKS)
    for pairs in places(count):
        for key, sector, number, byte in pairs:
            _, _, unit, raw = KEYS[key]
            image[512 * sector:512 * sector + unit] = expected(raw, number, bytes([byte]) * unit, True)
    return bytes(image)


def line_of(count, digest):
    return f"make {count}: bios {32 * count} units {32 * count} done {32 * count} faults 0 image {digest}\n"


def section_of(text, thread):
    return text.decode().removesuffix("end\n").split("thread\n")[1 + thread].split("\n")[:-1]


def wrong_by_hand():
    """What is worked out by hand of the scripts: the model's, where it is another."""
    one, thousand = script_of(1), script_of(1000)
    if section_of(one, 0) != ["write a 8 1 0 fill 00", "read a 8 1 0"]:
        yield section_of(one, 0)
    if section_of(one, 15) != ["write a 7688 1 0 fill f0", "read a 7688 1 0"]:
        yield section_of(one, 15)
    first = ["write b 832 1 0 fill 10", "read b 832 1 0", "write c 888 1 1 fill 11", "read c 888 1 1"]
    if section_of(thousand, 1)[:4] != first:
        yield section_of(thousand, 1)[:4]
    if [len(section_of(thousand, thread)) for thread in range(16)] != [2000] * 16:
        yield "the sections don't have 2000 operations each"


def digest_of(count, slots, shards):
    """The digest by the model of scripts. Every write must be done, and every read must give what was written."""
    report, image = run_of(read_script(script_of(count, slots)), shards)
    answers = report.decode().split("shard ")[0].split("\n")[1:-1]
    wanted = [line for thread, pairs in enumerate(places(count)) for line in
              [f"thread {thread}", *(it for *_, byte in pairs for it in ["done", f"done fill {byte:02x}"])]]
    return hashlib.sha256(image).hexdigest() if answers == wanted else "another answer"


def fail(message):
    print(f"make: {message}")
    return 1


def compared(program):
    for wrong in wrong_by_hand():
        return fail(f"the model's script is another: {wrong}")
    for count, digest in DIGESTS.items():
        found = {hashlib.sha256(image_of(count)).hexdigest(), digest_of(count, 1, 8), digest_of(count, 32, 3)}
        if found != {digest}:
            return fail(f"make {count}: the models' digests are {sorted(found)}, and the one noted here is {digest}")
    for count, digest in DIGESTS.items():
        for words in [[], ["--slots", "32", "--shards", "1"], ["--slots", "2", "--shards", "64"], [], ["--threads"],
                      ["--threads", "--shards", "1"], ["--slots", "32", "--threads"]]:
            begun = time.monotonic()
            ran = subprocess.run([program, "make", str(count), *words], stdin=subprocess.DEVNULL, capture_output=True, timeout=300)
            if (ran.returncode, ran.stdout.decode(), ran.stderr) != (0, line_of(count, digest), b""):
                return fail(f"make {count} {' '.join(words)} ends with {ran.returncode} after {time.monotonic() - begun:.1f} s, and"
                            f" writes {ran.stdout.decode()!r} and {ran.stderr.decode()!r}, not {line_of(count, digest)!r}")
    print(f"make: the models' digests and the program's are those noted, for N of {', '.join(map(str, DIGESTS))}")
    return 0


def main(words):
    if words and words[0].isdecimal():
        sys.stdout.buffer.write(script_of(int(words[0]), int(words[1]) if len(words) > 1 else 1))
        return 0
    return compared(words[0] if words else "crates/blkcrypt/out/blkcrypt")


if __name__ == "__main__":
    sys.exit(main(sys.argv[1:]))

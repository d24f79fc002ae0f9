"""Compares the static library with Python's `cryptography`.

    library_independent.py PROGRAM FOLDER             a program of examples/c or examples/rust, over files
    library_independent.py --calls PROGRAM HOW_MANY   checks/library_calls.c, over random data units of each size
"""
import os
import random
import subprocess
import sys

from units_independent import expected


def units_of(key, first, size, data, encrypt):
    """The data units of some bytes, each under the number that follows."""
    parts = [data[at:at + size] for at in range(0, len(data), size)]
    return b"".join(expected(key, first + i, part, encrypt) for i, part in enumerate(parts))


def files_agree(program, folder):
    """A file of some data units, there and back, in both modes."""
    names = {it: os.path.join(folder, it) for it in ("key", "from", "to", "back")}
    for key_bytes in (64, 16):
        key = os.urandom(key_bytes)
        text = os.urandom(4096 * 300)
        for name, content in (("key", key), ("from", text)):
            with open(names[name], "wb") as out:
                out.write(content)
        subprocess.run([program, "encrypt", names["key"], names["from"], names["to"]], check=True)
        subprocess.run([program, "decrypt", names["key"], names["to"], names["back"]], check=True)
        with open(names["to"], "rb") as raw, open(names["back"], "rb") as back:
            if raw.read() != units_of(key, 0, 4096, text, True) or back.read() != text:
                print(f"library: {os.path.basename(program)} differs under a key of {key_bytes} bytes")
                return False
    with open(names["from"], "ab") as out:
        out.write(b"x")
    told = subprocess.run([program, "encrypt", names["key"], names["from"], names["to"]], stderr=subprocess.PIPE, check=False)
    if told.returncode != 1 or b"whole data units" not in told.stderr:
        print(f"library: {os.path.basename(program)} takes a file that isn't whole data units")
        return False
    return True


def calls_agree(program, how_many):
    """Calls over one to eight data units."""
    seed = random.SystemRandom().randrange(2**32)
    dice = random.Random(seed)
    for turn in range(how_many):
        key = dice.randbytes(dice.choice([64, 16]))
        size = dice.choice([512, 1024, 2048, 4096])
        data = dice.randbytes(size * dice.randrange(1, 9))
        first = dice.choice([dice.getrandbits(dice.choice([1, 8, 32, 64, 65, 127])), 2**64 - 1, 2**64 - 2, 2**128 - 8])
        encrypt = dice.random() < 0.5
        words = [f"{first >> 64 * i & (2**64 - 1):x}" for i in range(4)]
        mode = "1" if len(key) == 64 else "2"
        asked = [program, "encrypt" if encrypt else "decrypt", mode, str(size), key.hex(), *words]
        told = subprocess.run(asked, input=data, stdout=subprocess.PIPE, check=True).stdout
        if told != units_of(key, first, size, data, encrypt):
            print(f"library: seed {seed}, turn {turn} differs: {' '.join(asked[1:])}")
            return False
    print(f"library: {how_many} calls agree (seed {seed})")
    return True


if sys.argv[1] == "--calls":
    sys.exit(not calls_agree(sys.argv[2], int(sys.argv[3])))
sys.exit(not files_agree(sys.argv[1], sys.argv[2]))

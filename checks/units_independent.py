"""Compares units of bc_unit with Python's `cryptography`: units_independent.py PROGRAM HOW_MANY [SEED]"""
import hashlib
import os
import random
import subprocess
import sys

from cryptography.hazmat.primitives.ciphers import Cipher, algorithms, modes


def carried_out(cipher, encrypt, data):
    way = cipher.encryptor() if encrypt else cipher.decryptor()
    return way.update(data) + way.finalize()


def expected(key, number, data, encrypt):
    iv = (number % 2**128).to_bytes(16, "little")
    if len(key) == 64:
        return carried_out(Cipher(algorithms.AES(key), modes.XTS(iv)), encrypt, data)
    digest = hashlib.sha256(key).digest()
    start = carried_out(Cipher(algorithms.AES(digest), modes.ECB()), True, iv)
    return carried_out(Cipher(algorithms.AES(key), modes.CBC(start)), encrypt, data)


def found(program, key, number, data, encrypt, in_digits=True):
    """What the program makes of a data unit, written in digits or as raw bytes."""
    words = [program, "encrypt" if encrypt else "decrypt", key.hex(), f"{number:x}"]
    if not in_digits:
        return subprocess.run(words, input=data, stdout=subprocess.PIPE, check=True).stdout
    told = subprocess.run([*words, data.hex()], stdout=subprocess.PIPE, check=True).stdout
    if told[-1:] != b"\n":
        return None
    return bytes.fromhex(told[:-1].decode())


def examples_agree(program):
    """A sector written under one key and read under another, and one under CBC-ESSIV, there and back."""
    first, second, essiv = bytes(range(64)), bytes(range(64, 128)), bytes(range(128, 144))
    raw = found(program, first, 0, bytes(512), True)
    wrong = found(program, second, 0, raw, False)
    if raw != expected(first, 0, bytes(512), True) or wrong != expected(second, 0, raw, False):
        return False
    text = b"\x5a" * 512
    raw = found(program, essiv, 255, text, True)
    return raw == expected(essiv, 255, text, True) and found(program, essiv, 255, raw, False) == text


KEY, ESSIV, SECTOR = bytes(range(64)).hex(), bytes(range(16)).hex(), "5a" * 512

# words, standard input, the status, and a part of the sentence on standard error
MISTAKES = [
    ([], b"", 1, "bad command line"),
    (["encipher", KEY, "0", SECTOR], b"", 1, "usage: bc_unit"),
    (["encrypt", KEY], b"", 1, "usage: bc_unit"),
    (["encrypt", KEY, "0", SECTOR, "x"], b"", 1, "usage: bc_unit"),
    (["encrypt", KEY[1:], "0", SECTOR], b"", 2, "KEY is written in pairs of hexadecimal digits"),
    (["encrypt", "0x" + KEY[2:], "0", SECTOR], b"", 2, "KEY is written in pairs of hexadecimal digits"),
    (["encrypt", KEY[2:], "0", SECTOR], b"", 2, "KEY has 63 bytes"),
    (["decrypt", "", "0", SECTOR], b"", 2, "KEY has 0 bytes"),
    (["encrypt", "11" * 64, "0", SECTOR], b"", 2, "two halves of an XTS key are equal"),
    (["encrypt", KEY, "0x5", SECTOR], b"", 2, "without 0x"),
    (["encrypt", KEY, "05", SECTOR], b"", 2, "without leading zeros"),
    (["encrypt", KEY, "A", SECTOR], b"", 2, "in lower case"),
    (["encrypt", KEY, "1" * 65, SECTOR], b"", 2, "NUMBER has 1 to 64"),
    (["encrypt", KEY, "0", SECTOR[1:]], b"", 2, "TEXT is written in pairs of hexadecimal digits"),
    (["encrypt", KEY, "0", SECTOR[2:]], b"", 2, "4096 bytes and not 511"),
    (["decrypt", ESSIV, "0"], b"x" * 4097, 2, "the text has 4097 bytes"),
    (["decrypt", ESSIV, "0"], b"", 2, "4096 bytes and not 0"),
]


def mistakes_are_told(program):
    """Each mistake has its status and its sentence, and nothing is printed."""
    for words, text, status, part in MISTAKES:
        told = subprocess.run([program, *words], input=text, stdout=subprocess.PIPE, stderr=subprocess.PIPE, check=False)
        if told.returncode != status or told.stdout or part not in told.stderr.decode():
            short = " ".join(it[:20] for it in words)
            print(f"units_independent: {short}: {told.returncode}, {told.stderr.decode()}")
            return False
    full = os.path.exists("/dev/full")
    with open("/dev/full" if full else os.devnull, "wb") as out:
        told = subprocess.run([program, "encrypt", KEY, "0", SECTOR], stdout=out, stderr=subprocess.PIPE, check=False)
    if full and (told.returncode != 4 or told.stderr != b"bc_unit: writing failed\n"):
        print(f"units_independent: a full disk: {told.returncode}, {told.stderr.decode()}")
        return False
    return True


def main():
    program, how_many = sys.argv[1], int(sys.argv[2])
    if not examples_agree(program):
        print("units_independent: a worked example differs")
        return 1
    if not mistakes_are_told(program):
        return 1
    seed = int(sys.argv[3]) if len(sys.argv) > 3 else random.SystemRandom().randrange(2**32)
    dice = random.Random(seed)
    for turn in range(how_many):
        key = dice.randbytes(dice.choice([64, 64, 16]))
        number = dice.getrandbits(dice.choice([1, 8, 32, 64, 65, 128, 129, 256]))
        data = dice.randbytes(dice.choice([512, 1024, 2048, 4096]))
        encrypt = dice.random() < 0.5
        if found(program, key, number, data, encrypt, dice.random() < 0.5) != expected(key, number, data, encrypt):
            way = "encrypt" if encrypt else "decrypt"
            print(f"units_independent: seed {seed}, turn {turn} differs: {way} {key.hex()} {number:x} {data.hex()}")
            return 1
    print(f"units_independent: {how_many} units agree (seed {seed})")
    return 0


if __name__ == "__main__":
    sys.exit(main())

"""Compares images that blkcrypt reads and writes with what dm-crypt would store, as Python's cryptography computes it.

Two ciphers over sectors of 512 bytes: aes-xts-plain64, whose initialization vector is the sector's number as 64 bits, little
endian, followed by zeros; and aes-cbc-essiv:sha256, where that vector is enciphered under SHA-256 of the key. A script in
which each data unit of 512 bytes has its sector's number gives the same bytes. No kernel takes part: the two constructions
are written here from their public descriptions, over the library's AES.

usage: interop.py PROGRAM SCRATCH
"""

import hashlib
import random
import subprocess
import sys
from pathlib import Path

from cryptography.hazmat.primitives.ciphers import Cipher, algorithms, modes

SECTOR = 512
BLOCK = 4096


def plain64(sector):
    """The sector's number as dm-crypt's plain64 has it."""
    return sector.to_bytes(8, "little") + bytes(8)


def xts(key, sector):
    """AES-256-XTS of one sector."""
    return Cipher(algorithms.AES(key), modes.XTS(plain64(sector)))


def essiv(key, sector):
    """AES-128-CBC of one sector, with plain64 enciphered under SHA-256 of the key."""
    hashed = Cipher(algorithms.AES(hashlib.sha256(key).digest()), modes.ECB()).encryptor()
    return Cipher(algorithms.AES(key), modes.CBC(hashed.update(plain64(sector))))


def enciphered(cipher_of, key, text):
    """All sectors of a text, enciphered."""
    parts = []
    for at in range(0, len(text), SECTOR):
        parts.append(cipher_of(key, at // SECTOR).encryptor().update(text[at : at + SECTOR]))
    return b"".join(parts)


def deciphered(cipher_of, key, raw):
    """All sectors of an image, deciphered."""
    parts = []
    for at in range(0, len(raw), SECTOR):
        parts.append(cipher_of(key, at // SECTOR).decryptor().update(raw[at : at + SECTOR]))
    return b"".join(parts)


def script_of(blocks, key_line, operations):
    """A script of one section."""
    lines = ["blkcrypt 1", f"disk {blocks}", "fallback on", key_line, "thread", *operations, "end"]
    return ("\n".join(lines) + "\n").encode()


def run(program, folder, script, *words):
    """Runs the program in a folder, and returns the lines of its report."""
    done = subprocess.run(
        [program, "serial", *words], input=script, stdout=subprocess.PIPE, stderr=subprocess.PIPE, cwd=folder, check=False
    )
    if done.returncode != 0:
        sys.exit(f"interop: {' '.join(words)} ends with status {done.returncode}: {done.stderr.decode().strip()}")
    return done.stdout.decode().split("\n")


def pieces_of(sectors, source):
    """Cuts the sectors of a disk into runs of 1 to 32."""
    pieces = []
    at = 0
    while at < sectors:
        count = min(source.randint(1, 32), sectors - at)
        pieces.append((at, count))
        at += count
    return pieces


def compare(program, folder, name, cipher_of, key, key_line, blocks, shards, source):
    """Writes a whole disk by the program and deciphers it here; enciphers one here and reads it by the program."""
    sectors = blocks * BLOCK // SECTOR
    text = source.randbytes(sectors * SECTOR)
    words = ["--shards", str(shards)]

    writes = []
    for at, count in pieces_of(sectors, source):
        part = text[at * SECTOR : (at + count) * SECTOR]
        writes.append(f"write k {at} {count} {at:x} hex {part.hex()}")
    source.shuffle(writes)
    run(program, folder, script_of(blocks, key_line, writes), "--out", "disk", *words)
    raw = (folder / "disk").read_bytes()
    if raw == text:
        sys.exit(f"interop: {name}: the image is plain")
    back = deciphered(cipher_of, key, raw)
    for sector in range(sectors):
        here = slice(sector * SECTOR, (sector + 1) * SECTOR)
        if back[here] != text[here]:
            sys.exit(f"interop: {name}: sector {sector} is deciphered to another text")
    if enciphered(cipher_of, key, text) != raw:
        sys.exit(f"interop: {name}: the image has other bytes than the text enciphered here")

    other = source.randbytes(sectors * SECTOR)
    (folder / "made").write_bytes(enciphered(cipher_of, key, other))
    reads = pieces_of(sectors, source)
    report = run(
        program,
        folder,
        script_of(blocks, key_line, [f"read k {at} {count} {at:x}" for at, count in reads]),
        "--image",
        "made",
        "--out",
        "left",
        *words,
    )
    answers = report[2 : 2 + len(reads)]
    for (at, count), answer in zip(reads, answers):
        part = other[at * SECTOR : (at + count) * SECTOR]
        if answer != f"done sha256 {hashlib.sha256(part).hexdigest()}":
            sys.exit(f"interop: {name}: sectors {at} to {at + count - 1} are read as something else: {answer}")
    if (folder / "left").read_bytes() != (folder / "made").read_bytes():
        sys.exit(f"interop: {name}: reading changes the image")
    return 2 * sectors


def main():
    """Both ciphers, on disks of several sizes, over one shard and over several."""
    program, folder = sys.argv[1], Path(sys.argv[2])
    source = random.Random(20261201)
    sectors = 0
    for blocks, shards in [(1, 1), (5, 3), (32, 8)]:
        key = source.randbytes(64)
        line = f"key k aes-256-xts 512 8 {key.hex()}"
        sectors += compare(program, folder, "aes-xts-plain64", xts, key, line, blocks, shards, source)
        key = source.randbytes(16)
        line = f"key k aes-128-cbc-essiv 512 8 {key.hex()}"
        sectors += compare(program, folder, "aes-cbc-essiv:sha256", essiv, key, line, blocks, shards, source)
    print(f"interop: {sectors} sectors as another implementation has them")


main()

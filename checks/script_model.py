"""The rules of docs/SCRIPT.md once more: what a script's text says or where it is wrong, and what a run of it prints.

It has nothing of the program in it. As a command it reads a script on standard input and does what the program is to do, over
one shard or over as many as are asked for; the image that is left goes to a file where one is named:

    python3 checks/script_model.py [SHARDS [IMAGE]] < SCRIPT
"""
import hashlib
import re
import sys
from dataclasses import dataclass
from typing import Optional

from cryptography.hazmat.primitives.ciphers import Cipher, algorithms, modes

SECTOR = 512
XTS = b"aes-256-xts"
ESSIV = b"aes-128-cbc-essiv"
KEY_BYTES = {XTS: 64, ESSIV: 16}
UNIT_SIZES = [512, 1024, 2048, 4096]

MOST_TEXT = 16777216
MOST_DEVICES = 8
MOST_KEYS = 4096
MOST_FAULTS = 1024
MOST_SECTIONS = 16
MOST_OPERATIONS = 65536
MOST_UNITS = 65536
MOST_SECTORS_OF_A_BIO = 256
MOST_PLUGGED = 64

# ---- what a script says


@dataclass
class Device:
    first: int
    blocks: int
    slots: int
    xts: int  # masks: bit i says that the device knows data units of 512 * 2**i bytes in this mode
    essiv: int
    number_bytes: int


@dataclass
class Key:
    place: int  # among the keys, from 0
    mode: bytes
    unit: int
    number_bytes: int
    raw: bytes


@dataclass
class Bio:
    key: Optional[Key]
    sector: int
    units: int
    number: int

    @property
    def unit_bytes(self):
        return self.key.unit if self.key else SECTOR

    @property
    def unit_sectors(self):
        return self.unit_bytes // SECTOR


@dataclass
class Write:
    bio: Bio
    data: bytes


@dataclass
class Read:
    bio: Bio


@dataclass
class Evict:
    key: Key


@dataclass
class Reset:
    device: int


@dataclass
class Script:
    blocks: int
    fallback: bool
    devices: list
    keys: list
    faults: list  # of pairs of a shard and a place in its order
    sections: list  # of lists of Write, Read, Evict, Reset, "plug" and "unplug"


# ---- reading a text


class Fails(Exception):
    """A test that fails at the line that is being read, by the word that is printed."""


def test(passed, kind):
    if not passed:
        raise Fails(kind)


def decimal(field, least, most):
    test(re.fullmatch(rb"0|[1-9][0-9]{0,9}", field) and least <= int(field) <= most, "number")
    return int(field)


def number_text(field):
    test(re.fullmatch(rb"0|[1-9a-f][0-9a-f]{0,63}", field), "number")
    return int(field, 16)


def hexadecimal(field, least, most):
    test(re.fullmatch(rb"(?:[0-9a-f]{2})*", field) and least <= len(field) // 2 <= most, "hex")
    return bytes.fromhex(field.decode())


class Reader:
    """Reads lines one after the other. `place` says what the lines so far are: it is the name of the next line where
    one line may follow, `devices` directly after the first three lines and after devices, then `keys`, `faults`, `sections`
    and `done`."""

    def __init__(self):
        self.place = "version"
        self.blocks = 0
        self.fallback = True
        self.devices = []
        self.keys = {}
        self.faults = []
        self.sections = []
        self.plugged = False
        self.operations = 0
        self.units = 0

    def line(self, line):
        """Takes a line in, or fails with its kind. The tests stand in their order: End, then Word by the
        cases of `match`, then those of each form."""
        test(self.place != "done", "end")
        match self.place, line.split(b" "):
            case "version", [b"blkcrypt", b"1"]:
                self.place = "disk"
            case "disk", [b"disk", blocks]:
                self.blocks = decimal(blocks, 1, 16384)
                self.place = "fallback"
            case "fallback", [b"fallback", (b"on" | b"off") as switch]:
                self.fallback = switch == b"on"
                self.place = "devices"
            case "devices", [b"device", first, blocks, slots, xts, essiv, number_bytes]:
                self.device(Device(decimal(first, 0, 16383), decimal(blocks, 1, 16384), decimal(slots, 1, 32), decimal(xts, 0, 15),
                                   decimal(essiv, 0, 15), decimal(number_bytes, 1, 8)))
            case "devices" | "keys", [b"key", name, (b"aes-256-xts" | b"aes-128-cbc-essiv") as mode, unit, size, digits]:
                self.key(name, mode, unit, size, digits)
                self.place = "keys"
            case "devices" | "keys" | "faults", [b"fault", shard, access]:
                self.fault(decimal(shard, 0, 63), decimal(access, 0, 65535))
                self.place = "faults"
            case "devices" | "keys" | "faults" | "sections", [b"thread"]:
                test(not self.plugged, "order")
                self.devices_cover()
                test(len(self.sections) < MOST_SECTIONS, "limit")
                self.sections.append([])
                self.place = "sections"
            case "devices" | "keys" | "faults" | "sections", [b"end"]:
                test(not self.plugged, "order")
                self.devices_cover()
                self.place = "done"
            case "sections", [b"write", key, sector, units, number, (b"fill" | b"hex") as how, digits] if (
                    (key == b"-") == (number == b"-")):
                bio = self.bio(key, sector, units, number)
                data = self.data(bio, how, digits)
                self.limit_units(bio)
                self.operation(Write(bio, data))
            case "sections", [b"read", key, sector, units, number] if (key == b"-") == (number == b"-"):
                bio = self.bio(key, sector, units, number)
                self.limit_units(bio)
                self.operation(Read(bio))
            case "sections", [b"evict", name]:
                self.operation(Evict(self.named(name)))
            case "sections", [b"reset", device]:
                self.operation(Reset(decimal(device, 0, len(self.devices) - 1)))
            case "sections", [b"plug"]:
                test(not self.plugged, "order")
                self.operation("plug")
                self.plugged = True
            case "sections", [b"unplug"]:
                test(self.plugged, "order")
                self.operation("unplug")
                self.plugged = False
            case _:
                raise Fails("word")

    def device(self, device):
        test(device.first == sum(other.blocks for other in self.devices), "device")
        test(len(self.devices) < MOST_DEVICES, "limit")
        self.devices.append(device)

    def devices_cover(self):
        """The devices, where there are any, have the disk's blocks. It is tested at the first line after them."""
        covered = not self.devices or sum(device.blocks for device in self.devices) == self.blocks
        test(self.place != "devices" or covered, "device")

    def key(self, name, mode, unit, size, digits):
        test(re.fullmatch(rb"[a-z][a-z0-9]{0,15}", name) and name not in self.keys, "name")
        unit = decimal(unit, 0, 4294967295)
        size = decimal(size, 0, 255)
        raw = hexadecimal(digits, 1, 128)
        test(len(raw) == KEY_BYTES[mode] and unit in UNIT_SIZES and 1 <= size <= 16, "key")
        test(mode != XTS or raw[:32] != raw[32:], "key")
        self.devices_cover()
        test(len(self.keys) < MOST_KEYS, "limit")
        self.keys[name] = Key(len(self.keys), mode, unit, size, raw)

    def fault(self, shard, access):
        test(not self.faults or self.faults[-1] < (shard, access), "order")
        self.devices_cover()
        test(len(self.faults) < MOST_FAULTS, "limit")
        self.faults.append((shard, access))

    def named(self, name):
        test(name in self.keys, "name")
        return self.keys[name]

    def bio(self, key, sector, units, number):
        key = self.named(key) if key != b"-" else None
        return Bio(key, decimal(sector, 0, 4294967295), decimal(units, 0, 256), number_text(number) if key else 0)

    def data(self, bio, how, digits):
        size = bio.units * bio.unit_bytes
        if how == b"fill":
            return hexadecimal(digits, 1, 1) * size
        test(bio.units > 0, "hex")
        return hexadecimal(digits, size, size)

    def limit_units(self, bio):
        test(bio.units * bio.unit_sectors <= MOST_SECTORS_OF_A_BIO, "limit")
        self.units += bio.units
        test(self.units <= MOST_UNITS, "limit")

    def operation(self, operation):
        self.operations += 1
        test(self.operations <= MOST_OPERATIONS, "limit")
        self.sections[-1].append(operation)


def read_script(text):
    """The script that a text says; or, where it says none, the first line that fails a test, from 1, and the test."""
    *lines, rest = text.split(b"\n")
    reader = Reader()
    for place, line in enumerate(lines):
        try:
            reader.line(line)
        except Fails as failure:
            return place + 1, str(failure)
    # After the last line feed stands nothing, and nothing is missing.
    if rest or reader.place != "done":
        return len(lines) + 1, "end"
    return Script(reader.blocks, reader.fallback, reader.devices, list(reader.keys.values()), reader.faults, reader.sections)


# ---- carrying a script out


def through(cipher, encipher, data):
    way = cipher.encryptor() if encipher else cipher.decryptor()
    return way.update(data) + way.finalize()


def ciphered(key, number, data, encipher):
    """One data unit, enciphered or deciphered. Without a key it stays as it is."""
    if key is None:
        return data
    iv = number.to_bytes(16, "little")
    if key.mode == XTS:
        return through(Cipher(algorithms.AES(key.raw), modes.XTS(iv)), encipher, data)
    start = through(Cipher(algorithms.AES(hashlib.sha256(key.raw).digest()), modes.ECB()), True, iv)
    return through(Cipher(algorithms.AES(key.raw), modes.CBC(start)), encipher, data)


def refusal(bio, sectors):
    """Why a bio is refused on a disk of so many sectors, by the first test that it fails."""
    if bio.units == 0:
        return "empty"
    if bio.sector % bio.unit_sectors:
        return "misaligned"
    if bio.sector + bio.units * bio.unit_sectors > sectors:
        return "outside"
    if bio.key and bio.number + bio.units > 256 ** bio.key.number_bytes:
        return "dun"
    return None


def supports(devices, key):
    """Whether each device knows the key's mode, data unit size and number bytes. None at all supports nothing."""
    bit = UNIT_SIZES.index(key.unit)
    return bool(devices) and all(
        (device.xts if key.mode == XTS else device.essiv) >> bit & 1 and key.number_bytes <= device.number_bytes
        for device in devices)


def answer_of(data):
    if data == data[:1] * len(data):
        return "done fill " + data[:1].hex()
    return "done sha256 " + hashlib.sha256(data).hexdigest()


class Slots:
    """The keyslots of a device under one caller, and their journal. The slot that became idle first stands first in the order;
    at the beginning they stand by number."""

    def __init__(self, slots):
        self.keys = [None] * slots
        self.events = [None] * slots  # where the slot was programmed
        self.order = list(range(slots))
        self.journal = []

    def hold(self, key):
        """The slot that has the key, after a programming where none has it."""
        if key not in self.keys:
            slot = self.order[0]
            self.keys[slot] = key
            self.events[slot] = len(self.journal)
            self.journal.append(f"program {slot} {key}")
        return self.keys.index(key)

    def put(self, slot):
        self.order.remove(slot)
        self.order.append(slot)
        self.journal.append(f"idle {slot}")

    def evict(self, key):
        if key in self.keys:
            slot = self.keys.index(key)
            self.keys[slot] = None
            self.journal.append(f"evict {slot} {key}")

    def reset(self):
        self.journal.append("reset")


@dataclass
class Plugged:
    """A bio on its way: the number of its operation, what that is, what was read so far, and the answer where it is over."""
    number: int
    operation: object
    texts: list
    answer: Optional[str] = None


def runs_on(one, other):
    """Whether the bio of one operation goes on directly after another's, under the same key."""
    first, second = one.bio, other.bio
    return (type(one) is type(other) and first.sector + first.units * first.unit_sectors == second.sector
            and first.key is second.key
            and (first.key is None or (second.number == first.number + first.units and second.number < 2 ** 256)))


class Run:
    """A disk in shards and devices, and the entries of each shard's accesses in their order. The faults say which of them
    fail. Sections are carried out one after the other."""

    def __init__(self, script, shards, image):
        self.disk = bytearray(8 * SECTOR * script.blocks) if image is None else bytearray(image)
        self.fallback = script.fallback
        self.devices = script.devices
        self.slots = [Slots(device.slots) for device in script.devices]
        self.faults = set(script.faults)
        self.shards = [[] for _ in range(shards)]

    def access(self, sector, entry):
        """Notes an access of a data unit at this sector, and tells whether it succeeds."""
        shard = sector // 8 % len(self.shards)
        self.shards[shard].append(entry)
        return (shard, len(self.shards[shard]) - 1) not in self.faults

    def device_of(self, sector):
        return next(at for at, device in enumerate(self.devices) if device.first <= sector // 8 < device.first + device.blocks)

    def section(self, thread, operations):
        """The answers of a section's operations."""
        answers = [None] * len(operations)
        plugged = []
        open_plug = False

        def submit():
            self.submit(thread, plugged)
            for bio in plugged:
                answers[bio.number] = bio.answer
            plugged.clear()

        for number, operation in enumerate(operations):
            match operation:
                case Write(bio) | Read(bio):
                    refused = refusal(bio, len(self.disk) // SECTOR)
                    if not refused and bio.key and not supports(self.devices, bio.key) and not self.fallback:
                        refused = "unsupported"
                    if refused:
                        answers[number] = f"refused {refused}"
                        continue
                    if len(plugged) == MOST_PLUGGED:
                        submit()
                    plugged.append(Plugged(number, operation, []))
                    if not open_plug:
                        submit()
                case Evict(key):
                    submit()
                    if supports(self.devices, key):
                        for slots in self.slots:
                            slots.evict(key.place)
                    answers[number] = "evicted"
                case Reset(device):
                    submit()
                    self.slots[device].reset()
                    answers[number] = "reset"
                case _:
                    submit()
                    open_plug = operation == "plug"
                    answers[number] = operation
        return answers

    def submit(self, thread, plugged):
        """Carries out plugged bios: neighbours that run on are one request, and of a request the part on each device is one use
        of its slots."""
        requests = []
        for bio in plugged:
            if requests and runs_on(requests[-1][-1].operation, bio.operation):
                requests[-1].append(bio)
            else:
                requests.append([bio])
        for request in requests:
            units = [(bio, unit) for bio in request for unit in range(bio.operation.bio.units)]
            key = request[0].operation.bio.key
            if key is None or not supports(self.devices, key):
                for bio, unit in units:
                    self.unit(thread, bio, unit, "soft" if key else "plain")
            else:
                self.inline(thread, key, units)
        for bio in plugged:
            if bio.answer is None:
                bio.answer = "done" if isinstance(bio.operation, Write) else answer_of(b"".join(bio.texts))

    def inline(self, thread, key, units):
        while units:
            devices = [self.device_of(bio.operation.bio.sector + unit * bio.operation.bio.unit_sectors) for bio, unit in units]
            count = next((at for at, device in enumerate(devices) if device != devices[0]), len(units))
            slots = self.slots[devices[0]]
            slot = slots.hold(key.place)
            for bio, unit in units[:count]:
                self.unit(thread, bio, unit, f"inline {devices[0]} {slot} {slots.events[slot]}")
            slots.put(slot)
            units = units[count:]

    def unit(self, thread, plugged, unit, way):
        """One data unit, unless an earlier one of its bio has failed."""
        if plugged.answer is not None:
            return
        bio = plugged.operation.bio
        size = bio.unit_bytes
        sector = bio.sector + unit * bio.unit_sectors
        if not self.access(sector, f"{thread} {plugged.number} {unit} {way}"):
            plugged.answer = f"fault {unit}"
            return
        at = SECTOR * sector
        if isinstance(plugged.operation, Write):
            text = plugged.operation.data[unit * size:(unit + 1) * size]
            self.disk[at:at + size] = ciphered(bio.key, bio.number + unit, text, True)
        else:
            plugged.texts.append(ciphered(bio.key, bio.number + unit, bytes(self.disk[at:at + size]), False))


def run_of(script, shards, image=None):
    """The report of a run over so many shards from an image, zeros where none is given, and the image that it leaves."""
    run = Run(script, shards, image)
    lines = ["report 1"]
    for thread, section in enumerate(script.sections):
        lines += [f"thread {thread}", *run.section(thread, section)]
    for shard, entries in enumerate(run.shards):
        lines += [f"shard {shard} {len(entries)}", *entries]
    for device, slots in enumerate(run.slots):
        lines += [f"device {device} {len(slots.journal)}", *slots.journal]
    return "".join(line + "\n" for line in [*lines, "end"]).encode(), bytes(run.disk)


def report_of(script, shards):
    return run_of(script, shards)[0]


def modelled(text, shards=1):
    """What a run over so many shards, 1 to 64, is to do: its status, its standard output and its standard error."""
    if len(text) > MOST_TEXT:
        return 7, b"", f"blkcrypt: input longer than {MOST_TEXT} bytes\n".encode()
    script = read_script(text)
    if isinstance(script, Script):
        return 0, report_of(script, shards), b""
    line, kind = script
    return 2, b"", f"blkcrypt: script line {line}: {kind}\n".encode()


def main():
    text = sys.stdin.buffer.read()
    shards = int(sys.argv[1]) if len(sys.argv) > 1 else 1
    status, output, error = modelled(text, shards)
    sys.stdout.buffer.write(output)
    sys.stderr.buffer.write(error)
    if status == 0 and len(sys.argv) > 2:
        with open(sys.argv[2], "wb") as out:
            out.write(run_of(read_script(text), shards)[1])
    return status


if __name__ == "__main__":
    sys.exit(main())

"""Generates scripts, the same ones for the same seed: valid ones of every shape, and ones in which a few words or lines are
wrong. Those with devices stand at the end, by themselves."""

LETTERS = "abcdefghijklmnopqrstuvwxyz"
XTS = "aes-256-xts"
ESSIV = "aes-128-cbc-essiv"
UNIT_SIZES = [512, 1024, 2048, 4096]


def text_of(lines):
    return "".join(line + "\n" for line in lines).encode()


def head(blocks):
    return ["blkcrypt 1", f"disk {blocks}", "fallback on"]


def key_line(dice, name="a", mode=XTS, unit=512, number_bytes=8):
    return f"key {name} {mode} {unit} {number_bytes} {dice.randbytes(64 if mode == XTS else 16).hex()}"


def with_keys(keys, operations, blocks=1):
    return text_of(head(blocks) + keys + ["thread", *operations, "end"])


def script(dice, operations, blocks=1, **key):
    return with_keys([key_line(dice, **key)], operations, blocks)


def script_with_faults(dice, faults):
    return text_of([*head(1), key_line(dice), *faults, "thread", "write a 0 8 0 fill 5a", "read a 0 8 0", "end"])


# ---- valid scripts, at random


def a_name(dice):
    return dice.choice(LETTERS) + "".join(dice.choices(LETTERS + "0123456789", k=dice.randrange(16)))


class Key:
    def __init__(self, dice, name):
        self.name = name
        self.mode = dice.choice([XTS, ESSIV])
        self.unit = dice.choice(UNIT_SIZES)
        self.number_bytes = dice.choice([1, 1, 2, 4, 7, 8, 8, 15, 16, dice.randrange(1, 17)])

    def line(self, dice):
        return key_line(dice, self.name, self.mode, self.unit, self.number_bytes)


def a_number(dice, number_bytes):
    """A number, mostly one that fits, and often close to the last one."""
    end = 256 ** number_bytes
    return dice.choice([
        dice.randrange(10), dice.randrange(256), dice.randrange(end), end - dice.randrange(1, 9), end // 2,
        end - 1, end, dice.choice([end, 2 ** 256 - 1, 2 ** 255, dice.randrange(2 ** 256)])])


class Bio:
    """A place that some operations meet on: they write it, read it, read a part of it, or read it otherwise."""

    def __init__(self, dice, keys, blocks):
        self.key = dice.choice([*keys, dice.choice([*keys, None])]) if keys else None
        self.unit = self.key.unit if self.key else 512
        self.step = self.unit // 512
        most = min(256 // self.step, 12)
        self.units = dice.choice([0, 1, 1, 1, 2, 2, 3, dice.randrange(1, most + 1), dice.choice([most, 256 // self.step])])
        room = 8 * blocks - self.units * self.step
        sector = dice.randrange(max(room, 0) + 1)
        if dice.random() < 0.85:
            sector -= sector % self.step
        self.sector = dice.choice([sector, sector, sector, 0, max(room, 0), max(room, 0) + self.step, 8 * blocks])
        if dice.random() < 0.02:
            self.sector = dice.choice([4294967295, 4294967288, 8 * blocks - 1, 8 * blocks + 1])
        self.number = a_number(dice, self.key.number_bytes) if self.key else None

    def fields(self, key=None, ahead=0, units=None, number=0):
        key = key or self.key
        shown = "-" if self.number is None or key is None else f"{(self.number + ahead + number) % 2 ** 256:x}"
        sector = min(self.sector + ahead * self.step, 4294967295)
        return f"{'-' if shown == '-' else key.name} {sector} {self.units if units is None else units} {shown}"

    def write(self, dice):
        size = self.units * self.unit
        if size and size <= 16384 and dice.random() < 0.4:
            data = dice.choice([dice.randbytes(size), dice.randbytes(1) * size, bytes(size - 1) + b"\x01"])
            return f"write {self.fields()} hex {data.hex()}"
        return f"write {self.fields()} fill {dice.randrange(256):02x}"

    def read(self, dice, keys):
        turn = dice.random()
        if turn < 0.1 and self.units > 1:
            ahead = dice.randrange(self.units)
            return f"read {self.fields(ahead=ahead, units=dice.randrange(1, self.units - ahead + 1))}"
        if turn < 0.2:
            return f"read {self.fields(number=1)}"
        if turn < 0.3 and self.key:
            other = dice.choice(keys)
            return f"read {self.fields(key=other, units=min(self.units, 256 // (other.unit // 512)))}"
        if turn < 0.35:
            return f"read - {self.sector} {self.units} -"
        return f"read {self.fields()}"


def a_section(dice, keys, bios):
    lines = ["thread"]
    plugged = False
    for _ in range(dice.choice([0, 1, 2, 4, 8, 12])):
        turn = dice.random()
        if turn < 0.1:
            lines.append("unplug" if plugged else "plug")
            plugged = not plugged
        elif turn < 0.2 and keys:
            lines.append(f"evict {dice.choice(keys).name}")
        elif turn < 0.6:
            lines.append(dice.choice(bios).write(dice))
        else:
            lines.append(dice.choice(bios).read(dice, keys))
    return lines + ["unplug"] * plugged


def fault_lines(faults):
    return [f"fault {shard} {access}" for shard, access in sorted(set(faults))]


def some_faults(dice, lines):
    """Fault lines, 0 to 1024, for sections of these lines: at places that are reached, close to each other and far, at places
    that aren't, and on shards that the run hasn't."""
    if dice.random() < 0.3:
        return []
    units = sum(int(line.split(" ")[3]) for line in lines if line.startswith(("write ", "read ")))
    reach = dice.choice([units, min(units, 9)])
    first = dice.randrange(reach + 1)
    faults = [
        *((0, dice.randrange(reach + 2)) for _ in range(dice.choice([0, 1, 1, 2, 3, 8]))),
        *((0, first + step) for step in range(dice.choice([0, 0, 1, 2, 5]))),
        *((dice.randrange(1, 64), dice.choice([0, 1, 9, 65535, dice.randrange(65536)]))
          for _ in range(dice.choice([0, 0, 1, 3, 40]))),
        *((0, dice.randrange(65536)) for _ in range(dice.choice([0] * 9 + [3000]))),
        *((0, place) for place in range(0, dice.choice([0] * 9 + [units]), dice.choice([1, 2, 3, 7])))]
    return fault_lines(dice.sample(faults, min(len(faults), 1024)))


def a_script(dice):
    """A valid script of a few keys and sections, whose operations meet on a few places."""
    blocks = dice.choice([1, 1, 2, 4, 10, 32, dice.randrange(1, 40)])
    names = list(dict.fromkeys(a_name(dice) for _ in range(dice.choice([0, 1, 1, 2, 3, 3, 6]))))
    keys = [Key(dice, name) for name in names]
    key_lines = [key.line(dice) for key in keys]
    bios = [Bio(dice, keys, blocks) for _ in range(dice.choice([1, 2, 3, 5]))]
    sections = [a_section(dice, keys, bios) for _ in range(dice.choice([0, 1, 1, 1, 2, 3, 16, dice.randrange(17)]))]
    lines = [line for section in sections for line in section]
    return text_of([*head(blocks), *key_lines, *some_faults(dice, lines), *lines, "end"])


# ---- valid scripts, by shape


def key_name(place):
    """Names of which no two are equal, and whose order isn't that of their places."""
    return f"k{place * 2731 % 4096}"


def many_keys(dice, count):
    return [
        key_line(dice, key_name(place), XTS if place % 3 else ESSIV, UNIT_SIZES[place % 4], 1 + place % 16)
        for place in range(count)]


def every_configuration(dice):
    """Each mode, data unit size and count of number bytes: the last bio that fits, read back whole and by its last unit,
    and the first one that doesn't fit."""
    for mode in [XTS, ESSIV]:
        for unit in UNIT_SIZES:
            for size in range(1, 17):
                last = 256 ** size - 3
                step = unit // 512
                yield f"{mode}, units of {unit} bytes, {size} number bytes", script(dice, [
                    f"write a {step} 3 {last:x} hex {dice.randbytes(3 * unit).hex()}",
                    f"read a {step} 3 {last:x}",
                    f"read a {3 * step} 1 {last + 2:x}",
                    f"read a {step} 3 {last + 1:x}",
                    f"write a {step} 1 {last + 2:x} fill 00",
                    f"read a {step} 3 {last:x}",
                    f"read a {step} 1 {last + 3:x}",
                ], 4, mode=mode, unit=unit, number_bytes=size)


def singly(places, units):
    """A write and a read of so many units at each of so many places, most of them used several times."""
    return [line for place in range(places) for line in (
        f"write a {place % 32} {units} {place % 32:x} fill {place % 256:02x}", f"read a {place % 32} {units} {place % 32:x}")]


def met_faults(dice):
    """Runs that meet their faults: on each data unit of a write and of a read, in each size; as many as there may be; on the
    last data unit that a run can have; and on bios of several sections, beside plugs and refusals."""
    for unit in UNIT_SIZES:
        step = unit // 512
        for place in range(7):
            yield f"a fault at the place {place}, units of {unit} bytes", text_of([
                *head(4), key_line(dice, mode=dice.choice([XTS, ESSIV]), unit=unit), f"fault 0 {place}", "thread",
                f"write a {step} 3 5 fill {dice.randrange(256):02x}", f"read a {step} 3 5",
                f"write a {step} 3 5 hex {dice.randbytes(3 * unit).hex()}", f"read a {step} 3 5", f"read a {3 * step} 1 7",
                f"read - 0 {4 * step} -", "end"])
    for name, faults, operations in [
            ("the first 1024 accesses fail", range(1024), singly(520, 1)),
            ("1024 accesses fail after 16 that don't", range(16, 1040), singly(530, 1)),
            ("1024 accesses fail, each second one", range(0, 2048, 2), singly(1030, 1)),
            ("each second access of bios of two units fails", range(1, 1040, 2), singly(520, 2)),
            ("each third access of bios of two units fails", range(0, 1560, 3), singly(520, 2))]:
        yield name, text_of([*head(5), key_line(dice), *(f"fault 0 {place}" for place in faults), "thread", *operations, "end"])
    for place in [0, 1, 127, 254, 255, 256, 511]:
        yield f"the longest bio with a fault at the place {place}", text_of([
            *head(32), key_line(dice), f"fault 0 {place}", "thread", f"write a 0 256 0 hex {dice.randbytes(131072).hex()}",
            "read a 0 256 0", "read - 0 256 -", "end"])
    for place in [65279, 65280, 65534, 65535]:
        yield f"a fault at the place {place}", text_of([
            *head(32), f"fault 0 {place}", "thread", *["read - 0 256 -"] * 256, "end"])
    for place in range(12):
        yield f"a fault at the place {place} of several sections", text_of([
            *head(1), key_line(dice), f"fault 0 {place}", f"fault 1 {place}", "thread", "write a 0 2 0 fill 11", "plug",
            "write a 2 2 2 fill 22", "write a 7 2 7 fill 33", "evict a", "write a 1 2 1 fill 44", "unplug", "thread",
            "read a 0 0 0", "read a 0 4 0", "thread", "plug", "read - 3 1 -", "unplug", "evict a", "read a 1 1 1", "end"])


def longest(dice, size):
    """A valid text of so many bytes, about 16 MiB: many long writes, and reads of no units to fill it up."""
    lines = [*head(32), "thread", *[f"write - 0 256 - hex {dice.randbytes(131072).hex()}"] * 63, "read - 0 256 -"]
    left = size - len(text_of([*lines, "end"]))
    reads = left // 13 - 2
    left -= 13 * reads
    first = min(left - 13, 22)
    lines += ["read - 0 0 -"] * reads + [f"read - {'1' * (length - 12)} 0 -" for length in [first, left - first]]
    return text_of([*lines, "end"])


def shapes(dice):
    """A valid script of each shape, by name."""
    long = "z123456789abcdef"
    yield "no key", text_of(head(1) + ["end"])
    yield "a fault and nothing else", text_of(head(1) + ["fault 0 0", "end"])
    yield "a fault of each shard", text_of(head(1) + [f"fault {shard} {65535 - shard}" for shard in range(64)] + ["thread", "end"])
    yield "as many faults as there may be, on shards that there aren't", script_with_faults(
        dice, [f"fault {1 + place // 17} {place * 3}" for place in range(1024)])
    yield "as many keys and faults as there may be", text_of(
        head(1) + many_keys(dice, 4096) + [f"fault 1 {place}" for place in range(1024)] + ["thread", "end"])
    yield from met_faults(dice)
    yield "the largest disk and no key", text_of(head(16384) + ["end"])
    yield "the end of the largest disk", script(
        dice, ["write a 131064 4 7 fill 10", "read a 131070 1 a", "read a 131070 1 9", "read a 131070 2 a", "read - 131071 2 -",
               "read - 131071 1 -", "read - 131072 0 -", "read - 131072 1 -"], 16384, unit=1024)
    yield "a key without a section", text_of(head(1) + [key_line(dice), "end"])
    yield "a section and no key", text_of(head(1) + ["thread", "end"])
    yield "sixteen sections", text_of(head(1) + ["thread"] * 16 + ["end"])
    yield "sixteen sections that see each other's writes", text_of(head(2) + [key_line(dice)] + [
        line for thread in range(16) for line in (
            "thread", f"write a {thread} 1 {thread:x} fill {thread:02x}", f"read a {15 - thread} 1 {15 - thread:x}",
            f"read a 0 {thread + 1} 0")] + ["end"])
    yield from every_configuration(dice)
    yield "halves that differ in one bit", with_keys(
        ["key a aes-256-xts 512 8 " + "00" * 63 + "01"], ["write a 0 1 0 fill 00", "read a 0 1 0"])
    yield "a CBC-ESSIV key with equal halves", with_keys(
        ["key e aes-128-cbc-essiv 512 1 " + "5a" * 16], ["write e 0 1 ff fill 00", "read e 0 1 ff"])
    same = dice.randbytes(64).hex()
    yield "one key's bytes under two names", with_keys(
        [f"key a aes-256-xts 512 8 {same}", f"key b aes-256-xts 512 4 {same}", f"key c aes-256-xts 1024 8 {same}"],
        ["write a 0 1 ffffffff fill 7e", "read b 0 1 ffffffff", "read a 0 1 1ffffffff", "read b 0 1 1ffffffff",
         "write c 0 1 5 fill 11", "read a 0 2 5", "write a 0 2 5 fill 11", "read c 0 1 5"])
    alike = ["a", "aa", "ab", "a0", "b", "a123456789abcdef", "a123456789abcdee"]
    yield "names that begin alike", with_keys(
        [key_line(dice, name) for name in alike],
        [line for byte, name in enumerate(alike) for line in (
            f"write {name} {byte} 1 0 fill 0{byte}", f"read {name} {byte} 1 0", f"evict {name}")])
    for word in ["key", "thread", "end", "write", "read", "fill", "hex", "disk", "plug", "evict", "device", "fault", long]:
        yield f"a key that is named {word}", script(
            dice, [f"write {word} 0 1 0 fill 00", f"read {word} 0 1 0", f"evict {word}"], name=word)
    yield "as many keys as there may be", with_keys(
        many_keys(dice, 4096),
        [line for place in range(4096) for line in (
            f"write {key_name(place)} {place % 64 * 8} 1 {place % 256:x} fill {place % 256:02x}",
            f"read {key_name(place)} {place % 64 * 8} 1 {place % 256:x}")], 64)
    yield "every sector of two blocks", script(
        dice, [f"write a {s} 1 {s:x} fill {s:02x}" for s in range(16)] + [f"read a {s} 1 {s:x}" for s in range(16)], 2)
    yield "every byte", script(
        dice, [line for b in range(256) for line in (f"write a 0 1 {b:x} fill {b:02x}", f"read a 0 1 {b:x}")])
    yield "each bit of one byte", script(
        dice, [line for bit in range(8) for line in (
            f"write a 0 1 0 hex {'00' * (511 - 64 * bit)}{1 << bit:02x}{'00' * (64 * bit)}", "read a 0 1 0")])
    for unit, units in [(512, 256), (1024, 128), (2048, 64), (4096, 32)]:
        for mode in [XTS, ESSIV]:
            yield f"the longest bio of units of {unit} bytes, {mode}", script(
                dice, [f"write a 0 {units} 0 hex {dice.randbytes(131072).hex()}", f"read a 0 {units} 0",
                       f"write a 8 {units} 0 fill 00", f"write a 0 {units} 0 fill 77", f"read a 0 {units} 0"],
                32, mode=mode, unit=unit)
    yield "the longest bio without a key", text_of(head(32) + [
        "thread", f"write - 0 256 - hex {dice.randbytes(131072).hex()}", "read - 0 256 -", "read - 255 1 -", "read - 1 256 -",
        "end"])
    yield "raw bytes under a key", script(
        dice, ["write - 0 8 - fill 00", "read a 0 8 0", "write a 0 8 0 fill 00", "read - 0 8 -", "read - 7 1 -"])
    yield "a block written by each size of unit", with_keys(
        [key_line(dice, f"k{unit}", dice.choice([XTS, ESSIV]), unit) for unit in UNIT_SIZES],
        [f"{access} k{unit} 0 {4096 // unit} {number}{text}" for unit in UNIT_SIZES for number in [0, 5] for access, text in
         [("write", " fill 33"), ("read", ""), ("read", "")]] + ["read k512 0 8 0", "read k1024 0 4 0", "read k2048 0 2 0"])
    yield "refusals in their order", with_keys(
        [key_line(dice, unit=4096, number_bytes=1)],
        [f"{access} a {sector} {units} {number}{text}" for access, text in [("write", " fill 5a"), ("read", "")]
         for sector in [0, 1, 8, 9, 4294967295] for units in [0, 1, 2, 3] for number in ["0", "fe", "ff", "100", "f" * 64]], 2)
    yield "a plug that holds every operation", script(
        dice, ["plug", "write a 0 2 0 fill 01", "read a 0 2 0", "read a 7 2 0", "evict a", "write a 2 1 2 fill 02", "unplug",
               "plug", "unplug", "read a 0 3 0"])
    yield "the longest text", longest(dice, 16777216)
    yield "as many operations as there may be", script(dice, ["evict a"] * 65535 + ["read - 0 1 -"])
    yield "as many units as there may be", text_of(head(1) + ["thread"] + ["read - 0 256 -"] * 256 + ["plug", "unplug", "end"])
    yield "as many units as there may be, carried out", script(
        dice, [f"{access} a 0 256 {number:x}{text}" for number in range(8)
               for access, text in [("write", f" fill 0{number}"), ("read", "")]] + ["read - 0 256 -"] * 240, 32)


# ---- broken scripts

NUMBERS = [
    "", "0", "00", "01", "-1", "+1", "1.0", "0x1", "a", "\t1", "1\r", "1\x00", "\u0661", "15", "16", "17", "255", "256", "257", "511",
    "512", "513", "1024", "2048", "4096", "8192", "16384", "16385", "65536", "4294967295", "4294967296", "4294967297",
    "18446744073709551616", "18446744073709551617", "340282366920938463463374607431768211457", "9" * 39, "9" * 5000]
NUMBER_TEXTS = [
    "", "0", "00", "0f", "F", "g", "-1", "0x1", "1\r", "\u0661", "ff", "100", "fffe", "ffff", "10000", "f" * 16, "1" + "0" * 16, "f" * 17,
    "f" * 32, "1" + "0" * 32, "f" * 64, "1" + "0" * 63, "1" + "0" * 64, "f" * 65, "f" * 5000]
NAMES = [
    "", "a", "e", "b", "A", "aa", "1", "a1", "1a", "a_", "a-", "a\r", "\x00", "\u00e9", "abcdefghijklmnop", "abcdefghijklmnopq", "key"]
DIGITS = [
    "", "0", "5a", "5A", "5g", "a", "5a\r", "5 a", "\u0661\u0662", "005a", "5a" * 15, "00" * 16, "00" * 17, "01" * 32 + "02" * 31,
    "01" * 32 + "02" * 32, "01" * 64, "01" * 65, "01" * 32 + "02" * 31 + "0", "00" * 128, "00" * 129, "5a" * 511, "5a" * 512, "5a" * 513,
    "5a" * 1024, "5A" * 512, "5a" * 4096, "5a" * 511 + "5g"]
FIELDS = [*NUMBERS, *NUMBER_TEXTS, *NAMES, *DIGITS, "-", "on", "off", "fill", "hex", "1 1", " ", XTS, ESSIV]

LINES = [
    "", " ", "#", "blkcrypt 1", "blkcrypt 2", "disk 1", "fallback on", "fallback off", "device 0 2 1 1 0 8", "device", "fault 0 0",
    "fault 1 8", "fault 1 65535", "fault 63 65535", "fault 64 0", "fault 2 0 0", "fault", "key", "thread", "end", "plug", "unplug",
    "reset 0", "reset", "evict a", "evict b", "evict", "write a 0 1 0 fill 00", "read a 0 1 0", "read b 0 1 0", "read - 0 1 -",
    "read - 0 1 0", "mmc 0 1 1 1 0 4", "seq", "discard a 0 1 0", "\x00", "report 1",
    "key a aes-256-xts 512 8 " + "01" * 32 + "02" * 32, "key b aes-256-xts 512 8 " + "01" * 32 + "02" * 32]


def base(dice):
    """The lines of a valid script that has a line of each form."""
    return [
        *head(2), key_line(dice, "a"), key_line(dice, "e", ESSIV, 4096, 2), "fault 1 7", "fault 2 0", "thread",
        "write a 9 1 c0ffee fill 5a",
        f"write a 0 1 0 hex {dice.randbytes(512).hex()}", "plug", "read a 9 1 c0ffee", "write e 8 1 ffff fill 00", "unplug",
        "evict e", "read - 8 8 -", "thread", "read e 8 1 ffff", "end"]


# the fields of the base that may have several values: the line, the field, and what is tried there
CHANGING = [
    (1, 1, NUMBERS), (3, 1, NAMES), (3, 3, NUMBERS), (3, 4, NUMBERS), (3, 5, DIGITS), (4, 1, NAMES), (4, 3, NUMBERS),
    (4, 4, NUMBERS), (4, 5, DIGITS), (5, 1, NUMBERS), (5, 2, NUMBERS), (6, 1, NUMBERS), (6, 2, NUMBERS), (8, 1, NAMES),
    (8, 2, NUMBERS), (8, 3, NUMBERS), (8, 4, NUMBER_TEXTS), (8, 6, DIGITS), (9, 3, NUMBERS), (9, 6, DIGITS), (11, 1, NAMES),
    (11, 2, NUMBERS), (11, 3, NUMBERS), (11, 4, NUMBER_TEXTS), (12, 3, NUMBERS), (12, 4, NUMBER_TEXTS), (12, 6, DIGITS),
    (14, 1, NAMES), (15, 2, NUMBERS), (15, 3, NUMBERS), (17, 2, NUMBERS), (17, 4, NUMBER_TEXTS)]


def with_field(lines, place, field, value):
    fields = lines[place].split(" ")
    fields[field] = value
    return [*lines[:place], " ".join(fields), *lines[place + 1:]]


def each_field(dice):
    """The base with each field changed to each value that is tried there."""
    for place, field, values in CHANGING:
        for value in values:
            yield f"line {place + 1} field {field + 1} {value[:20]!r}", text_of(with_field(base(dice), place, field, value))


def two_fields(dice, lines):
    """Two fields of one line changed, so that the order of the tests counts; now and then of two lines."""
    place, field, values = dice.choice(CHANGING)
    lines = with_field(lines, place, field, dice.choice(values))
    others = [other for other in CHANGING if other[0] == place] if dice.random() < 0.8 else CHANGING
    place, field, values = dice.choice(others)
    return text_of(with_field(lines, place, field, dice.choice(values)))


def word_changed(dice, lines):
    """Another word in a field, or a field left out, doubled or put in; now and then at two places."""
    lines = list(lines)
    place = dice.randrange(len(lines))
    for _ in range(dice.choice([1, 1, 1, 2])):
        fields = lines[place].split(" ")
        field = dice.randrange(len(fields))
        way = dice.random()
        if way < 0.7:
            fields[field] = dice.choice(FIELDS)
        elif way < 0.8:
            del fields[field]
        elif way < 0.9:
            fields.insert(field, fields[field])
        else:
            fields.insert(field, dice.choice(FIELDS))
        lines[place] = " ".join(fields)
        if dice.random() < 0.3:
            place = dice.randrange(len(lines))
    return text_of(lines)


def letter_changed(dice, lines):
    """A letter of a line left out, doubled, put in or in upper case; or another one, now and then anywhere in the text."""
    lines = list(lines)
    place = dice.randrange(len(lines))
    line = lines[place]
    at = dice.randrange(len(line) + 1)
    new = dice.choice(["0", "1", "9", "a", "f", "g", " ", "\t", "\r", "\x00", "\n", "-", "z", "\x7f", "\u00e9"])
    lines[place] = dice.choice([
        line[:at] + line[at + 1:], line[:at] + line[at:at + 1] + line[at:], line[:at] + new + line[at:],
        line[:at] + new + line[at + 1:], line.upper(), line + new, new + line])
    return text_of(lines)


def faults_changed(dice, lines):
    """Other faults in place of those that stand there, a few of them out of order or twice."""
    faults = fault_lines([(dice.randrange(1, 4), dice.randrange(5, 15)) for _ in range(dice.choice([2, 3, 5, 9]))])
    for _ in range(dice.choice([0, 1, 1, 2])):
        another = dice.choice([*faults, "fault 0 9", "fault 3 15", "fault 64 0", "fault 1 65536"])
        faults.insert(dice.randrange(len(faults) + 1), another)
    return text_of([*lines[:5], *faults, *lines[7:]])


def line_changed(dice, lines):
    """A line left out, doubled, put in or in another's place."""
    lines = list(lines)
    one, other = dice.randrange(len(lines)), dice.randrange(len(lines) + 1)
    way = dice.random()
    if way < 0.2:
        del lines[one]
    elif way < 0.4:
        lines.insert(other, lines[one])
    elif way < 0.6:
        other = other % len(lines)
        lines[one], lines[other] = lines[other], lines[one]
    elif way < 0.9:
        lines.insert(other, dice.choice(LINES))
    else:
        lines[one] = dice.choice(LINES)
    return text_of(lines)


def head_changed(dice, lines):
    """Lines put in among the first ones, or in their places."""
    lines = list(lines)
    place = dice.randrange(2, 8)
    line = dice.choice(["fallback off", "device 0 2 1 1 0 8", "device", "fault 0 0", "fault x"] * 4 + LINES)
    lines[place:place + (dice.random() < 0.4)] = [line]
    return text_of(lines)


def plugs_changed(dice, lines):
    """Plugs opened and closed at other places, and sections and ends that may find them open."""
    lines = list(lines)
    for _ in range(dice.choice([1, 1, 2, 3])):
        lines.insert(dice.randrange(8, len(lines)), dice.choice(["plug", "unplug", "plug", "unplug", "thread", "end"]))
    if dice.random() < 0.3:
        lines.remove(dice.choice(["plug", "unplug"]))
    return text_of(lines)


def text_changed(dice, lines):
    """A text that ends too early or too late, or whose blanks or line feeds are others."""
    text = text_of(lines)
    old, new = dice.choice([
        (b"\n", b"\r\n"), (b"\n", b"\r"), (b" ", b"\t"), (b" ", b"  "), (b"\n", b" \n"), (b"\n", b"\n\n"), (b"\n", b"\x00\n"),
        (b"thread\n", b"thread\r\n"), (b"end\n", b"end"), (b"end\n", b"end \n"), (b"end\n", b"End\n"), (b"thread", b"thread 0")])
    cut = dice.randrange(len(text))
    return dice.choice([
        text[:cut], text[:cut], text[cut:], text[:cut] + b"\n", text.replace(old, new), text.replace(old, new),
        text[:cut] + text[cut:].replace(old, new, 1), text + dice.choice([b"\n", b"\x00", b" ", b"x", b"end\n", text]),
        text[:cut] + bytes([dice.randrange(256)]) + text[cut + 1:]])


def mutated(dice):
    """Texts that are mostly broken. What is wrong with them, and whether anything is, the model finds."""
    yield from each_field(dice)
    for change, count in [(two_fields, 300), (word_changed, 150), (letter_changed, 200), (line_changed, 150), (head_changed, 100),
                          (faults_changed, 200), (plugs_changed, 100), (text_changed, 120)]:
        for turn in range(count):
            yield f"{change.__name__} {turn}", change(dice, base(dice))
    for turn in range(120):
        change = dice.choice([word_changed, letter_changed, line_changed, text_changed])
        yield f"a valid script, {change.__name__} {turn}", change(dice, a_script(dice).decode().split("\n")[:-1])


def broken(dice):
    """Texts of which each breaks one rule, by name."""
    yield "NUL bytes", bytes(100)
    yield "every byte once", bytes(range(256))
    yield "UTF-16", text_of(base(dice)).decode().encode("utf-16-le")
    yield "a text too long", longest(dice, 16777217)
    for count in [1024, 1025]:
        yield f"{count} faults after as many keys as there may be", text_of(
            head(1) + many_keys(dice, 4096) + [f"fault 1 {place}" for place in range(count)] + ["end"])
    yield "a fault too many, of many shards", script_with_faults(
        dice, [f"fault {1 + place // 17} {place}" for place in range(1025)])
    yield "the last of many faults twice", script_with_faults(
        dice, [f"fault 9 {place}" for place in range(1023)] + ["fault 9 1022"])
    yield "a key too many", text_of(head(1) + many_keys(dice, 4096) + [key_line(dice, "z"), "end"])
    for place in [0, 1, 2047, 4094]:
        yield f"the name of key {place} of 4096 once more", text_of(
            head(1) + many_keys(dice, 4095) + [key_line(dice, key_name(place)), "end"])
    yield "a name that isn't among many", with_keys(many_keys(dice, 4096), ["read k4096 0 1 0"])
    yield "an evicted name that isn't among many", with_keys(many_keys(dice, 4096), ["evict k4096"])
    yield "a name that begins as one of the keys", with_keys(many_keys(dice, 100), ["read k 0 1 0"])
    for unit, units in [(1024, 129), (2048, 65), (4096, 33), (4096, 256)]:
        yield f"{units} units of {unit} bytes", script(dice, [f"read a 0 {units} 0"], 32, unit=unit)
    yield "an operation too many", script(dice, ["read - 0 1 -"] * 65537)
    yield "a unit too many, in a bio that is refused", script(dice, ["read - 4294967295 256 -"] * 256 + ["read a 3 1 " + "f" * 64])
    yield "a unit too many, of another section", script(dice, ["read - 0 255 -"] * 257 + ["thread", "read a 0 2 0"])
    base_lines = base(dice)
    for place in range(len(base_lines)):
        without = base_lines[:place] + base_lines[place + 1:]
        yield f"no line {place + 1}", text_of(without)
        yield f"line {place + 1} twice", text_of(base_lines[:place + 1] + base_lines[place:])
        yield f"lines {place + 1} and {place + 2} exchanged", text_of(
            base_lines[:place] + base_lines[place:place + 2][::-1] + base_lines[place + 2:])


def texts(dice):
    """Every text with its name, and whether a script says it where that is known beforehand."""
    yield from ((name, text, True) for name, text in shapes(dice))
    yield from ((f"valid {turn}", a_script(dice), True) for turn in range(1100))
    yield from ((name, text, None) for name, text in broken(dice))
    yield from ((name, text, None) for name, text in mutated(dice))


# ---- scripts with devices


def some_devices(dice):
    """Device lines, and the blocks that they have together."""
    lines, blocks = [], 0
    whole = dice.random() < 0.6  # every device knows every data unit
    for _ in range(dice.choice([1, 1, 1, 2, 2, 3, 8])):
        count = dice.choice([1, 1, 1, 2, 3, dice.randrange(1, 9)])
        slots = dice.choice([1, 1, 2, 2, 3, 4, 32])
        xts, essiv = (15, 15) if whole else (dice.choice([15, 15, 9, 1, 8, dice.randrange(16)]) for _ in range(2))
        lines.append(f"device {blocks} {count} {slots} {xts} {essiv} {dice.choice([8, 8, 8, 8, 7, dice.randrange(1, 9)])}")
        blocks += count
    return lines, blocks


def row_of_bios(dice, keys, blocks):
    """Lines of bios of which each mostly runs on from the one before it: another number, access, key or place now and then."""
    key = dice.choice(keys)
    step = key.unit // 512
    places = 8 * blocks // step
    at, number = dice.randrange(places), dice.choice([0, 7, dice.randrange(256), 256 ** min(key.number_bytes, 8) - 40])
    number = max(number, 0)
    access = dice.choice(["write", "write", "read"])
    lines = []
    for _ in range(dice.choice([1, 2, 2, 3, 4, 6, dice.choice([9, 64, 65, 66, 130])])):
        units = dice.choice([1, 1, 1, 2, 3, dice.randrange(1, 20)])
        units = min(units, 256 // step)
        turn = dice.random()
        if turn < 0.08:
            number += 1
        elif turn < 0.14:
            access = "read" if access == "write" else "write"
        elif turn < 0.18:
            at += 1
        elif turn < 0.22:
            units = 0
        if at + units > places and turn < 0.9:
            at = 0
        other = dice.choice(keys) if turn > 0.97 else key
        fields = f"{other.name} {at * step} {units} {number:x}"
        lines.append(f"{access} {fields} fill {dice.randrange(256):02x}" if access == "write" else f"read {fields}")
        at, number = at + units, number + units
    return lines


def section_over_devices(dice, keys, bios, devices, blocks):
    lines = ["thread"]
    plugged = False
    for _ in range(dice.choice([0, 1, 2, 4, 8, 16])):
        turn = dice.random()
        if turn < 0.2:
            lines.append("unplug" if plugged else "plug")
            plugged = not plugged
        elif turn < 0.3:
            lines.append(f"evict {dice.choice(keys).name}" if keys else "plug" if not plugged else "unplug")
            plugged = plugged if keys else not plugged
        elif turn < 0.37 and devices:
            lines.append(f"reset {dice.randrange(devices)}")
        elif turn < 0.75 and keys:
            lines += row_of_bios(dice, keys, blocks)
        else:
            bio = dice.choice(bios)
            lines.append(bio.write(dice) if turn < 0.9 else bio.read(dice, keys))
    return lines + ["unplug"] * plugged


def key_for_devices(dice, name):
    key = Key(dice, name)
    key.number_bytes = dice.choice([8, 8, 8, 4, 7, key.number_bytes])
    return key


def a_script_with_devices(dice):
    """A valid script with devices, or without them and without the fallback, whose operations meet on a few places and slots."""
    devices, blocks = some_devices(dice)
    fallback = dice.choice(["on", "on", "off", "off", "off"])
    if dice.random() < 0.05:
        devices, blocks, fallback = [], dice.randrange(1, 5), "off"
    names = list(dict.fromkeys(a_name(dice) for _ in range(dice.choice([0, 1, 2, 3, 3, 4, 6]))))
    keys = [key_for_devices(dice, name) for name in names]
    bios = [Bio(dice, keys, blocks) for _ in range(dice.choice([1, 2, 3]))]
    sections = [section_over_devices(dice, keys, bios, len(devices), blocks)
                for _ in range(dice.choice([1, 1, 1, 2, 3, 5, 16]))]
    lines = [line for section in sections for line in section]
    key_lines = [key.line(dice) for key in keys]
    return text_of(["blkcrypt 1", f"disk {blocks}", f"fallback {fallback}", *devices, *key_lines, *some_faults(dice, lines), *lines,
                    "end"])


def device_shapes(dice):
    """A valid script of each shape that needs devices, by name."""
    many = many_keys(dice, 4096)
    yield "as many keys as there may be, over 32 slots", text_of([
        "blkcrypt 1", "disk 64", "fallback on", "device 0 64 32 15 15 8", *many, "thread",
        *(f"write {key_name(place)} {place % 64 * 8} 1 {place % 256:x} fill {place % 256:02x}" for place in range(4096)), "end"])
    yield "the largest disk, of eight devices", text_of([
        "blkcrypt 1", "disk 16384", "fallback off", *(f"device {2048 * at} 2048 32 15 15 8" for at in range(8)), key_line(dice), "thread",
        *(f"write a {16384 * at - 4} 8 {at:x} fill 0{at}" for at in range(1, 8)),
        *(f"read a {16384 * at - 4} 8 {at:x}" for at in range(1, 8)), "evict a", *(f"reset {at}" for at in range(8)), "end"])
    for mode in [XTS, ESSIV]:
        for bit, unit in enumerate(UNIT_SIZES):
            masks = [(1 << bit if mode == XTS else 0), (1 << bit if mode == ESSIV else 0)]
            for xts, essiv, width, size in [
                    (*masks, 8, 8), (15 - masks[0], 15 - masks[1], 8, 8), (*masks[::-1], 8, 8), (*masks, 8, 9), (*masks, 3, 3),
                    (*masks, 3, 4)]:
                for fallback in ["on", "off"]:
                    yield f"{mode}, units of {unit} bytes, masks {xts} and {essiv}, fallback {fallback}", text_of([
                        "blkcrypt 1", "disk 2", f"fallback {fallback}", f"device 0 2 1 {xts} {essiv} {width}",
                        key_line(dice, mode=mode, unit=unit, number_bytes=size), "thread", "write a 8 1 5 fill 5a", "read a 8 1 5",
                        "evict a", "read a 8 1 6", "reset 0", "end"])
    for count in [63, 64, 65, 127, 128, 129, 193]:
        for step in [1, 2]:
            rows = [f"write a {(place + place // 8 % step) % 256} 1 {place:x} fill {place % 256:02x}" for place in range(count)]
            yield f"{count} bios in a plug, {'all' if step == 1 else 'some'} of which run on", text_of([
                "blkcrypt 1", "disk 32", "fallback off", "device 0 16 2 15 15 8", "device 16 16 2 15 15 8", key_line(dice), "thread",
                "plug", *rows, "unplug", "plug", *rows, "evict a", *rows, "reset 0", *rows, "unplug", "end"])
    for place in range(26):
        yield f"a fault at the place {place} of requests that are cut", text_of([
            "blkcrypt 1", "disk 4", "fallback off", "device 0 1 1 15 15 8", "device 1 2 2 15 15 8", "device 3 1 1 15 15 8",
            key_line(dice), key_line(dice, "b", ESSIV, 1024), f"fault 0 {place}", "thread", "plug", "write a 4 10 4 fill 11",
            "write a 14 10 e fill 22", "write a 24 4 18 fill 33", "write b 6 2 6 fill 44", "unplug", "thread", "read a 6 20 6",
            "read b 6 2 6", "end"])
    yield "as many operations as there may be, over devices", text_of([
        "blkcrypt 1", "disk 1", "fallback off", "device 0 1 1 15 15 8", key_line(dice), key_line(dice, "b"), "thread",
        *["write a 0 1 0 fill 01", "write b 0 1 0 fill 02"] * 16384, *["evict b", "reset 0"] * 16384, "end"])


def base_with_devices(dice):
    """The lines of a valid script that has devices and a line of each form."""
    return [
        "blkcrypt 1", "disk 3", "fallback off", "device 0 1 2 15 15 8", "device 1 2 32 9 8 7", key_line(dice, "a", number_bytes=7),
        key_line(dice, "e", ESSIV, 4096, 2), "fault 1 7", "thread", "write a 9 1 c0ffee fill 5a", "plug", "read a 9 1 c0ffee",
        "write e 8 1 ffff fill 00", "unplug", "evict e", "reset 1", "thread", "read e 8 1 ffff", "end"]


def broken_with_devices(dice):
    """The base with devices, with each field of the lines that only it has changed to each value, and with lines at other
    places."""
    lines = base_with_devices(dice)
    yield "the base with devices", text_of(lines)
    for place, fields in [(1, [1]), (2, [1]), (3, range(7)), (4, range(7)), (15, [1])]:
        for field in fields:
            for value in [*NUMBERS, "2", "3", "7", "8", "9", "14", "31", "32", "33", "16383", "on", "off"]:
                yield f"devices: line {place + 1} field {field + 1} {value[:20]!r}", text_of(with_field(lines, place, field, value))
    for place in range(len(lines)):
        yield f"devices: no line {place + 1}", text_of(lines[:place] + lines[place + 1:])
        yield f"devices: line {place + 1} twice", text_of(lines[:place + 1] + lines[place:])
        yield f"devices: lines {place + 1} and {place + 2} exchanged", text_of(
            lines[:place] + lines[place:place + 2][::-1] + lines[place + 2:])
        yield f"devices: the text ends after line {place}", text_of(lines[:place])
        yield f"devices: a third one before line {place + 1}", text_of([*lines[:place], "device 3 1 1 1 1 1", *lines[place:]])
    for turn in range(150):
        change = dice.choice([word_changed, letter_changed, line_changed, text_changed])
        yield f"devices: {change.__name__} {turn}", change(dice, base_with_devices(dice))


def device_texts(dice):
    """Every text with devices, with its name, and whether a script says it where that is known beforehand."""
    yield from ((name, text, True) for name, text in device_shapes(dice))
    yield from ((f"valid, with devices {turn}", a_script_with_devices(dice), True) for turn in range(700))
    yield from ((name, text, None) for name, text in broken_with_devices(dice))


def a_script_of_threads(dice):
    """A valid script of 2 to 16 sections that ask for the same few slots, blocks and keys."""
    devices, blocks = [], 0
    for _ in range(dice.choice([1, 1, 2, 3])):
        count = dice.choice([1, 1, 2])
        devices.append(f"device {blocks} {count} {dice.choice([1, 1, 2, 3, 4])} 15 15 8")
        blocks += count
    keys = [key_for_devices(dice, name) for name in "abcdef"[:dice.choice([1, 2, 3, 4, 6])]]
    bios = [Bio(dice, keys, blocks) for _ in range(3)]
    sections = [section_over_devices(dice, keys, bios, len(devices), blocks)[:60] for _ in range(dice.choice([2, 2, 3, 4, 16]))]
    for section in sections:
        if section.count("plug") > section.count("unplug"):
            section.append("unplug")
    lines = [line for section in sections for line in section]
    return text_of(["blkcrypt 1", f"disk {blocks}", f"fallback {dice.choice(['on', 'off'])}", *devices,
                    *(key.line(dice) for key in keys), *some_faults(dice, lines), *lines, "end"])

"""Texts whose answer is worked out by hand from the rules of docs/SCRIPT.md, among them the examples of errors that stand
there: the model is held against them first, and the program with all the others. The cases with devices are worked out from
the rules of scripts, of carrying out and of reports; the program gets them where it knows devices."""
import hashlib
import pathlib
import re

K1 = bytes(range(64)).hex()
K2 = bytes(range(64, 128)).hex()
E1 = bytes(range(128, 144)).hex()
H512 = f"key a aes-256-xts 512 8 {K1}"
H4096 = f"key a aes-256-xts 4096 8 {K1}"
B512 = f"key b aes-256-xts 512 8 {K2}"
ESSIV = f"key e aes-128-cbc-essiv 512 16 {E1}"
HEAD = ["blkcrypt 1", "disk 1", "fallback on"]
SECTION = [*HEAD, H512, "thread"]


def text_of(lines):
    return "".join(line + "\n" for line in lines).encode()


def ended(*lines):
    """The lines after a section's beginning, and the end."""
    return text_of([*SECTION, *lines, "end"])


def headed(*lines):
    """The lines after the first three ones, and the end."""
    return text_of([*HEAD, *lines, "end"])


def many_names(count):
    return [H512.replace(" a ", f" k{place} ") for place in range(count)]


def many_faults(count):
    """Faults at the places 64 to 127 of each shard, so that 1024 of them are on the shards 0 to 15."""
    return [f"fault {place // 64} {64 + place % 64}" for place in range(count)]


# name, text, line and kind
REFUSED = [
    # where the text ends
    ("an empty text", b"", 1, "end"),
    ("a line without a line feed", b"blkcrypt 1", 1, "end"),
    ("one line", b"blkcrypt 1\n", 2, "end"),
    ("no end line", text_of(SECTION), 6, "end"),
    ("an end line without a line feed", headed()[:-1], 4, "end"),
    ("a wrong line without a line feed", text_of(SECTION) + b"nothing", 6, "end"),
    ("a line feed after the end", headed() + b"\n", 5, "end"),
    ("a byte after the end", headed() + b"x", 5, "end"),
    ("a second end", headed() + b"end\n", 5, "end"),
    ("a second script", headed() + headed(), 5, "end"),
    # the first three lines
    ("another version", b"blkcrypt 2\n", 1, "word"),
    ("no version", b"blkcrypt\n", 1, "word"),
    ("a line feed alone", b"\n", 1, "word"),
    ("a disk of no blocks", text_of(["blkcrypt 1", "disk 0", "fallback on", "end"]), 2, "number"),
    ("a leading zero", text_of(["blkcrypt 1", "disk 01", "fallback on", "end"]), 2, "number"),
    ("an empty field", text_of(["blkcrypt 1", "disk ", "fallback on", "end"]), 2, "number"),
    ("a blank at the end", text_of(["blkcrypt 1", "disk 1 ", "fallback on", "end"]), 2, "word"),
    ("a blank at the beginning", text_of(["blkcrypt 1", " disk 1", "fallback on", "end"]), 2, "word"),
    ("a disk too large", text_of(["blkcrypt 1", "disk 16385", "fallback on", "end"]), 2, "number"),
    ("a carriage return", headed().replace(b"\n", b"\r\n"), 1, "word"),
    ("a carriage return after a number", text_of(["blkcrypt 1", "disk 1\r", "fallback on", "end"]), 2, "number"),
    ("fallback of another word", text_of(["blkcrypt 1", "disk 1", "fallback no", "end"]), 3, "word"),
    ("fallback off as line 2", text_of(["blkcrypt 1", "fallback off", "disk 1", "end"]), 2, "word"),
    ("a second version line", headed("blkcrypt 1"), 4, "word"),
    ("a second disk line", headed("disk 1"), 4, "word"),
    ("a second fallback line", headed("fallback on"), 4, "word"),
    ("a late fallback off", headed("fallback off"), 4, "word"),
    ("no fallback line", text_of(["blkcrypt 1", "disk 1", "end"]), 3, "word"),
    # devices at other places
    ("a device after a key", headed(H512, "device 0 1 1 1 0 8"), 5, "word"),
    ("a device in a section", ended("device 0 1 1 1 0 8"), 6, "word"),
    ("a device before the fallback line", text_of(["blkcrypt 1", "disk 1", "device 0 1 1 1 0 8"]), 3, "word"),
    ("words that only begin so", headed("devices 0"), 4, "word"),
    ("lines of other versions", ended("mmc 0 1 1 1 0 4"), 6, "word"),
    ("a seq line", ended("seq"), 6, "word"),
    ("a discard line", ended("discard a 0 1 0"), 6, "word"),
    # key lines
    ("a key of 63 bytes", headed(H512[:-2]), 4, "key"),
    ("a key of equal halves", headed("key a aes-256-xts 512 8 " + "11" * 64), 4, "key"),
    ("a key of the other mode's size", headed(f"key a aes-128-cbc-essiv 512 8 {K1}"), 4, "key"),
    ("a data unit of 513 bytes", headed(f"key a aes-256-xts 513 8 {K1}"), 4, "key"),
    ("17 number bytes", headed(f"key a aes-256-xts 512 17 {K1}"), 4, "key"),
    ("256 number bytes", headed(f"key a aes-256-xts 512 256 {K1}"), 4, "number"),
    ("a data unit of 2^32 bytes", headed(f"key a aes-256-xts 4294967296 8 {K1}"), 4, "number"),
    ("a mode that isn't one", headed(f"key a aes-128-xts 512 8 {K1}"), 4, "word"),
    ("a key without its bytes", headed("key a aes-256-xts 512 8"), 4, "word"),
    ("a key whose bytes are empty", headed("key a aes-256-xts 512 8 "), 4, "hex"),
    ("a key of half a byte", headed("key a aes-256-xts 512 8 0"), 4, "hex"),
    ("a key of 129 bytes", headed("key a aes-256-xts 512 8 " + "00" * 129), 4, "hex"),
    ("a key of 128 bytes", headed("key a aes-256-xts 512 8 " + "00" * 128), 4, "key"),
    ("a key in upper case", headed(f"key a aes-256-xts 512 8 {K1.upper()}"), 4, "hex"),
    ("a name twice", headed(H512, H512), 5, "name"),
    ("a name that begins with a digit", headed(H512.replace(" a ", " 1a ")), 4, "name"),
    ("a name of 17 characters", headed(H512.replace(" a ", f" {'a' * 17} ")), 4, "name"),
    ("an empty name", headed(H512.replace(" a ", "  ")), 4, "name"),
    ("a key after a section", text_of([*SECTION, B512, "end"]), 6, "word"),
    ("key 4097", headed(*many_names(4096), B512), 4100, "limit"),
    ("key 4097 with a name of before", headed(*many_names(4096), H512.replace(" a ", " k7 ")), 4100, "name"),
    ("key 4097 with equal halves", headed(*many_names(4096), "key b aes-256-xts 512 8 " + "11" * 64), 4100, "key"),
    # fault lines
    ("a fault on shard 64", headed("fault 64 0"), 4, "number"),
    ("a fault at the place 65536", headed("fault 0 65536"), 4, "number"),
    ("a fault at the place 4294967295", headed("fault 0 4294967295"), 4, "number"),
    ("a fault on shard 2^16 that isn't shard 0", headed("fault 65536 0"), 4, "number"),
    ("a fault at the place 2^32 that isn't the place 0", headed("fault 0 4294967296"), 4, "number"),
    ("a fault on a shard with a leading zero", headed("fault 00 0"), 4, "number"),
    ("a fault at a place with a leading zero", headed("fault 0 01"), 4, "number"),
    ("a fault on a shard in hexadecimal digits", headed("fault a 0"), 4, "number"),
    ("a fault on an empty shard", headed("fault  0"), 4, "number"),
    ("a fault at an empty place", headed("fault 0 "), 4, "number"),
    ("a fault without fields", headed("fault"), 4, "word"),
    ("a fault without a place", headed("fault 0"), 4, "word"),
    ("a fault with a field too many", headed("fault 0 0 0"), 4, "word"),
    ("a blank after a fault", headed("fault 0 0 "), 4, "word"),
    ("faults, in a word", headed("faults 0 0"), 4, "word"),
    ("a fault in a section", ended("fault 0 0"), 6, "word"),
    ("a fault after a section's operation", ended("evict a", "fault 0 0"), 7, "word"),
    ("a fault that isn't one in a section", ended("fault x"), 6, "word"),
    ("a fault before the fallback line", text_of(["blkcrypt 1", "disk 1", "fault 0 0"]), 3, "word"),
    ("a fault before the disk line", text_of(["blkcrypt 1", "fault 0 0"]), 2, "word"),
    ("a fault as the first line", b"fault 0 0\n", 1, "word"),
    ("a fault after the end", headed() + b"fault 0 0\n", 5, "end"),
    ("a key after a fault", headed("fault 0 0", H512), 5, "word"),
    ("a device after a fault", headed("fault 0 0", "device 0 1 1 1 0 8"), 5, "word"),
    ("fallback off after a fault", headed("fault 0 0", "fallback off"), 5, "word"),
    ("an operation after a fault", headed(H512, "fault 0 0", "evict a"), 6, "word"),
    ("a fault twice", headed("fault 0 0", "fault 0 0"), 5, "order"),
    ("a fault at an earlier place", headed("fault 0 7", "fault 0 6"), 5, "order"),
    ("a fault on an earlier shard, at a later place", headed("fault 1 0", "fault 0 65535"), 5, "order"),
    ("places that ascend as words and not as numbers", headed("fault 0 10", "fault 0 9"), 5, "order"),
    ("a fault out of order after one in order", headed("fault 0 0", "fault 0 2", "fault 0 1"), 6, "order"),
    ("the first fault once more after others", headed("fault 0 0", "fault 0 1", "fault 1 0", "fault 0 0"), 7, "order"),
    ("fault 1025", headed(*many_faults(1025)), 1028, "limit"),
    ("fault 1025 after a key", headed(H512, *many_faults(1025)), 1029, "limit"),
    ("fault 1025 out of order", headed(*many_faults(1024), "fault 0 64"), 1028, "order"),
    ("fault 1025 on shard 64", headed(*many_faults(1024), "fault 64 0"), 1028, "number"),
    ("fault 1025 with a field too few", headed(*many_faults(1024), "fault 63"), 1028, "word"),
    ("a shard too great, out of order", headed("fault 63 65535", "fault 64 0"), 5, "number"),
    ("a place that isn't a number, out of order", headed("fault 1 0", "fault 0 x"), 5, "number"),
    # operations
    ("half a byte", ended("write a 0 1 0 fill 0"), 6, "hex"),
    ("a number with a leading zero", ended("write a 0 1 00 fill 00"), 6, "number"),
    ("257 units", ended("write a 0 257 0 fill 00"), 6, "number"),
    ("a name that isn't declared", ended("write b 0 1 0 fill 00"), 6, "name"),
    ("a key without a number", ended("write a 0 1 - fill 00"), 6, "word"),
    ("a number without a key", ended("write - 0 1 0 fill 00"), 6, "word"),
    ("a key without a number, to read", ended("read a 0 1 -"), 6, "word"),
    ("33 units of 4096 bytes", text_of([*HEAD, H4096, "thread", "write a 0 33 0 fill 00", "end"]), 6, "limit"),
    ("33 units of 4096 bytes, to read", text_of([*HEAD, H4096, "thread", "read a 0 33 0", "end"]), 6, "limit"),
    ("33 units with too few digits", text_of([*HEAD, H4096, "thread", "write a 0 33 0 hex 00", "end"]), 6, "hex"),
    ("33 units with their digits",
        text_of([*HEAD, H4096, "thread", "write a 0 33 0 hex " + "00" * (33 * 4096), "end"]), 6, "limit"),
    ("a number of 65 digits", ended("read a 0 1 1" + "0" * 64), 6, "number"),
    ("a sector of 2^32", ended("read a 4294967296 1 0"), 6, "number"),
    ("an evicted `-`", ended("evict -"), 6, "name"),
    ("an evicted name that isn't declared", ended("evict b"), 6, "name"),
    ("evict without a name", ended("evict"), 6, "word"),
    ("a reset", ended("reset 0"), 6, "number"),
    ("a reset of no number", ended("reset x"), 6, "number"),
    ("a reset of all", ended("reset"), 6, "word"),
    ("no units and an empty text", ended("write a 0 0 0 hex "), 6, "hex"),
    ("no units and a text", ended("write a 0 0 0 hex 00"), 6, "hex"),
    ("hex of a byte too few", ended("write a 0 1 0 hex " + "00" * 511), 6, "hex"),
    ("hex of a byte too many", ended("write a 0 1 0 hex " + "00" * 513), 6, "hex"),
    ("fill of two bytes", ended("write a 0 1 0 fill 0000"), 6, "hex"),
    ("another text", ended("write a 0 1 0 zero 00"), 6, "word"),
    ("an operation without a section", headed(H512, "read a 0 1 0"), 5, "word"),
    # plugs
    ("unplug outside a plug", ended("unplug"), 6, "order"),
    ("a plug inside a plug", ended("plug", "plug"), 7, "order"),
    ("a plug that the end finds open", ended("plug"), 7, "order"),
    ("a plug that a section finds open", ended("plug", "thread"), 7, "order"),
    ("a plug of a section before", ended("plug", "unplug", "thread", "unplug"), 9, "order"),
    # limits
    ("section 17", headed(*["thread"] * 17), 20, "limit"),
    ("section 17 after an open plug", headed(*["thread"] * 16, "plug", "thread"), 21, "order"),
    ("operation 65537", ended(*["evict a"] * 65537), 65542, "limit"),
    ("operation 65537 out of order", ended(*["evict a"] * 65536, "unplug"), 65542, "order"),
    ("operation 65537 of another section", ended(*["evict a"] * 65536, "thread", "evict a"), 65543, "limit"),
    ("unit 65537", ended(*["read - 0 256 -"] * 256, "read - 0 1 -"), 262, "limit"),
    # the order of the tests at a line
    ("name before number", headed("key A aes-256-xts x x x"), 4, "name"),
    ("number before hex", headed("key a aes-256-xts x 8 x"), 4, "number"),
    ("hex before key", headed("key a aes-256-xts 513 8 x"), 4, "hex"),
    ("word before name", ended("write b 0 1 - fill 00"), 6, "word"),
    ("name before sector", ended("write b x x x fill x"), 6, "name"),
    ("sector before hex", ended("write a x 1 0 fill x"), 6, "number"),
    ("data unit number before hex", ended("write a 0 1 x fill x"), 6, "number"),
    ("the first of two wrong lines", ended("reset 0", "unplug"), 6, "number"),
]

# 512 bytes of each of 1, 2, 3 and 4
ONE_TO_FOUR = bytes(1 + place // 512 for place in range(2048))
IN_A_PLUG = ["thread", "plug", "write a 0 2 0 fill 11", "write a 2 2 2 fill 22", "write a 4 1 4 fill 33", "unplug", "read - 2 1 -",
             "read a 4 1 4"]
WRITE_AND_READ = ["thread", "write - 0 3 - fill 11", "read - 0 1 -", "read - 1 1 -", "read - 2 1 -"]
READS = ["thread", "write a 0 3 0 fill 5a", *["read a 0 3 0"] * 4]

# name, text, the report's lines
REPORTED = [
    ("nothing", headed(), ["report 1", "shard 0 0", "end"]),
    ("a write and a read", ended("write a 0 1 0 fill 00", "read a 0 1 0"),
        ["report 1", "thread 0", "done", "done fill 00", "shard 0 2", "0 0 0 soft", "0 1 0 soft", "end"]),
    ("numbers of 4 bytes",
        headed(f"key a aes-256-xts 512 4 {K1}", "thread", "write a 0 2 ffffffff fill 00", "write a 0 1 ffffffff fill 00",
               "write a 0 2 fffffffe fill 00", "read a 0 1 100000000"),
        ["report 1", "thread 0", "refused dun", "done", "done", "refused dun", "shard 0 3", "0 1 0 soft", "0 2 0 soft",
         "0 2 1 soft", "end"]),
    ("refusals, of which the first that applies is answered",
        text_of(["blkcrypt 1", "disk 32", "fallback on", H4096, "thread", "write - 0 256 - fill 00", "write - 1 256 - fill 00",
                 "write - 0 0 - fill 00", "read a 257 1 0", "read a 257 0 0", "end"]),
        ["report 1", "thread 0", "done", "refused outside", "refused empty", "refused misaligned", "refused empty",
         "shard 0 256", *(f"0 0 {unit} plain" for unit in range(256)), "end"]),
    ("outside before the number",
        headed(f"key a aes-256-xts 512 1 {K1}", "thread", "read a 7 2 ff", "read a 6 2 ff", "read a 6 2 fe"),
        ["report 1", "thread 0", "refused outside", "refused dun",
         # of the sectors' zeros under the numbers fe and ff
         None, "shard 0 2", "0 2 0 soft", "0 2 1 soft", "end"]),
    ("no units before alignment, that before the disk's end, and that before the numbers",
        text_of(["blkcrypt 1", "disk 32", "fallback on", H4096, "thread", "write - 1 256 - fill 00", "write - 0 0 - fill 00",
                 "read a 257 1 0", "read a 256 1 0", "read a 257 0 0", "read - 4294967295 1 -", "read a 248 2 ffffffffffffffff",
                 "read a 240 2 ffffffffffffffff", "write - 255 1 - fill 07", "read - 255 1 -", "end"]),
        ["report 1", "thread 0", "refused outside", "refused empty", "refused misaligned", "refused outside", "refused empty",
         "refused outside", "refused outside", "refused dun", "done", "done fill 07", "shard 0 2", "0 8 0 plain", "0 9 0 plain",
         "end"]),
    # the digests are of what Python's `cryptography` deciphers
    ("another key, another number, or none",
        headed(H512, B512, "thread", "write a 0 1 0 fill 11", "read b 0 1 0", "read a 0 1 1", "read - 0 1 -", "read a 0 1 0"),
        ["report 1", "thread 0", "done", "done sha256 7b46aa5f40cd186b3fb152f00727d4d363c8c1aec364a2e441c21e0afd95fdda",
         "done sha256 266dbb0bc655df095779b4d840903e53556280ddfca25da3a97b90590657725d",
         "done sha256 f327fa609fd9b2a4fa018127d24863f156dc91633c59ab41e7b9481372e1607c", "done fill 11", "shard 0 5", "0 0 0 soft",
         "0 1 0 soft", "0 2 0 soft", "0 3 0 plain", "0 4 0 soft", "end"]),
    ("a read before any write, a read under the number before, and the last sector under the highest number",
        text_of(["blkcrypt 1", "disk 2", "fallback on", H512, "thread", "read a 3 1 0", "write a 0 1 5 fill 11",
                 "write a 0 1 6 fill 22", "read a 0 1 6", "read a 0 1 5", "write a 15 1 ffffffffffffffff fill ff",
                 "read a 15 1 ffffffffffffffff", "end"]),
        ["report 1", "thread 0", "done sha256 8bfa8bc34a69dff212fc6553071d0936943ecf0e92411204f02d39366068e397", "done", "done",
         "done fill 22", "done sha256 35efae02502582e76e54976fd34a9ef8e42793a8936af8a93c85255716116aff", "done", "done fill ff",
         "shard 0 7", *(f"0 {op} 0 soft" for op in range(7)), "end"]),
    ("sixteen sections, each of which reads what the one before it wrote",
        text_of(["blkcrypt 1", "disk 2", "fallback on", H512, *(line for thread in range(16) for line in (
            "thread", f"write a {thread} 1 {thread:x} fill {thread:02x}", f"read a {(thread + 15) % 16} 1 {(thread + 15) % 16:x}")),
            "end"]),
        ["report 1", "thread 0", "done", None, *(line for thread in range(1, 16) for line in (
            f"thread {thread}", "done", f"done fill {thread - 1:02x}")), "shard 0 32",
         *(f"{thread} {op} 0 soft" for thread in range(16) for op in range(2)), "end"]),
    ("bios of 256 units and of 255, up to the highest number but one",
        text_of(["blkcrypt 1", "disk 32", "fallback on", H512, "thread", "write a 0 256 fffffffffffffeff fill 5a",
                 "read a 0 256 fffffffffffffeff", "read a 1 255 fffffffffffffeff", "end"]),
        ["report 1", "thread 0", "done", "done fill 5a", None, "shard 0 767",
         *(f"0 {op} {unit} soft" for op, units in enumerate([256, 256, 255]) for unit in range(units)), "end"]),
    ("bytes of each unit", headed(H512.replace(" 512 8 ", " 1024 16 "), "thread", f"write a 0 2 7 hex {ONE_TO_FOUR.hex()}",
                                  "read a 2 1 8", "read a 0 1 7", "read a 0 2 7"),
        ["report 1", "thread 0", "done", *(f"done sha256 {hashlib.sha256(part).hexdigest()}" for part in [
            ONE_TO_FOUR[1024:], ONE_TO_FOUR[:1024], ONE_TO_FOUR]),
         "shard 0 6", "0 0 0 soft", "0 0 1 soft", "0 1 0 soft", "0 2 0 soft", "0 3 0 soft", "0 3 1 soft", "end"]),
    ("what submits no bio", ended("plug", "write a 0 0 0 fill 00", "write a 1 1 0 fill 01", "unplug", "evict a", "read a 1 1 0"),
        ["report 1", "thread 0", "plug", "refused empty", "done", "unplug", "evicted", "done fill 01", "shard 0 2", "0 2 0 soft",
         "0 5 0 soft", "end"]),
    ("an empty plug, and a plug after it", headed("thread", "plug", "unplug", "plug", "write - 0 1 - fill 05", "unplug"),
        ["report 1", "thread 0", "plug", "unplug", "plug", "done", "unplug", "shard 0 1", "0 3 0 plain", "end"]),
    ("an eviction in a plug, which stays open", ended("plug", "write a 0 1 0 fill 11", "evict a", "read a 0 1 0", "unplug"),
        ["report 1", "thread 0", "plug", "done", "evicted", "done fill 11", "unplug", "shard 0 2", "0 1 0 soft", "0 3 0 soft", "end"]),
    ("bios that are refused in a plug",
        headed("thread", "plug", "write - 0 0 - fill 00", "write - 0 1 - fill 05", "read - 0 0 -", "read - 0 1 -", "unplug"),
        ["report 1", "thread 0", "plug", "refused empty", "done", "refused empty", "done fill 05", "unplug", "shard 0 2",
         "0 2 0 plain", "0 4 0 plain", "end"]),
    ("CBC-ESSIV", headed(ESSIV, "thread", "write e 3 1 ff fill 5a", "read e 3 1 ff"),
        ["report 1", "thread 0", "done", "done fill 5a", "shard 0 2", "0 0 0 soft", "0 1 0 soft", "end"]),
    ("every operation, over two sections",
        ended("evict a", "plug", "write a 0 2 5 fill 41", "evict a", "unplug", "thread", "read a 1 1 6", "read - 2 1 -"),
        ["report 1", "thread 0", "evicted", "plug", "done", "evicted", "unplug", "thread 1", "done fill 41", "done fill 00",
         "shard 0 4", "0 2 0 soft", "0 2 1 soft", "1 0 0 soft", "1 1 0 plain", "end"]),
    ("sections without operations", headed("thread", "thread"),
        ["report 1", "thread 0", "thread 1", "shard 0 0", "end"]),
    # An access that fails ends its bio, is an entry all the same, and leaves the disk as it was. A fault on a shard that the
    # run doesn't have, or at a place that it doesn't reach, is without effect.
    ("a fault in a plug", headed(H512, "fault 0 2", *IN_A_PLUG),
        ["report 1", "thread 0", "plug", "done", "fault 0", "done", "unplug", "done fill 00", "done fill 33", "shard 0 6",
         "0 1 0 soft", "0 1 1 soft", "0 2 0 soft", "0 3 0 soft", "0 5 0 plain", "0 6 0 soft", "end"]),
    ("a fault after a plug", headed(H512, "fault 0 5", *IN_A_PLUG),
        ["report 1", "thread 0", "plug", "done", "done", "done", "unplug", "fault 0", "done fill 33", "shard 0 7",
         "0 1 0 soft", "0 1 1 soft", "0 2 0 soft", "0 2 1 soft", "0 3 0 soft", "0 5 0 plain", "0 6 0 soft", "end"]),
    ("a fault on the first unit of a write", headed("fault 0 0", *WRITE_AND_READ),
        ["report 1", "thread 0", "fault 0", "done fill 00", "done fill 00", "done fill 00", "shard 0 4", "0 0 0 plain",
         "0 1 0 plain", "0 2 0 plain", "0 3 0 plain", "end"]),
    ("a fault on the middle unit of a write", headed("fault 0 1", *WRITE_AND_READ),
        ["report 1", "thread 0", "fault 1", "done fill 11", "done fill 00", "done fill 00", "shard 0 5", "0 0 0 plain",
         "0 0 1 plain", "0 1 0 plain", "0 2 0 plain", "0 3 0 plain", "end"]),
    ("a fault on the last unit of a write", headed("fault 0 2", *WRITE_AND_READ),
        ["report 1", "thread 0", "fault 2", "done fill 11", "done fill 11", "done fill 00", "shard 0 6", "0 0 0 plain",
         "0 0 1 plain", "0 0 2 plain", "0 1 0 plain", "0 2 0 plain", "0 3 0 plain", "end"]),
    ("faults on the first, the last and the middle unit of reads", headed(H512, "fault 0 3", "fault 0 6", "fault 0 8", *READS),
        ["report 1", "thread 0", "done", "fault 0", "fault 2", "fault 1", "done fill 5a", "shard 0 12", "0 0 0 soft", "0 0 1 soft",
         "0 0 2 soft", "0 1 0 soft", "0 2 0 soft", "0 2 1 soft", "0 2 2 soft", "0 3 0 soft", "0 3 1 soft", "0 4 0 soft",
         "0 4 1 soft", "0 4 2 soft", "end"]),
    ("a write that fails over another's",
        headed(H512, "fault 0 1", "thread", "write a 0 1 0 fill 11", "write a 0 1 0 fill 22", "read a 0 1 0"),
        ["report 1", "thread 0", "done", "fault 0", "done fill 11", "shard 0 3", "0 0 0 soft", "0 1 0 soft", "0 2 0 soft", "end"]),
    ("a write that is tried three times",
        headed(H512, "fault 0 0", "fault 0 1", "thread", *["write a 0 1 0 fill 11"] * 3, "read a 0 1 0"),
        ["report 1", "thread 0", "fault 0", "fault 0", "done", "done fill 11", "shard 0 4", "0 0 0 soft", "0 1 0 soft",
         "0 2 0 soft", "0 3 0 soft", "end"]),
    ("a fault on a unit that isn't tried any more, which the next bio meets", headed(H512, "fault 0 1", "fault 0 2", *READS),
        ["report 1", "thread 0", "fault 1", "fault 0", None, None, None, "shard 0 12", "0 0 0 soft", "0 0 1 soft",
         "0 1 0 soft", *(f"0 {op} {unit} soft" for op in [2, 3, 4] for unit in range(3)), "end"]),
    ("a fault of a later section",
        headed("fault 0 1", "thread", "write - 0 1 - fill 41", "thread", "write - 0 2 - fill 42", "thread", "read - 0 1 -"),
        ["report 1", "thread 0", "done", "thread 1", "fault 0", "thread 2", "done fill 41", "shard 0 3", "0 0 0 plain",
         "1 0 0 plain", "2 0 0 plain", "end"]),
    ("a refused bio, which takes no place", headed(H512, "fault 0 0", "thread", "read a 8 1 0", "read a 0 0 0", "read a 0 1 0"),
        ["report 1", "thread 0", "refused outside", "refused empty", "fault 0", "shard 0 1", "0 2 0 soft", "end"]),
    ("1024 faults and one access more", headed(*(f"fault 0 {place}" for place in range(1024)), "thread", *["read - 0 8 -"] * 1025),
        ["report 1", "thread 0", *["fault 0"] * 1024, "done fill 00", "shard 0 1032", *(f"0 {op} 0 plain" for op in range(1024)),
         *(f"0 1024 {unit} plain" for unit in range(8)), "end"]),
    ("the last fault that may be planned", headed("fault 63 65535"), ["report 1", "shard 0 0", "end"]),
    ("faults that aren't met",
        headed(H512, "fault 0 2", "fault 0 65535", "fault 1 0", "thread", "write a 0 1 0 fill 00", "read a 0 1 0"),
        ["report 1", "thread 0", "done", "done fill 00", "shard 0 2", "0 0 0 soft", "0 1 0 soft", "end"]),
    ("1024 faults that aren't met", headed(*many_faults(1024), "thread", "read - 0 8 -"),
        ["report 1", "thread 0", "done fill 00", "shard 0 8", *(f"0 0 {unit} plain" for unit in range(8)), "end"]),
    ("as many faults on the last shard", headed(H512, *(f"fault 63 {64512 + place}" for place in range(1024)), "thread", "evict a"),
        ["report 1", "thread 0", "evicted", "shard 0 0", "end"]),
    ("faults that ascend as numbers and not as words", headed("fault 2 9", "fault 2 10", "fault 10 8"),
        ["report 1", "shard 0 0", "end"]),
    ("bytes as they were written", headed("thread", "write - 7 1 - hex " + "5a" * 512, "read - 7 1 -"),
        ["report 1", "thread 0", "done", "done fill 5a", "shard 0 2", "0 0 0 plain", "0 1 0 plain", "end"]),
]

BLOCKS = ["thread", "write a 0 1 0 fill 10", "write a 8 1 1 fill 11", "write a 16 1 2 fill 12", "write a 24 1 3 fill 13"]


def over_blocks(blocks, *lines):
    return text_of(["blkcrypt 1", f"disk {blocks}", "fallback on", H4096, *lines, "end"])


# name, shards, text, the report's lines; block b is on the shard b mod shards, and each shard counts its own accesses
SHARDED = [
    ("four blocks over three shards", 3, over_blocks(4, *BLOCKS),
        ["report 1", "thread 0", *["done"] * 4, "shard 0 2", "0 0 0 soft", "0 3 0 soft", "shard 1 1", "0 1 0 soft", "shard 2 1",
         "0 2 0 soft", "end"]),
    ("a fault on the second access of the first shard", 3, over_blocks(4, "fault 0 1", *BLOCKS, "read - 24 8 -"),
        ["report 1", "thread 0", "done", "done", "done", "fault 0", "done fill 00", "shard 0 10", "0 0 0 soft", "0 3 0 soft",
         *(f"0 4 {unit} plain" for unit in range(8)), "shard 1 1", "0 1 0 soft", "shard 2 1", "0 2 0 soft", "end"]),
    ("faults on two of a bio's shards, of which the next bio meets the second", 3,
        over_blocks(4, "fault 1 0", "fault 2 0", "thread", *["write a 0 4 0 fill 5a"] * 3, "read a 0 4 0"),
        ["report 1", "thread 0", "fault 1", "fault 2", "done", "done fill 5a", "shard 0 6", "0 0 0 soft", "0 1 0 soft",
         "0 2 0 soft", "0 2 3 soft", "0 3 0 soft", "0 3 3 soft", "shard 1 4", "0 0 1 soft", "0 1 1 soft", "0 2 1 soft", "0 3 1 soft",
         "shard 2 3", "0 1 2 soft", "0 2 2 soft", "0 3 2 soft", "end"]),
    ("a fault on a unit of the shard that has begun the bio", 3,
        over_blocks(4, "fault 0 1", "thread", "write a 0 4 0 fill 5a", "read a 0 3 0"),
        ["report 1", "thread 0", "fault 3", "done fill 5a", "shard 0 3", "0 0 0 soft", "0 0 3 soft", "0 1 0 soft", "shard 1 2",
         "0 0 1 soft", "0 1 1 soft", "shard 2 2", "0 0 2 soft", "0 1 2 soft", "end"]),
    ("a bio cut short before a shard that it doesn't come to", 2, text_of([
        "blkcrypt 1", "disk 2", "fallback on", H512, "fault 0 1", "thread", "write a 6 4 0 fill 07", "end"]),
        ["report 1", "thread 0", "fault 1", "shard 0 2", "0 0 0 soft", "0 0 1 soft", "shard 1 0", "end"]),
    ("a bio cut short where its second shard begins", 2, text_of([
        "blkcrypt 1", "disk 2", "fallback on", H512, "fault 1 0", "thread", "write a 6 4 0 fill 07", "end"]),
        ["report 1", "thread 0", "fault 2", "shard 0 2", "0 0 0 soft", "0 0 1 soft", "shard 1 1", "0 0 2 soft", "end"]),
    ("faults on shards that the run doesn't have", 2, over_blocks(4, "fault 2 0", "fault 3 1", "fault 63 0", *BLOCKS),
        ["report 1", "thread 0", *["done"] * 4, "shard 0 2", "0 0 0 soft", "0 2 0 soft", "shard 1 2", "0 1 0 soft", "0 3 0 soft",
         "end"]),
    ("faults at places that the run doesn't reach", 2, over_blocks(4, "fault 0 2", "fault 1 2", "fault 1 65535", *BLOCKS),
        ["report 1", "thread 0", *["done"] * 4, "shard 0 2", "0 0 0 soft", "0 2 0 soft", "shard 1 2", "0 1 0 soft", "0 3 0 soft",
         "end"]),
    ("faults on two of a bio's shards, and reads after them", 2, text_of([
        "blkcrypt 1", "disk 2", "fallback on", "fault 0 1", "fault 1 0", "thread", "write - 7 2 - fill 01", "read - 7 1 -",
        "read - 8 1 -", "end"]),
        ["report 1", "thread 0", "fault 1", "fault 0", "done fill 00", "shard 0 2", "0 0 0 plain", "0 1 0 plain", "shard 1 2",
         "0 0 1 plain", "0 2 0 plain", "end"]),
    *((f"65 blocks over {shards} shards", shards, text_of([
        "blkcrypt 1", "disk 65", "fallback on", "thread", "write - 0 1 - fill 01", "write - 8 1 - fill 02", "write - 23 1 - fill 03",
        "write - 24 1 - fill 04", "write - 512 1 - fill 05", "end"]),
        ["report 1", "thread 0", *["done"] * 5, *lists, "end"]) for shards, lists in [
            (3, ["shard 0 2", "0 0 0 plain", "0 3 0 plain", "shard 1 2", "0 1 0 plain", "0 4 0 plain", "shard 2 1", "0 2 0 plain"]),
            (64, ["shard 0 2", "0 0 0 plain", "0 4 0 plain", "shard 1 1", "0 1 0 plain", "shard 2 1", "0 2 0 plain", "shard 3 1",
                  "0 3 0 plain", *(f"shard {shard} 0" for shard in range(4, 64))])]),
    ("a fault on the last of 64 shards", 64,
        over_blocks(64, "fault 63 0", "thread", "read - 504 8 -", "read - 504 1 -", "read - 496 1 -"),
        ["report 1", "thread 0", "fault 0", "done fill 00", "done fill 00", *(f"shard {shard} 0" for shard in range(62)),
         "shard 62 1", "0 2 0 plain", "shard 63 2", "0 0 0 plain", "0 1 0 plain", "end"]),
    ("a disk of fewer blocks than shards", 64, over_blocks(1, "fault 1 0", "thread", "write a 0 1 0 fill 00", "read a 0 1 0"),
        ["report 1", "thread 0", "done", "done fill 00", "shard 0 2", "0 0 0 soft", "0 1 0 soft",
         *(f"shard {shard} 0" for shard in range(1, 64)), "end"]),
]


# ---- devices

C512 = f"key c aes-256-xts 512 8 {bytes(range(128, 192)).hex()}"
ONE = "device 0 1 1 1 0 8"
TWO = ["device 0 1 1 1 0 8", "device 1 1 1 1 0 8"]
EIGHT = [f"device {place} 1 1 1 0 8" for place in range(8)]


def with_devices(blocks, fallback, *lines):
    return text_of(["blkcrypt 1", f"disk {blocks}", f"fallback {fallback}", *lines, "end"])


def one_device(slots, keys, *operations):
    """A disk of one block and a device of so many slots, without the fallback; and one section."""
    return with_devices(1, "off", f"device 0 1 {slots} 1 0 8", *keys, "thread", *operations)


def writes(*keys):
    return [f"write {key} 0 1 0 fill 00" for key in keys]


# name, text, line and kind
DEVICES_REFUSED = [
    ("a device with one field", headed("device x"), 4, "word"),
    ("a device without fields", headed("device"), 4, "word"),
    ("a device that begins at block 16384", with_devices(1, "on", "device 16384 1 1 1 0 8"), 4, "number"),
    ("a device of no blocks", with_devices(1, "on", "device 0 0 1 1 0 8"), 4, "number"),
    ("a device of 16385 blocks", with_devices(1, "on", "device 0 16385 1 1 0 8"), 4, "number"),
    ("a device without slots", with_devices(1, "on", "device 0 1 0 1 0 8"), 4, "number"),
    ("a device of 33 slots", with_devices(1, "on", "device 0 1 33 1 0 8"), 4, "number"),
    ("a mask of XTS that is 16", with_devices(1, "on", "device 0 1 1 16 0 8"), 4, "number"),
    ("a mask of CBC-ESSIV that is 16", with_devices(1, "on", "device 0 1 1 0 16 8"), 4, "number"),
    ("a device of no number bytes", with_devices(1, "on", "device 0 1 1 1 0 0"), 4, "number"),
    ("a device of 9 number bytes", with_devices(1, "on", "device 0 1 1 1 0 9"), 4, "number"),
    ("a device with a leading zero", with_devices(1, "on", "device 00 1 1 1 0 8"), 4, "number"),
    ("a device with an empty field", with_devices(1, "on", "device 0 1  1 0 8"), 4, "number"),
    ("a device with a mask in hexadecimal digits", with_devices(1, "on", "device 0 1 1 f 0 8"), 4, "number"),
    ("a device with a field too few", with_devices(1, "on", "device 0 1 1 1 0"), 4, "word"),
    ("a device with a field too many", with_devices(1, "on", "device 0 1 1 1 0 8 0"), 4, "word"),
    ("a device with no fields", with_devices(1, "on", "device"), 4, "word"),
    ("a device in capitals", with_devices(1, "on", "Device 0 1 1 1 0 8"), 4, "word"),
    ("a first device that doesn't begin at block 0", with_devices(2, "on", "device 1 1 1 1 0 8"), 4, "device"),
    ("a second device that begins where the first does", with_devices(2, "on", ONE, ONE), 5, "device"),
    ("a second device after a gap", with_devices(3, "on", ONE, "device 2 1 1 1 0 8"), 5, "device"),
    ("a wrong beginning and a number out of range", with_devices(2, "on", "device 1 1 1 1 0 9"), 4, "number"),
    ("devices that end before the disk, at a key", with_devices(2, "on", ONE, H512), 5, "device"),
    ("devices that end before the disk, at a fault", with_devices(2, "on", ONE, "fault 0 0"), 5, "device"),
    ("devices that end before the disk, at a section", with_devices(2, "on", ONE, "thread"), 5, "device"),
    ("devices that end before the disk, at the end", with_devices(2, "on", ONE), 5, "device"),
    ("devices that end beyond the disk", with_devices(1, "on", "device 0 2 1 1 0 8", H512), 5, "device"),
    ("two devices that end beyond the disk", with_devices(1, "off", *TWO, H512), 6, "device"),
    ("a sum that is wrong, and no further line", text_of(["blkcrypt 1", "disk 2", "fallback on", ONE]), 5, "end"),
    ("a sum that is wrong, and a line without a line feed", text_of(["blkcrypt 1", "disk 2", "fallback on", ONE]) + b"end", 5, "end"),
    ("a sum that is wrong, and another word", with_devices(2, "on", ONE, "keys"), 5, "word"),
    ("a sum that is wrong, and a wrong name", with_devices(2, "on", ONE, H512.replace(" a ", " A ")), 5, "name"),
    ("a sum that is wrong, and a wrong number", with_devices(2, "on", ONE, H512.replace(" 8 ", " x ")), 5, "number"),
    ("a sum that is wrong, and half a byte", with_devices(2, "on", ONE, H512[:-1]), 5, "hex"),
    ("a sum that is wrong, and a key of 63 bytes", with_devices(2, "on", ONE, H512[:-2]), 5, "key"),
    ("a sum that is wrong, and a fault on shard 64", with_devices(2, "on", ONE, "fault 64 0"), 5, "number"),
    ("a sum that is wrong, and an operation", with_devices(2, "on", ONE, "plug"), 5, "word"),
    ("device 9", with_devices(9, "on", *EIGHT, "device 8 1 1 1 0 8"), 12, "limit"),
    ("device 9 at a wrong place", with_devices(9, "on", *EIGHT, "device 9 1 1 1 0 8"), 12, "device"),
    ("device 9 with a number out of range", with_devices(9, "on", *EIGHT, "device 9 1 1 1 0 9"), 12, "number"),
    ("device 9 after devices that have the disk", with_devices(8, "on", *EIGHT, "device 8 1 1 1 0 8"), 12, "limit"),
    ("a device after a key of devices", with_devices(2, "on", TWO[0], TWO[1], H512, "device 2 1 1 1 0 8"), 7, "word"),
    ("a device in a section of devices", with_devices(1, "on", ONE, "thread", ONE), 6, "word"),
    ("fallback off after a device", with_devices(1, "on", ONE, "fallback off"), 5, "word"),
    ("a reset of the device that the last one would be followed by", one_device(1, [H512], "reset 0", "reset 1"), 8, "number"),
    ("a reset of device 8", with_devices(8, "on", *EIGHT, "thread", "reset 7", "reset 8"), 14, "number"),
    ("a reset with a leading zero", one_device(1, [H512], "reset 00"), 7, "number"),
    ("a reset without fallback and without a device", with_devices(1, "off", "thread", "reset 0"), 5, "number"),
    ("a reset of two devices", one_device(1, [H512], "reset 0 0"), 7, "word"),
    ("a reset that is one operation too many", one_device(1, [H512], *["reset 0"] * 65537), 65543, "limit"),
]

CUT_TWICE = ["device 0 1 2 1 0 8", "device 1 1 1 1 0 8", "device 2 2 3 1 0 8"]


def plugged(count):
    """So many bios in a plug, each of which runs on from the one before it."""
    return ["plug", *(f"write a {place} 1 {place:x} fill 01" for place in range(count)), "unplug"]


# name, shards, text, the report's lines; None stands for any digest
DEVICES_REPORTED = [
    ("reprogramming", 1, one_device(2, [H512, B512, C512], *writes("a", "b", "c", "a")),
        ["report 1", "thread 0", *["done"] * 4, "shard 0 4", "0 0 0 inline 0 0 0", "0 1 0 inline 0 1 2", "0 2 0 inline 0 0 4",
         "0 3 0 inline 0 1 6", "device 0 8", "program 0 0", "idle 0", "program 1 1", "idle 1", "program 0 2", "idle 0",
         "program 1 0", "idle 1", "end"]),
    ("the least recently idle slot", 1, one_device(2, [H512, B512, C512], *writes("a", "b", "a", "c")),
        ["report 1", "thread 0", *["done"] * 4, "shard 0 4", "0 0 0 inline 0 0 0", "0 1 0 inline 0 1 2", "0 2 0 inline 0 0 0",
         "0 3 0 inline 0 1 5", "device 0 7", "program 0 0", "idle 0", "program 1 1", "idle 1", "idle 0", "program 1 2", "idle 1",
         "end"]),
    ("a plug that merges", 1,
        one_device(1, [H512], "plug", "write a 0 1 7 fill 01", "write a 1 1 8 fill 02", "unplug"),
        ["report 1", "thread 0", "plug", "done", "done", "unplug", "shard 0 2", "0 1 0 inline 0 0 0", "0 2 0 inline 0 0 0",
         "device 0 2", "program 0 0", "idle 0", "end"]),
    ("a plug whose numbers don't run on", 1,
        one_device(1, [H512], "plug", "write a 0 1 7 fill 01", "write a 1 1 9 fill 02", "unplug"),
        ["report 1", "thread 0", "plug", "done", "done", "unplug", "shard 0 2", "0 1 0 inline 0 0 0", "0 2 0 inline 0 0 0",
         "device 0 3", "program 0 0", "idle 0", "idle 0", "end"]),
    ("two devices", 2, with_devices(2, "on", *TWO, H512, "thread", "write a 6 4 0 fill 07"),
        ["report 1", "thread 0", "done", "shard 0 2", "0 0 0 inline 0 0 0", "0 0 1 inline 0 0 0", "shard 1 2",
         "0 0 2 inline 1 0 0", "0 0 3 inline 1 0 0", "device 0 2", "program 0 0", "idle 0", "device 1 2", "program 0 0", "idle 0",
         "end"]),
    ("two devices, of which the second goes on with the number of its first unit", 1,
        with_devices(2, "on", *TWO, H512, "thread", "write a 6 4 0 fill 07", "read a 8 1 2", "read a 8 1 0"),
        ["report 1", "thread 0", "done", "done fill 07", None, "shard 0 6", "0 0 0 inline 0 0 0", "0 0 1 inline 0 0 0",
         "0 0 2 inline 1 0 0", "0 0 3 inline 1 0 0", "0 1 0 inline 1 0 0", "0 2 0 inline 1 0 0", "device 0 2", "program 0 0",
         "idle 0", "device 1 4", "program 0 0", "idle 0", "idle 0", "idle 0", "end"]),
    ("a key that one of two devices doesn't know", 2, with_devices(
        2, "on", "device 0 1 1 9 0 8", "device 1 1 1 8 0 8", H512, "thread", "write a 6 4 0 fill 07"),
        ["report 1", "thread 0", "done", "shard 0 2", "0 0 0 soft", "0 0 1 soft", "shard 1 2", "0 0 2 soft", "0 0 3 soft",
         "device 0 0", "device 1 0", "end"]),
    ("a key that one of two devices doesn't know, without the fallback", 2, with_devices(
        2, "off", "device 0 1 1 9 0 8", "device 1 1 1 8 0 8", H512, "thread", "write a 6 4 0 fill 07"),
        ["report 1", "thread 0", "refused unsupported", "shard 0 0", "shard 1 0", "device 0 0", "device 1 0", "end"]),
    ("evictions", 1, one_device(1, [H512, B512], *writes("a"), "evict a", "evict b"),
        ["report 1", "thread 0", "done", "evicted", "evicted", "shard 0 1", "0 0 0 inline 0 0 0", "device 0 3", "program 0 0",
         "idle 0", "evict 0 0", "end"]),
    ("a reset", 1, one_device(1, [H512], *writes("a"), "reset 0", "read a 0 1 0"),
        ["report 1", "thread 0", "done", "reset", "done fill 00", "shard 0 2", "0 0 0 inline 0 0 0", "0 2 0 inline 0 0 0",
         "device 0 4", "program 0 0", "idle 0", "reset", "idle 0", "end"]),
    ("a realistic script", 1, with_devices(
        1024, "on", "device 0 1024 32 8 0 8", H4096, "thread", "write a 40 1 c00000005 fill 41", "read a 40 1 c00000005"),
        ["report 1", "thread 0", "done", "done fill 41", "shard 0 2", "0 0 0 inline 0 0 0", "0 1 0 inline 0 0 0", "device 0 3",
         "program 0 0", "idle 0", "idle 0", "end"]),
    # beside these
    ("fallback off and no device", 1, with_devices(1, "off", H512, "thread", "write a 0 1 0 fill 00", "write - 0 1 - fill 00",
                                                   "read a 8 1 0", "evict a"),
        ["report 1", "thread 0", "refused unsupported", "done", "refused outside", "evicted", "shard 0 1", "0 1 0 plain", "end"]),
    ("a device of 32 slots and nothing else", 1, with_devices(1, "off", "device 0 1 32 1 0 8"),
        ["report 1", "shard 0 0", "device 0 0", "end"]),
    ("fallback off and nothing else", 1, with_devices(1, "off"), ["report 1", "shard 0 0", "end"]),
    ("devices and nothing else", 1, with_devices(2, "off", *TWO), ["report 1", "shard 0 0", "device 0 0", "device 1 0", "end"]),
    ("a bio that is refused for another cause before it is unsupported", 1,
        with_devices(1, "off", ONE, H4096, "thread", "read a 0 0 0", "read a 1 1 0", "read a 8 1 0", "read a 0 1 ffffffffffffffff",
                     "read a 0 1 10000000000000000"),
        ["report 1", "thread 0", "refused empty", "refused misaligned", "refused outside", "refused unsupported", "refused dun",
         "shard 0 0", "device 0 0", "end"]),
    ("number bytes that are more than the device has", 1,
        with_devices(1, "on", "device 0 1 1 1 0 7", H512, "thread", "write a 0 1 0 fill 00", "evict a"),
        ["report 1", "thread 0", "done", "evicted", "shard 0 1", "0 0 0 soft", "device 0 0", "end"]),
    ("CBC-ESSIV beside XTS", 1,
        with_devices(1, "on", "device 0 1 1 0 1 8", H512, ESSIV.replace(" 16 ", " 8 "), "thread", "write e 3 1 ff fill 5a",
                     "read e 3 1 ff", "write a 0 1 0 fill 01"),
        ["report 1", "thread 0", "done", "done fill 5a", "done", "shard 0 3", "0 0 0 inline 0 0 0", "0 1 0 inline 0 0 0",
         "0 2 0 soft", "device 0 3", "program 0 1", "idle 0", "idle 0", "end"]),
    ("an empty plug", 1, one_device(1, [H512], "plug", "unplug", "plug", "evict a", "reset 0", "unplug"),
        ["report 1", "thread 0", "plug", "unplug", "plug", "evicted", "reset", "unplug", "shard 0 0", "device 0 1", "reset", "end"]),
    ("64 bios in a plug", 1, with_devices(8, "off", "device 0 8 1 1 0 8", H512, "thread", *plugged(64)),
        ["report 1", "thread 0", "plug", *["done"] * 64, "unplug", "shard 0 64",
         *(f"0 {op} 0 inline 0 0 0" for op in range(1, 65)), "device 0 2", "program 0 0", "idle 0", "end"]),
    ("65 bios in a plug", 1, with_devices(9, "off", "device 0 9 1 1 0 8", H512, "thread", *plugged(65)),
        ["report 1", "thread 0", "plug", *["done"] * 65, "unplug", "shard 0 65",
         *(f"0 {op} 0 inline 0 0 0" for op in range(1, 66)), "device 0 3", "program 0 0", "idle 0", "idle 0", "end"]),
    ("64 bios in a plug and refused ones among them, which take no room", 1,
        with_devices(8, "off", "device 0 8 1 1 0 8", H512, B512.replace(" 512 ", " 4096 "), "thread", "plug", "read a 0 0 0",
                     *plugged(64)[1:33], "read b 0 1 0", *plugged(64)[33:]),
        ["report 1", "thread 0", "plug", "refused empty", *["done"] * 32, "refused unsupported", *["done"] * 32, "unplug",
         "shard 0 64", *(f"0 {op} 0 inline 0 0 0" for op in [*range(2, 34), *range(35, 67)]), "device 0 2", "program 0 0",
         "idle 0", "end"]),
    ("an eviction and a reset in a plug, each of which submits", 1,
        one_device(1, [H512], "plug", "write a 0 1 0 fill 01", "evict a", "write a 1 1 1 fill 02", "reset 0", "write a 2 1 2 fill 03",
                   "write a 3 1 3 fill 04", "unplug"),
        ["report 1", "thread 0", "plug", "done", "evicted", "done", "reset", "done", "done", "unplug", "shard 0 4",
         "0 1 0 inline 0 0 0", "0 3 0 inline 0 0 3", "0 5 0 inline 0 0 3", "0 6 0 inline 0 0 3", "device 0 7", "program 0 0",
         "idle 0", "evict 0 0", "program 0 0", "idle 0", "reset", "idle 0", "end"]),
    ("an eviction of a key that isn't inline, in a plug", 1,
        one_device(1, [H512, B512.replace(" 512 ", " 4096 ")], "plug", "write a 0 1 0 fill 01", "evict b", "write a 1 1 1 fill 02",
                   "unplug"),
        ["report 1", "thread 0", "plug", "done", "evicted", "done", "unplug", "shard 0 2", "0 1 0 inline 0 0 0",
         "0 3 0 inline 0 0 0", "device 0 3", "program 0 0", "idle 0", "idle 0", "end"]),
    ("neighbours that aren't merged: other access, other key, a key of the same bytes, a plain bio between", 1,
        one_device(4, [H512, H512.replace(" a ", " b ")], "plug", "write a 0 1 0 fill 01", "read a 1 1 1", "write a 1 1 1 fill 02",
                   "write b 2 1 2 fill 03", "write - 3 1 - fill 04", "write b 3 1 3 fill 05", "write b 5 1 4 fill 06", "unplug"),
        ["report 1", "thread 0", "plug", "done", None, "done", "done", "done", "done", "done", "unplug", "shard 0 7",
         "0 1 0 inline 0 0 0", "0 2 0 inline 0 0 0", "0 3 0 inline 0 0 0", "0 4 0 inline 0 1 4", "0 5 0 plain",
         "0 6 0 inline 0 1 4", "0 7 0 inline 0 1 4", "device 0 8", "program 0 0", "idle 0", "idle 0", "idle 0", "program 1 1",
         "idle 1", "idle 1", "idle 1", "end"]),
    ("a bio that is cut twice", 2,
        with_devices(4, "off", *CUT_TWICE, H512, "thread", "write a 7 11 0 fill 05", "read a 7 11 0"),
        ["report 1", "thread 0", "done", "done fill 05", "shard 0 6", "0 0 0 inline 0 0 0", "0 0 9 inline 2 0 0",
         "0 0 10 inline 2 0 0", "0 1 0 inline 0 0 0", "0 1 9 inline 2 0 0", "0 1 10 inline 2 0 0", "shard 1 16",
         *(f"0 {op} {unit} inline 1 0 0" for op in range(2) for unit in range(1, 9)),
         *(line for device in range(3) for line in (f"device {device} 3", "program 0 0", "idle 0", "idle 0")), "end"]),
    ("a request that is cut within its second bio and goes on past the border", 1,
        with_devices(2, "off", *TWO, H512, "thread", "plug", "write a 4 2 4 fill 05", "write a 6 4 6 fill 06", "write a 10 1 a fill 07",
                     "unplug", "read a 4 7 4"),
        ["report 1", "thread 0", "plug", "done", "done", "done", "unplug", None, "shard 0 14",
         "0 1 0 inline 0 0 0", "0 1 1 inline 0 0 0", "0 2 0 inline 0 0 0", "0 2 1 inline 0 0 0", "0 2 2 inline 1 0 0",
         "0 2 3 inline 1 0 0", "0 3 0 inline 1 0 0", *(f"0 5 {unit} inline {unit // 4} 0 0" for unit in range(7)),
         "device 0 3", "program 0 0", "idle 0", "idle 0", "device 1 3", "program 0 0", "idle 0", "idle 0", "end"]),
    ("a piece whose units are all passed over after a fault, and holds its slot", 1,
        with_devices(2, "off", *TWO, H512, "fault 0 0", "thread", "write a 6 4 0 fill 07"),
        ["report 1", "thread 0", "fault 0", "shard 0 1", "0 0 0 inline 0 0 0", "device 0 2", "program 0 0", "idle 0", "device 1 2",
         "program 0 0", "idle 0", "end"]),
    ("a fault within a merged request, which ends its own bio alone", 1,
        one_device(1, [H512], "plug", "write a 0 2 0 fill 11", "write a 2 2 2 fill 22", "write a 4 1 4 fill 33", "unplug", "read - 2 1 -",
                   "read a 4 1 4").replace(b"thread\n", b"fault 0 2\nthread\n"),
        ["report 1", "thread 0", "plug", "done", "fault 0", "done", "unplug", "done fill 00", "done fill 33", "shard 0 6",
         "0 1 0 inline 0 0 0", "0 1 1 inline 0 0 0", "0 2 0 inline 0 0 0", "0 3 0 inline 0 0 0", "0 5 0 plain",
         "0 6 0 inline 0 0 0", "device 0 3", "program 0 0", "idle 0", "idle 0", "end"]),
    ("a slot that an eviction leaves at its place of the idle order", 1,
        one_device(2, [H512, B512, C512], *writes("a", "b"), "evict b", *writes("c", "b")),
        ["report 1", "thread 0", "done", "done", "evicted", "done", "done", "shard 0 4", "0 0 0 inline 0 0 0", "0 1 0 inline 0 1 2",
         "0 3 0 inline 0 0 5", "0 4 0 inline 0 1 7", "device 0 9", "program 0 0", "idle 0", "program 1 1", "idle 1", "evict 1 1",
         "program 0 2", "idle 0", "program 1 1", "idle 1", "end"]),
    ("an eviction from the second device alone", 1,
        with_devices(2, "off", *TWO, H512, "thread", "write a 8 1 0 fill 01", "evict a", "evict a", "reset 1", "reset 0"),
        ["report 1", "thread 0", "done", "evicted", "evicted", "reset", "reset", "shard 0 1", "0 0 0 inline 1 0 0", "device 0 1",
         "reset", "device 1 4", "program 0 0", "idle 0", "evict 0 0", "reset", "end"]),
    ("a reset of a device without a programmed slot", 1, one_device(2, [H512], "reset 0", *writes("a")),
        ["report 1", "thread 0", "reset", "done", "shard 0 1", "0 1 0 inline 0 0 1", "device 0 3", "reset", "program 0 0", "idle 0",
         "end"]),
    # of the section under small0 the eleventh data unit, at the place 10, meets the fault; without the fallback none is tried
    *((f"a line of each form, fallback {fallback}", 1, with_devices(
        36, fallback, "device 0 35 31 11 1 1", "device 35 1 32 12 2 2", H512,
        f"key small0 aes-128-cbc-essiv 4096 16 {E1}", "fault 0 10", "fault 63 65535", "thread",
        "write - 4294967295 1 - fill 00", "read small0 8 32 ff", "evict a", "thread", "plug", "write a 299 1 13 fill 5a", "reset 1",
        "unplug"),
        ["report 1", "thread 0", "refused outside", answer, "evicted", "thread 1", "plug", "refused outside", "reset", "unplug",
         f"shard 0 {units}", *(f"0 1 {unit} soft" for unit in range(units)), "device 0 0", "device 1 1", "reset", "end"])
      for fallback, answer, units in [("off", "refused unsupported", 0), ("on", "fault 10", 11)]),
    ("sections one after the other over the same slots", 1,
        one_device(1, [H512, B512], *writes("a"), "thread", *writes("a", "b"), "thread", *writes("a")),
        ["report 1", "thread 0", "done", "thread 1", "done", "done", "thread 2", "done", "shard 0 4", "0 0 0 inline 0 0 0",
         "1 0 0 inline 0 0 0", "1 1 0 inline 0 0 3", "2 0 0 inline 0 0 5", "device 0 7", "program 0 0", "idle 0", "idle 0",
         "program 0 1", "idle 0", "program 0 0", "idle 0", "end"]),
    ("soft and inline side by side, of which an eviction of the soft key changes nothing", 1,
        with_devices(1, "on", ONE, H512, B512.replace(" 512 ", " 4096 "), "thread", *writes("a"), *writes("b"), "evict b", *writes("a")),
        ["report 1", "thread 0", "done", "done", "evicted", "done", "shard 0 3", "0 0 0 inline 0 0 0", "0 1 0 soft",
         "0 3 0 inline 0 0 0", "device 0 3", "program 0 0", "idle 0", "idle 0", "end"]),
]


def documented():
    """The examples of errors of docs/SCRIPT.md: the script there with another line in place of one of its lines."""
    document = (pathlib.Path(__file__).parent.parent / "docs" / "SCRIPT.md").read_text()
    rows = re.findall(r"^\| `([^`]*)` as line (\d) \| `blkcrypt: script line (\d): ([a-z ]+)` \|", document, re.MULTILINE)
    for written, place, line, kind in rows:
        lines = [*HEAD, H4096, "thread", "write a 0 1 0 fill 00", "end"]
        lines[int(place) - 1] = re.sub(r" K$", f" {K1}", written)
        yield f"{written!r} of the document", text_of(lines), int(line), kind


REFUSED += documented()


def agrees(wanted, found):
    """Whether a report has these lines; None stands for any digest."""
    lines = found.decode().split("\n")
    return len(lines) == len(wanted) + 1 and not lines[-1] and all(
        one.startswith("done sha256 ") if other is None else one == other for one, other in zip(lines, wanted))


def wrong(modelled):
    """The names of the cases that a model answers otherwise, and what it answers."""
    if len({kind for *_, kind in documented()}) != 9:
        yield "the examples of errors of docs/SCRIPT.md, of which there is one at least of each kind", ()
    for name, text, line, kind in REFUSED:
        if modelled(text) != (2, b"", f"blkcrypt: script line {line}: {kind}\n".encode()):
            yield name, modelled(text)
    for name, text, line, kind in DEVICES_REFUSED:
        if modelled(text) != (2, b"", f"blkcrypt: script line {line}: {kind}\n".encode()):
            yield name, modelled(text)
    cases = [*((name, 1, text, lines) for name, text, lines in REPORTED), *SHARDED, *DEVICES_REPORTED]
    for name, shards, text, lines in cases:
        status, output, error = modelled(text, shards)
        if status or error or not agrees(lines, output):
            yield name, (status, output, error)


def texts():
    """The text of each case without devices. What is worked out for a run over several shards is another report over one."""
    yield from ((name, text) for name, text, *_ in REFUSED)
    yield from ((name, text) for name, text, _ in REPORTED)
    yield from ((name, text) for name, _, text, _ in SHARDED)


def device_texts():
    """The text of each case with devices."""
    yield from ((name, text) for name, text, *_ in DEVICES_REFUSED)
    yield from ((name, text) for name, _, text, _ in DEVICES_REPORTED)

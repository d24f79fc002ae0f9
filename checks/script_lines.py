"""Runs the program on texts of scripts, line by line of the language: script_lines.py PROGRAM

Each text has the line and kind that docs/SCRIPT.md gives it, or is accepted there; nothing here was printed by the program.
A text that is refused ends the run with status 2 and one line on standard error, and no report. One that is accepted has a
report with a line for each of its sections and devices.
"""
import subprocess
import sys

HEAD = "blkcrypt 1\ndisk 1\nfallback on\n"
THREE_BLOCKS = "blkcrypt 1\ndisk 3\nfallback on\n"
K = bytes(range(64)).hex()
KEY = f"key a aes-256-xts 512 8 {K}\n"
SECTION = f"{HEAD}{KEY}thread\n"
SMALL = f"key small0 aes-128-cbc-essiv 4096 16 {bytes(range(128, 144)).hex()}\n"
# a section under a key of data units of 4096 bytes
ESSIV_SECTION = f"{HEAD}key a aes-128-cbc-essiv 4096 8 {bytes(range(128, 144)).hex()}\nthread\n"
# a device with all that a device may have
WHOLE_DEVICE = "blkcrypt 1\ndisk 16384\nfallback off\ndevice 0 16384 32 15 0 8\n"
TWO_DEVICES = f"{THREE_BLOCKS}device 0 2 1 1 0 8\ndevice 2 1 1 1 0 8\n"
# Eight devices on a disk of 36 blocks, no two of them alike.
EIGHT_DEVICES = """blkcrypt 1
disk 36
fallback off
device 0 1 31 11 1 1
device 1 2 32 12 2 2
device 3 3 3 3 1 3
device 6 4 4 4 1 4
device 10 5 5 5 1 5
device 15 6 6 6 1 6
device 21 7 7 7 1 7
device 28 8 8 8 1 8
"""
FAULTS = HEAD + "".join(f"fault {shard} {access}\n" for shard in range(16) for access in range(64))
MANY_KEYS = "".join(f"key k{number} aes-256-xts 512 8 {K}\n" for number in range(20))
MANY_WRITES = "".join(f"write k{number % 20} {number} 1 {number % 20} fill 5a\n" for number in range(300))

# the line and the kind, what all texts begin with, and what follows in each
REFUSED = [
    # the first lines
    (1, "end", "", ["", "blkcrypt 1"]),
    (1, "word", "", ["\n", "blkcrypt 2\n", "blkcrypt 01\n", "blkcrypt 1\r\n", "disk 1\n", "fallback off\n"]),
    (2, "end", "blkcrypt 1\n", [""]),
    (2, "word", "blkcrypt 1\n", ["blkcrypt 1\n", "fallback on\n", "end\n"]),
    (3, "word", "blkcrypt 1\ndisk 1\n", [
        "disk 1\n", "fallback off x\n", "fallback yes\n", "fallback\n", "fallback \n", "fallback on off\n",
        "device 0 1 1 1 0 8\n", "end\n"]),
    (3, "end", "blkcrypt 1\ndisk 1\n", ["fallback on", "fallback off"]),
    (4, "end", "blkcrypt 1\ndisk 1\nfallback off\n", [""]),
    # the size of the disk
    (2, "number", "blkcrypt 1\n", [
        "disk 0\n", "disk 16385\n", "disk 01\n", "disk +1\n", "disk \n", "disk 4294967297\n",
        "disk 340282366920938463463374607431768211457\n", "disk 1\r\n", "disk 1\0\n"]),
    (3, "end", "blkcrypt 1\n", ["disk 16384\n"]),
    (2, "word", "blkcrypt 1\n", ["disk\n", "disk 1 \n", " disk 1\n", "disk  1\n", "disk\t1\n", "Disk 1\n"]),
    # the end
    (4, "end", HEAD, ["", "end"]),
    (4, "word", HEAD, ["end \n", "\nend\n", "fallback on\n", "evict a\n", "plug\n"]),
    (5, "end", HEAD, ["end\n\n", "end\n\0", "end\n ", "end\nend\n", "end\nfallback off\n", "end\nfault 0 1\n"]),
    (5, "word", HEAD, ["thread\nkey\n", "thread\ndisk 1\n"]),
    # the fields of devices
    (4, "word", HEAD, [
        "device\n", "device 0 1 1 1 0\n", "device 0 1 1 1 0 8 \n", "device 0 1 1 1 0 8 0\n", "devices 0 1 1 1 0 8\n",
        "mmc 0 1 1 1 0 4\n", "fallback off\n"]),
    (4, "number", HEAD, [
        "device 16384 1 1 1 0 8\n", "device 00 1 1 1 0 8\n", "device  1 1 1 0 8\n", "device 0 0 1 1 0 8\n",
        "device 0 16385 1 1 0 8\n", "device 0 x 1 1 0 8\n", "device 0 1 0 1 0 8\n", "device 0 1 33 1 0 8\n",
        "device 0 1 1 16 0 8\n", "device 0 1 1 01 0 8\n", "device 0 1 1 1 16 8\n", "device 0 1 1 1 256 8\n",
        "device 0 1 1 1 0 0\n", "device 0 1 1 1 0 9\n", "device 0 1 1 1 0 4294967304\n"]),
    # a device begins at the end of the one before it; its fields are looked at before
    (4, "device", HEAD, ["device 1 1 1 1 0 8\n", "device 16383 1 1 1 0 8\n"]),
    (4, "number", HEAD, ["device 1 1 1 16 0 8\n", "device 1 1 1 1 0 9\n"]),
    (5, "device", THREE_BLOCKS, [
        "device 0 2 1 1 0 8\ndevice 1 1 1 1 0 8\n", "device 0 2 1 1 0 8\ndevice 3 1 1 1 0 8\n",
        "device 0 2 1 1 0 8\ndevice 0 1 1 1 0 8\n", "device 0 3 1 1 0 8\ndevice 0 3 1 1 0 8\n"]),
    (5, "device", HEAD, ["device 0 2 1 1 0 8\nend\n"]),
    (5, "number", WHOLE_DEVICE, ["device 4294967295 7 65535 0 255 16\n"]),
    # devices of fewer blocks than the disk, or of more, are found at the first line after them, after its other tests
    *(of_line for blocks in [2, 4, 16384] for device in [f"{THREE_BLOCKS}device 0 {blocks} 1 1 0 8\n"] for of_line in [
        (5, "device", device, ["end\n", "thread\nplug\nend\n", "fault 0 0\n", KEY, KEY + KEY]),
        (5, "end", device, ["", "end", "thread"]),
        (5, "word", device, ["plug\n", "end 0\n", "fault 0\n", "fallback on\n", KEY.replace("xts", "xtr")]),
        (5, "number", device, ["fault 64 0\n", KEY.replace("512", "0512")]),
        (5, "name", device, [KEY.replace("key a", "key A")]),
        (5, "hex", device, [KEY.replace("\n", "0\n")]),
        (5, "key", device, [KEY.replace("aes-256-xts", "aes-128-cbc-essiv")])]),
    (6, "name", THREE_BLOCKS, ["device 0 3 1 1 0 8\n" + KEY + KEY]),
    # devices stand before all other lines
    (6, "word", HEAD + "device 0 1 1 1 0 8\n", [
        "thread\ndevice 1 1 1 1 0 8\n", "fault 0 1\ndevice 1 1 1 1 0 8\n", KEY + "device 1 1 1 1 0 8\n"]),
    (5, "word", HEAD, ["thread\ndevice x\n", "fault 0 1\ndevice 0 1 1 1 0 8\n"]),
    # a ninth device is one too many, but its fields and its first block are looked at before
    (12, "limit", EIGHT_DEVICES, ["device 36 1 1 1 0 8\n", "device 36 16384 1 1 0 8\n"]),
    (12, "device", EIGHT_DEVICES, ["device 35 1 1 1 0 8\n", "device 0 1 1 1 0 8\n"]),
    (12, "number", EIGHT_DEVICES, ["device 36 0 1 1 0 8\n"]),
    # a reset names a device
    (7, "number", TWO_DEVICES + "thread\n", [
        "reset 2\n", "reset 01\n", "reset \n", "reset -\n", "reset 256\n", "reset 4294967296\n"]),
    (7, "word", TWO_DEVICES + "thread\n", ["reset\n", "reset 0 1\n"]),
    # faults
    (4, "number", HEAD, [
        "fault 64 0\n", "fault 0 65536\n", "fault 65536 0\n", "fault 0 4294967296\n", "fault 00 0\n", "fault 0 \n",
        "fault  0\n"]),
    (4, "word", HEAD, ["fault\n", "fault 0\n", "fault 0 0 0\n", "faults 0 0\n"]),
    (5, "order", HEAD, ["fault 0 0\nfault 0 0\n", "fault 0 10\nfault 0 9\n", "fault 1 0\nfault 0 65535\n"]),
    (5, "word", HEAD, ["thread\nfault 0 0\n", "fault 0 0\nplug\n", "fault 0 0\n" + KEY]),
    # 1024 faults, and one more
    (1028, "limit", FAULTS, ["fault 16 0\n"]),
    (1028, "order", FAULTS, ["fault 15 63\n"]),
    (6, "number", WHOLE_DEVICE, ["fault 3 17\nfault 65535 4294967295\n"]),
    # keys
    (4, "key", HEAD, ["key a aes-256-xts 512 8 0011\n"]),
    # operations
    (6, "name", ESSIV_SECTION, ["write b x x x fill x\n", "evict -\n"]),
    (6, "hex", ESSIV_SECTION, ["write a 0 33 0 hex 00\n"]),
    (6, "limit", ESSIV_SECTION, ["write a 0 33 0 fill 00\n"]),
    (8, "hex", WHOLE_DEVICE + KEY + SMALL + "thread\n", ["write small0 4294967295 256 10000000000000000 hex 0001abff\n"]),
    (8, "number", WHOLE_DEVICE + KEY + SMALL + "thread\n", ["reset 255\n"]),
    (6, "hex", SECTION, [
        "write a 0 1 0 fill 0\n", "write a 0 1 0 fill \n", "write a 0 1 0 fill 0000\n", "write a 0 1 0 fill 0A\n",
        "write a 0 0 0 hex \n", "write a 0 1 0 hex \n", "write a 0 1 0 hex 00\n"]),
    (6, "number", SECTION, [
        "write a 0 1 00 fill 00\n", "write a 0 1 A fill 0\n", "write a 0 1  fill 00\n", "write a 0 257 0 fill 00\n",
        "write a 0 01 0 fill 00\n", "write a 4294967296 1 0 fill 00\n", "write a 00 1 0 fill 00\n",
        "read a 0 18446744073709551617 0\n", "reset 0\n"]),
    (6, "name", SECTION, [
        "write b 0 1 0 fill 00\n", "write A x x x fill x\n", "read b 0 1 0\n", "read  0 1 0\n", "evict b\n", "evict -\n"]),
    (6, "word", SECTION, [
        "write a 0 1 - fill 00\n", "write - 0 1 0 fill 00\n", "read a 0 1 -\n", "write a 0 1 0 zero 00\n", "write a 0 1 0 fill\n",
        "write a 0 1 0 fill 00 \n", "read a 0 1 0 \n", "read  a 0 1 0\n", "evict\n", "reset\n", "plug 1\n", "trim a 0 1 0\n"]),
    (6, "order", SECTION, ["unplug\n"]),
    (7, "order", SECTION, ["plug\nplug\n", "plug\nend\n", "plug\nthread\n"]),
    (8, "order", SECTION, ["plug\nread a 0 1 0\nend\n", "plug\nunplug\nunplug\n"]),
]

# what the texts begin with, and what follows in each
ACCEPTED = [
    (HEAD, ["end\n", "thread\nend\n", "thread\nthread\nend\n"]),
    (HEAD, ["device 0 1 1 0 0 1\nend\n", "device 0 1 32 15 15 8\nend\n", "device 0 1 1 1 0 8\nend\n"]),
    (HEAD.replace("on", "off"), ["end\n", "device 0 1 1 1 0 8\nend\n"]),
    (THREE_BLOCKS, [
        "device 0 2 1 1 0 8\ndevice 2 1 1 1 0 8\nend\n", "device 0 1 1 1 0 8\ndevice 1 1 1 1 0 8\ndevice 2 1 1 1 0 8\nend\n"]),
    (EIGHT_DEVICES, ["end\n"]),
    (TWO_DEVICES + "thread\n", ["reset 0\nreset 1\nend\n", "plug\nreset 1\nunplug\nend\n"]),
    (HEAD, ["fault 0 0\nend\n", "fault 0 9\nfault 0 10\nfault 63 65535\nthread\nend\n"]),
    (FAULTS, ["end\n"]),
    (WHOLE_DEVICE + KEY + SMALL + "fault 3 17\nfault 63 65535\nthread\n", [
        "write - 0 1 - fill 00\nwrite a 17 2 a fill ff\nread - 7 0 -\nread a 8 10 0\nend\n",
        f"write small0 4294967295 1 10000000000000000 hex {'0001abff' * 1024}\nend\n",
        "thread\nplug\nevict small0\nreset 0\nunplug\nend\n"]),
    (HEAD + MANY_KEYS + "thread\n" + MANY_WRITES, ["end\n"]),
]


def ran(program, text):
    found = subprocess.run([program, "serial"], input=text.encode(), stdout=subprocess.PIPE, stderr=subprocess.PIPE, check=False)
    return found.returncode, found.stdout.decode(), found.stderr.decode()


def first_words(text, word):
    return sum(line.split(" ")[0] == word for line in text.split("\n"))


def accepts(text, answer):
    """Whether the answer is a report, with a line for each section and device of the text."""
    status, report, said = answer
    return (status, said) == (0, "") and report.startswith("report 1\n") and report.endswith("\nend\n") and all(
        first_words(report, word) == first_words(text, word) for word in ["thread", "device"])


def main():
    program = sys.argv[1]
    refused = [(start + rest, (2, "", f"blkcrypt: script line {line}: {kind}\n"))
               for line, kind, start, rests in REFUSED for rest in rests]
    accepted = [start + rest for start, rests in ACCEPTED for rest in rests]
    wrong = [(text, answer) for text, wanted in refused for answer in [ran(program, text)] if answer != wanted]
    wrong += [(text, answer) for text in accepted for answer in [ran(program, text)] if not accepts(text, answer)]
    for text, answer in wrong:
        print(f"script_lines: {text[-400:]!r} is answered {answer}")
    if not wrong:
        print(f"script_lines: {len(refused)} texts refused and {len(accepted)} accepted as the language has it")
    return 1 if wrong else 0


if __name__ == "__main__":
    sys.exit(main())

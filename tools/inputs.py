"""What the tools over reports have in common: their words, their inputs and their refusals."""

import argparse
import sys

import orders
import plans
import reports


class Fails(Exception):
    """What is said on standard error, and the status."""

    def __init__(self, text, status):
        super().__init__(text)
        self.status = status


class Parser(argparse.ArgumentParser):
    def __init__(self, name):
        super().__init__(prog=name, add_help=False, allow_abbrev=False)

    def error(self, message):
        raise Fails(message, 1)


def step(text):
    """The number of a step."""
    if not text.isascii() or not text.isdecimal() or len(text) > 9 or int(text) < 1:
        raise argparse.ArgumentTypeError(f"{text!r} is no number of a step, which are counted from 1")
    return int(text)


def content(name):
    try:
        with open(name, "rb") as source:
            return source.read()
    except (OSError, ValueError) as error:
        raise Fails(f"{name}: {getattr(error, 'strerror', error)}", 3) from error


def standard_input():
    try:
        return sys.stdin.buffer.read()
    except (OSError, AttributeError) as error:
        raise Fails("standard input can't be read", 3) from error


def read(script_name):
    """The report of standard input, and the script where one is named."""
    try:
        report = reports.read(standard_input())
        script = plans.read(content(script_name)) if script_name is not None else None
        if script:
            plans.fit(script, report)
        orders.checked(report)
    except (reports.NoReport, plans.NoScript) as error:
        raise Fails(str(error), 2) from error
    return report, script


def pieces(report, script):
    """The pieces of the script, where there is one."""
    if script is None:
        return None
    inline = {script.sections[entry.thread][entry.op].key for entries in report.shards for entry in entries if entry.way == "inline"}
    return plans.pieces(script, report, lambda key: key in inline)


def write(text):
    try:
        sys.stdout.buffer.write(text.encode())
        sys.stdout.buffer.flush()
    except (OSError, AttributeError) as error:
        sys.stdout = None
        raise Fails("the output can't be written", 4) from error


def main(words, work, name, help_text):
    """Carries a tool out: `work` makes its output of its words."""
    try:
        write(help_text.strip() + "\n" if words[:1] in (["-h"], ["--help"]) else work(words))
    except Fails as error:
        print(f"{name}: {error}", file=sys.stderr)
        return error.status
    return 0

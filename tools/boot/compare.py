#!/usr/bin/env python3
"""Replays a recorded boot, and compares the values that the program and the kernel hand out.

    compare.py SCRIPT VALUES        every value has to be equal; else the first that differs is printed, with status 1
    compare.py -c SCRIPT VALUES     the same with one digit of the first sample changed: every value of four bytes or
                                    more has to differ, or the status is 1

The program is `rng` at the top of the repository, or the one that RNG names. It is called with the word `run`. Files
with names that end in .gz are unpacked. A value is all bytes of a read, or, as recorder.py notes a longer read, its
first 4,096 bytes, or fewer with the SHA-256 of all.
"""

import argparse
import gzip
import hashlib
import os
import re
import subprocess
import sys

TOP = os.path.dirname(os.path.dirname(os.path.dirname(os.path.abspath(__file__))))
sys.path.insert(0, os.path.join(TOP, "tools"))
import command  # noqa: E402

SAMPLES = ("write", "device")
LONGEST = 4096  # bytes of a value that recorder.py notes
SURELY = 8  # digits: a value with this many does not come out equal by chance
VALUE = re.compile(r"([0-9]{1,9}) ([0-9a-f]*)(?: ([0-9]{1,9})(?: ([0-9a-f]{64}))?)?")


def text_of(path):
    with gzip.open(path, "rt") if path.endswith(".gz") else open(path) as file:
        return file.read()


def values_of(text):
    """The numbers of events, and the digits that were handed out in each. For some also how many bytes of the event's
    answer come before these, and for longer ones the SHA-256 of all bytes."""
    values = []
    for place, line in enumerate(text.splitlines(), 1):
        found = VALUE.fullmatch(line)
        if not found:
            raise command.Fault(f"VALUES, line {place}: an event's number and its bytes are wanted, not {line[:60]!r}")
        number, digits, before, digest = found.groups()
        more = [] if before is None else [int(before)] if digest is None else [int(before), digest]
        values.append((int(number), digits, *more))
    return values


def changed(script):
    """The script, with the last digit of its first sample of some bytes changed."""
    lines = script.split("\n")
    for place, line in enumerate(lines):
        if line.split(" ")[0] in SAMPLES and not line.endswith("-"):
            lines[place] = line[:-1] + ("1" if line[-1] == "0" else "0")
            return "\n".join(lines)
    raise command.Fault("SCRIPT has no sample of some bytes in which a digit could be changed")


def run_of(script, program):
    """The transcript of a script."""
    ran = subprocess.run([program, "run"], input=script.encode(), stdout=subprocess.PIPE, check=False)
    if ran.returncode:
        said = ran.stdout[:80].decode(errors="replace").strip()
        raise command.Fault(f"SCRIPT was not replayed: {program} ended with status {ran.returncode}: {said}")
    return ran.stdout.decode()


def lines_of(transcript):
    """The lines of the events, each as its fields."""
    return [line.split(" ") for line in transcript.splitlines()[1:-1]]


def is_equal(fields, digits, before=0, digest=None):
    """Whether the call succeeded, and its bytes are these, as far as they are noted."""
    if fields[2] != "ok":
        return False
    found = fields[4][2 * before :]
    if digest is None:
        return found[: 2 * LONGEST] == digits
    return found.startswith(digits) and hashlib.sha256(bytes.fromhex(found)).hexdigest() == digest


def compare(values, transcript):
    """The values that came out equal, and those that did not, as places in the list."""
    highest = max((number for number, *_ in values), default=0)
    if highest >= len(transcript):
        raise command.Fault(f"VALUES has event {highest}, and SCRIPT has {len(transcript)} events: is it of another record?")
    equal = [place for place, (number, *value) in enumerate(values) if is_equal(transcript[number], *value)]
    kept = set(equal)
    return equal, [place for place in range(len(values)) if place not in kept]


def difference(values, transcript, place):
    number, digits, before = (*values[place], 0)[:3]
    fields = transcript[number]
    return (
        f"the first that differs: event {number}, {fields[1]}: the kernel had {digits[:64]}, "
        f"the program {fields[2]} {fields[4][2 * before :][: len(digits)][:64]}"
    )


def arguments():
    parser = argparse.ArgumentParser(
        prog="compare.py", description="Replays a recorded boot, and compares its values with the kernel's.")
    parser.add_argument("-c", dest="is_changed", action="store_true",
                        help="change one digit of the first sample: no value of four bytes or more may be equal then")
    parser.add_argument("script", metavar="SCRIPT", help="the script of a boot, as convert.py writes it")
    parser.add_argument("values", metavar="VALUES", help="the kernel's values, as convert.py writes them")
    return parser.parse_args()


def verdict(name, values, transcript, is_changed=False):
    """Whether at most the allowed number of values is equal, and the message about it."""
    equal, other = compare(values, transcript)
    line = f"{name}: {len(equal)} of {len(values)} equal{', with one digit changed' if is_changed else ''}"
    if is_changed:
        return bool(values) and all(len(values[place][1]) < SURELY for place in equal), line
    return bool(values) and not other, f"{line}\n{difference(values, transcript, other[0])}" if other else line


def main():
    given = arguments()
    script, values = text_of(given.script), values_of(text_of(given.values))
    program = os.environ.get("RNG", os.path.join(TOP, "rng"))
    transcript = run_of(changed(script) if given.is_changed else script, program)
    is_right, said = verdict(given.script, values, lines_of(transcript), given.is_changed)
    print(said)
    return 0 if is_right else 1


if __name__ == "__main__":
    command.end("compare.py", main)

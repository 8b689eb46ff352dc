#!/usr/bin/env python3
"""Makes a script out of a recorded boot, and the list of the values that the kernel handed out.

    convert.py RECORD CPUS SCRIPT VALUES [EVENTS] [--who WHO]

RECORD is a file of recorder.py, from a machine with CPUS processors. The script has one caller, which goes from CPU to CPU.
VALUES gets a line for each value: the number of its event in the script, and the bytes in hexadecimal, or the first
4,096 of a longer one. Two more fields follow if they are needed: how many bytes of the event's answer come before
the value, and the SHA-256 of all bytes of a longer one. WHO gets a line for each call, with its caller; the command
`who` reads this file.
The script ends after EVENTS events, or after 65,536 if that is left out. Files with names that end in .gz are
compressed.

kernel_calls.py explains how the order of the events is found, and vdso_calls.py how calls of vgetrandom become events.
"""

import argparse
import gzip
import io
import json
import os
import sys

sys.path.insert(0, os.path.dirname(os.path.dirname(os.path.abspath(__file__))))
import command  # noqa: E402
from kernel_calls import Refused  # noqa: E402
from vdso_calls import UserReader, number_states  # noqa: E402

LIMIT = 65536  # events of a script
KEPT = 4096  # bytes of a value


def events_of(stops):
    """The events of a record in the order of the script, and how many stops these events have.

    If the record does not have the end of a call, it is cut off before the call's first step.
    """
    events, used, _ = read(stops)
    return events, used


def read(stops):
    """As events_of, with the reader's notes: how often each kind was found, and which calls could not be shown."""
    for is_cut in (False, True):
        reader, used = whole_reader(stops, is_cut)
        reader.show_calls()
        events = reader.order.sort()
        without, _ = number_states(events)
        if not without:
            return events, used, reader.notes
    while without:
        for event in [it for it in events if getattr(it, "memory", None) in without]:
            reader.forget(event)
            reader.note("not shown: more states at once than a caller has")
        events = reader.order.sort()
        without, _ = number_states(events)
    return events, used, reader.notes


def whole_reader(stops, is_cut):
    """A reader of the stops, without the last ones if they belong to a call whose end was not seen; and how many it
    read."""
    while True:
        reader = UserReader(is_cut)
        reader.read(stops)
        end = reader.unfinished()
        if end is None:
            return reader, len(stops)
        stops = stops[:end]


class Script:
    """The lines of the events that have their place, and the values that were handed out in them."""

    def __init__(self, events, longest):
        self.lines, self.values, self.who = [], [], []
        _, self.has_states = number_states(events)
        on = 0
        for event in events:
            new = event.lines(on)
            if len(self.lines) + len(new) > longest:
                break
            self.lines += new
            on = on if event.cpu is None else event.cpu
            for back, answer in event.answers():
                self.add(len(self.lines) - 1 - back, answer)

    def add(self, number, answer):
        if answer.value:
            more = (answer.before, answer.digest) if answer.digest else (answer.before,) if answer.before else ()
            self.values.append((number, answer.value[: 2 * KEPT], *more))
        if answer.who:
            moment, process, thread, doing, name = answer.who
            since = "-" if answer.since is None else answer.since
            self.who.append((number, moment, since, process, thread, doing, answer.function or "-", field_of(name)))

    def head(self, cpus):
        return [f"rngscript {3 if self.has_states or cpus > 64 else 2}", f"cpus {cpus}", "caller 0"]


def script_of(events, longest):
    """The lines of the events, and the values with the numbers of their lines, for the first part, which has its
    place."""
    script = Script(events, longest)
    return script.lines, script.values


def field_of(name):
    """A task's name as one field, with \\x and two digits for a byte that cannot be in it."""
    found = "".join(it if "!" <= it <= "~" and it != "\\" else "".join(f"\\x{byte:02x}" for byte in it.encode()) for it in name)
    return found or "-"


def write_rows(path, rows):
    with opened(path, "w") as file:
        file.write("".join(" ".join(map(str, row)) + "\n" for row in rows))


def opened(path, mode):
    """A text file. A compressed one contains no date, so that equal texts make equal files."""
    if not path.endswith(".gz"):
        return open(path, mode)
    if mode == "r":
        return gzip.open(path, "rt")
    return io.TextIOWrapper(gzip.GzipFile(path, "wb", 9, mtime=0))


def stops_of(path):
    """The stops of a record. Its last line may be cut off."""
    stops = []
    with opened(path, "r") as file:
        for place, line in enumerate(file, 1):
            try:
                stops += [json.loads(line)] if line.endswith("}\n") else []
            except ValueError as fault:
                raise command.Fault(f"{path}, line {place}: no stop that recorder.py writes: {fault}") from None
    if not stops:
        raise command.Fault(f"{path}: no stop is in it, so it is no record of recorder.py")
    return stops


def cpus_of(text):
    if not text.isdecimal() or not 1 <= int(text) <= 64:
        raise argparse.ArgumentTypeError(f"a number of CPUs from 1 to 64 is wanted, not {text}")
    return int(text)


def arguments():
    parser = argparse.ArgumentParser(
        prog="convert.py", description="Makes a script out of a recorded boot, and the list of the kernel's values.")
    parser.add_argument("record", metavar="RECORD", help="the record, by recorder.py")
    parser.add_argument("cpus", metavar="CPUS", type=cpus_of, help="CPUs of that machine, 1 to 64")
    parser.add_argument("script", metavar="SCRIPT", help="the script to write")
    parser.add_argument("values", metavar="VALUES", help="the list of values to write")
    parser.add_argument("events", metavar="EVENTS", type=int, nargs="?", default=LIMIT,
                        help=f"cut the script off after so many events; {LIMIT} if none is given")
    parser.add_argument("--who", metavar="WHO", help="the list of the callers to write, for the command who")
    return parser.parse_args()


def main():
    given = arguments()
    stops = stops_of(given.record)
    try:
        events, used, notes = read(stops)
        script = Script(events, given.events)
    except Refused as why:
        print(f"refused: {why}")
        return 1
    write_rows(given.script, [(line,) for line in [*script.head(given.cpus), *script.lines, "end"]])
    write_rows(given.values, script.values)
    if given.who:
        write_rows(given.who, script.who)
    cut = f", the last {len(stops) - used} cut off" if used < len(stops) else ""
    print(f"{len(stops)} stops{cut}, {len(script.lines)} events, {len(script.values)} values")
    for text, count in sorted(notes.items()):
        print(f"{count:7} {text}")
    return 0


if __name__ == "__main__":
    command.end("convert.py", main)

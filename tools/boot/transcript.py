#!/usr/bin/env python3
"""Makes a script of several callers from a record, and the transcript of the recorded run itself.

transcript.py RECORD CPUS SCRIPT TRANSCRIPT
rng check SCRIPT TRANSCRIPT

RECORD is a file of recorder.py, from a machine with CPUS processors. Nothing is moved: each visit of a lane has its place and
stamp by the order of the record, which is that of the locks, and the bytes are those that were handed out. So `rng check`
judges the recorded run. A caller has calls of the kernel on one CPU that come one after another. A call inside another
one, as from an interrupt, belongs to a further caller. Each vgetrandom state is a caller too, with the calls on it. All
are forked at the start.

A record has the first bytes of vgetrandom's answers, and a SHA-256. The other bytes are computed from the answer's key,
as the vDSO does, and must have this sum. Three things are not in a record: the base's visits of the lines `fork` and
`end`, which come first and last; the looks that only check whether the core is ready, each of which finds the same as the
next look of its call; and the first look of a vgetrandom call, which finds the same as the call's first attempt.
"""

import argparse
import hashlib
import os
import sys

import convert
from convert import command
from kernel_calls import Refused
from vdso_calls import BATCH, BLOCK, EINVAL, INSECURE, KEY, RANDOM, UserCall, UserReader

sys.path.insert(0, os.path.dirname(os.path.dirname(os.path.abspath(__file__))))
import replay  # noqa: E402

CALLERS = 64
LANES = {"pool": "p", "base": "b", "bits": "p"}
SILENT = ("write", "device", "credit", "prepare", "online")  # they have no look, and no data
LATE = "early"  # an early key is made while the base is locked: the root is taken from the pool first


class Visit:
    """A visit of a lane, with its place in the record."""

    def __init__(self, at, lane, step=None):
        self.at, self.lane, self.step = at, lane, step
        self.place = self.stamp = None

    def __str__(self):
        return f"{self.lane}:{self.place}@{self.stamp}"


class Line:
    """A line of the transcript, with its event in the script. Its steps are looks and visits."""

    def __init__(self, event, steps=(), answer="ok", data="-"):
        self.event, self.steps, self.answer, self.data = event, list(steps), answer, data

    def visits(self):
        return [it for it in self.steps if isinstance(it, Visit)]

    def text(self, caller, number):
        return f"{caller}.{number} {self.event.split(' ')[0]} {self.answer} {','.join(map(str, self.steps)) or '-'} {self.data}"


class StepReader(UserReader):
    """Keeps for each event its visits, and the CPU on which it began."""

    def __init__(self):
        super().__init__()
        self.visits, self.begun_on = {}, {}

    def add_step(self, event, stop, lock):
        lane = LANES.get(lock) or ("c" + lock.split(" ")[1] if lock.startswith("cpu ") else None)
        found = self.visits.setdefault(event, [])
        if stop["stop"] == "take" and found and found[-1].lane == lane:
            found.pop()  # the batch was filled in the same visit
        if lane:
            found.append(Visit(self.now, lane, stop["stop"]))
        self.begun_on.setdefault(event, stop["cpu"])
        return super().add_step(event, stop, lock)

    def steps_of(self, event, made):
        """The looks of a call, and then its visits, with an early key's root before the base."""
        visits, word = self.visits[event], event.word.split(" ")[0]
        late = [it for it in visits if it.step == LATE]
        for it in late:
            it.at = max(other.at for other in visits) + 0.5 * (len(visits) > 2)
        if word in SILENT:
            looks = []
        elif word == "reseed":
            looks = [f"~{made[event] - 1}"]
        else:
            is_early = "draw" in event.steps or event.generation == 0
            looks = ["~0"] if is_early else [f"~{event.generation}"] * 2
        return looks + [it for it in visits if it not in late] + late


def data_of(event):
    """All bytes that the kernel handed out."""
    value, words = event.answer.value, event.word.split(" ")
    if words[0] in (*SILENT, "reseed") or event.steps == ["answer"]:
        return "-"
    count = int(words[0][3:]) // 8 if words[0].startswith("int") else int(words[1])
    if not value or len(value) != 2 * count:
        raise Refused(f"{event.word} has {len(value or '') // 2} of its bytes in the record")
    return value


class State:
    """The content of a vgetrandom state, by the keys that the kernel's reads gave it."""

    def __init__(self):
        self.batch, self.key, self.position = bytes(BATCH), bytes(KEY), 0

    def take_key(self, key):
        self.key, self.position = key, BATCH

    def serve(self, count, counter):
        """So many bytes, and the block counter after them."""
        found = b""
        while True:
            piece = self.batch[self.position : self.position + count - len(found)]
            self.position += len(piece)
            found += piece
            if len(found) == count:
                return found, counter
            blocks = (count - len(found)) // BLOCK
            found += replay.keystream(self.key, BLOCK * counter, BLOCK * blocks)
            fresh = replay.keystream(self.key, BLOCK * (counter + blocks), BATCH + KEY)
            self.batch, self.key, self.position = fresh[:BATCH], fresh[BATCH:], 0
            counter += blocks + (BATCH + KEY) // BLOCK


class StateCaller:
    """The calls on one vgetrandom state."""

    def __init__(self):
        self.lines, self.state, self.is_used, self.on = [], None, False, 0

    def why_not(self, call):
        """The reason why a call cannot be a line here, or None."""
        first = call.attempts[0]
        if call.is_child or call.is_mixed or call.is_inside or call.result is None:
            return "a call that goes on in a child, is inside another one, or does not end"
        if any(it.wiped is not None for it in call.attempts):
            return "a wipe inside"
        if call.stop["flags"] & (RANDOM | INSECURE) == RANDOM | INSECURE:
            return "flags that are chosen otherwise"
        if len({it.key.cpu for it in call.attempts if it.key} | ({call.system.cpu} if call.system else set())) > 1:
            return "its keys are of two CPUs"
        if not call.attempts[-1].holds and call.result != call.stop["count"]:
            return "a signal cut its system call short"
        if not first.needs_key and not first.blocks and not first.holds:
            return "a batch alone that did not hold"
        if self.state is None and not first.needs_key and not call.stop["wiped"]:
            return "the content of its state is not known"
        return None

    def add(self, call, reader, made):
        first = call.attempts[0]
        if first.needs_key and (self.state is None or call.stop["wiped"]):
            self.lines += [Line("drop")] if self.is_used else []
            self.state = State()
        self.is_used = True
        cpu = next((it.key.cpu for it in call.attempts if it.key), call.system.cpu if call.system else self.on)
        if cpu != self.on:
            self.lines.append(Line(f"on {cpu}"))
            self.on = cpu
        looked = f"~{first.looked}"
        if not first.needs_key and not first.blocks:
            steps = [looked]
        else:
            steps = [looked]
            for it in call.attempts:
                key = reader.steps_of(it.key, made) if it.key else []
                steps += [f"~{it.looked}", *key, f"~{it.found}"]
        if not call.attempts[-1].holds:
            steps += reader.steps_of(call.system, made)
        data = self.bytes_of(call)
        self.lines.append(Line(f"vread {call.stop['count']} {call.stop['flags']}", steps, "ok", data))

    def bytes_of(self, call):
        """The bytes that the state gives, which have to be those that were handed out."""
        counter, found = 0, b""
        for it in call.attempts:
            if it.key:
                self.state.take_key(bytes.fromhex(it.key.answer.value))
            found, counter = self.state.serve(call.stop["count"], counter)
        if not call.attempts[-1].holds:
            return data_of(call.system)
        noted, digest = call.answer.value, call.answer.digest
        if not found.hex().startswith(noted) or (hashlib.sha256(found).hexdigest() != digest if digest else len(noted) != 2 * len(found)):
            raise Refused(f"{call.stop['count']} bytes of a state are not those that were handed out: {noted[:32]}, not {found[:16].hex()}")
        return found.hex()


class CpuCaller:
    """Calls of the kernel on one CPU, one after another."""

    def __init__(self, cpu):
        self.lines, self.end, self.cpu, self.on = [], -1, cpu, 0

    def add(self, event, reader, made):
        if event.cpu is not None and self.on != event.cpu:
            self.lines.append(Line(f"on {event.cpu}"))
            self.on = event.cpu
        self.lines += [Line(f"hw {event.hardware}")] if event.hardware else []
        answer = "EAGAIN" if event.steps == ["answer"] else "ok"
        line = Line(event.word, reader.steps_of(event, made), answer, data_of(event))
        self.lines.append(line)
        self.end = max([it.at for it in line.visits()] or [event.first])


def shown_calls(reader, made):
    """The callers of the states, the events that are parts of their calls, and for each call that is no line the
    reason."""
    callers, parts, left = {}, set(), {}
    for call in sorted((it for it in reader.calls if it.attempts), key=lambda it: it.begun):
        caller = callers.setdefault(call.address, StateCaller())
        why = caller.why_not(call)
        if why:
            left[why] = left.get(why, 0) + 1
            if not call.is_inside:
                caller.state = None
            continue
        caller.add(call, reader, made)
        parts.update(it.key for it in call.attempts if it.key)
        if not call.attempts[-1].holds:
            parts.add(call.system)
    return [it.lines for it in callers.values() if it.lines], parts, left


def callers_of(reader):
    made = {event: generation for generation, event in enumerate(reader.order.makers) if event is not None}
    states, parts, left = shown_calls(reader, made)
    cpus = []
    for event in reader.events:
        if event in parts or isinstance(event, UserCall):
            continue
        first = min([it.at for it in reader.visits[event]] or [event.first])
        free = [it for it in cpus if it.cpu == reader.begun_on[event] and it.end < first]
        if not free:
            free = [CpuCaller(reader.begun_on[event])]
            cpus += free
        free[0].add(event, reader, made)
    callers = [it.lines for it in cpus] + states
    if len(callers) > CALLERS:
        raise Refused(f"{len(callers)} callers, of at most {CALLERS}")
    callers[0][:0] = [Line(f"fork {it}", [Visit(it - CALLERS, "b")]) for it in range(1, len(callers))]
    return callers, left


def texts_of(callers, cpus):
    last = 1 + max(visit.at for lines in callers for line in lines for visit in line.visits())
    everything = [[*lines, Line("end", [Visit(last + it, "b")])] for it, lines in enumerate(callers)]
    counts = {}
    for stamp, it in enumerate(sorted((it for lines in everything for line in lines for it in line.visits()), key=lambda it: it.at), 1):
        it.place, it.stamp = counts.setdefault(it.lane, 0), stamp
        counts[it.lane] += 1
    script, transcript = ["rngscript 2", f"cpus {cpus}"], ["rngtranscript 1"]
    for caller, lines in enumerate(everything):
        script += [f"caller {caller}", *[line.event for line in lines[:-1]]]
        transcript += [line.text(caller, number) for number, line in enumerate(lines)]
    return [*script, "end"], [*transcript, "end"]


def reader_of(stops):
    while True:
        reader = StepReader()
        reader.read(stops)
        end = reader.unfinished()
        if end is None:
            return reader, len(stops)
        stops = stops[:end]


def arguments():
    parser = argparse.ArgumentParser(
        prog="transcript.py", description="Makes a script of several callers out of a record, and the transcript of the recorded run itself.")
    parser.add_argument("record", metavar="RECORD", help="the record, by recorder.py")
    parser.add_argument("cpus", metavar="CPUS", type=convert.cpus_of, help="CPUs of that machine, 1 to 64")
    parser.add_argument("script", metavar="SCRIPT", help="the script to write")
    parser.add_argument("transcript", metavar="TRANSCRIPT", help="the transcript to write")
    return parser.parse_args()


def main():
    given = arguments()
    stops = convert.stops_of(given.record)
    try:
        reader, used = reader_of(stops)
        callers, left = callers_of(reader)
        script, transcript = texts_of(callers, given.cpus)
    except Refused as why:
        print(f"refused: {why}")
        return 1
    convert.write_rows(given.script, [(line,) for line in script])
    convert.write_rows(given.transcript, [(line,) for line in transcript])
    calls = sum(line.event.startswith("vread") for lines in callers for line in lines)
    print(f"{used} of {len(stops)} stops, {len(callers)} callers, {len(script) - len(callers) - 3} events, {calls} of them vreads")
    for why, count in sorted(left.items()):
        print(f"{count:7} no vread: {why}")
    return 0


if __name__ == "__main__":
    command.end("transcript.py", main)

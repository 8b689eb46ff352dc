"""Every value that a replayed boot made in its core, by the names of docs/AUDIT.md, and the value that each is computed from.

Roots and the pool's content come from a replay of the pool (tools/replay.py). Every other key comes from the rows of
the key audit alone: a row lists the bytes of another key's keystream that the key is. Both must give the served bytes of
the transcript: values that differ there are not used.
"""

import os
import re
import struct
import sys

HERE = os.path.dirname(os.path.abspath(__file__))
sys.path[:0] = [HERE, os.path.dirname(HERE)]
import command  # noqa: E402
import replay  # noqa: E402
import states  # noqa: E402

PIECE = re.compile(r"(\d+)\+(\d+)(?:=(\S+)|>(\S+)|!(\S+)|\?)")
STAMP = re.compile(r"@(\d+)")


class Row:
    """A key of the run, as the key audit writes it."""

    def __init__(self, text):
        self.name, self.holder, made, self.line, ended, *rest = text.split(" ")
        self.made = int(made.partition("@")[2])
        self.is_held = ended == "held"
        self.ended = None if self.is_held else int(ended.partition("@")[2])
        self.end = "never" if self.is_held else f"{ended} {rest[0]}"
        self.pieces, self.became, self.served = [], [], []  # (first byte, length, name of a key or line)
        for piece in rest if self.is_held else rest[1:]:
            first, length, key, line, _ = PIECE.fullmatch(piece).groups()
            at = (int(first), int(length))
            self.pieces.append(at)
            if key:
                self.became.append((*at, key))
            if line:
                self.served.append((*at, line))


class Key:
    """A key's value, with the blocks that the kernel made of it."""

    def __init__(self, name, value):
        self.name, self.value, self.blocks, self.inner = name, value, {}, {}

    def block(self, counter):
        if counter not in self.blocks:
            start = states.chacha_start(self.value, counter)
            x = states.permuted(start)
            self.inner[counter] = states.bytes_of(x)
            self.blocks[counter] = states.bytes_of([(a + b) & states.MASK for a, b in zip(x, start)])
        return self.blocks[counter]

    def span(self, first, length):
        low, high = first // states.BLOCK, (first + length + states.BLOCK - 1) // states.BLOCK
        return b"".join(map(self.block, range(low, high)))[first - states.BLOCK * low:][:length]


class Extraction:
    """The values inside an extraction of the pool. The key of this name is its root."""

    def __init__(self, place, key, text, hardware):
        self.name, self.hardware = f"Root({place})", hardware
        self.pool = states.hashed(key, text)
        self.seed = self.pool[-1][2]
        self.next = states.hashed(self.seed, hardware + struct.pack("<Q", 0))
        self.root = states.hashed(self.seed, hardware + struct.pack("<Q", 1))
        self.value, self.pool_key, self.chained = self.root[-1][2], self.next[-1][2], self.root[0][2]


class Pool(replay.Caller):
    """Replays the events, and notes each extraction."""

    def __init__(self, cpus):
        super().__init__(cpus)
        self.found = []

    def extract(self):
        key, text = self.pool.key, self.pool.text
        root = super().extract()
        self.found.append(Extraction(self.places["p"] - 1, key, text, self.hardware))
        if self.found[-1].value != root:
            raise AssertionError("a root here differs from tools/replay.py's")
        return root


def replayed(script, wanted):
    """The extractions of a script, and the pool's key and bytes after each wanted number of events.

    No byte of a read gets into the pool, so the replay makes none, which takes most of its time.
    """
    lines, held = script.splitlines(), {}
    made = replay.block
    replay.block = lambda key, number: bytes(states.BLOCK)
    try:
        caller = Pool(int(lines[1].split()[1]))
        for number, line in enumerate(lines[3:lines.index("end")], 1):
            words = line.split(" ")
            if words[0] == "inside":
                caller.waiting.append({"point": int(words[1]), "words": words[2:]})
            else:
                caller.steps = []
                caller.event(words)
            if number in wanted:
                held[number] = (caller.pool.key, caller.pool.text)
    finally:
        replay.block = made
    return caller.found, held


def is_block_zero_made(row):
    """Whether the kernel made the block that begins with the next key. A call's own key has no next key."""
    if row.name.startswith("Call(Cpu"):
        return False
    return not (row.name.startswith("Call(Base") and row.pieces and row.pieces[0][0] >= states.BLOCK)


def keys_of(rows, roots):
    """The keys by name."""
    origins = {name: (row.name, first, length) for row in rows for first, length, name in row.became}
    keys = {}
    for row in rows:
        if row.name in roots:
            value = roots[row.name]
        elif row.name in origins:
            parent, first, length = origins[row.name]
            value = keys[parent].span(first, length)
        else:
            raise command.Fault(f"the key audit has no origin of {row.name}")
        key = keys[row.name] = Key(row.name, value)
        for first, length in row.pieces:
            key.span(first, length)
        if row.pieces and is_block_zero_made(row):
            key.block(0)
    return keys


def unequal_lines(rows, keys, transcript):
    """How many lines the keys served, and the first line whose bytes in the transcript differ, or None.

    A vread's attempt that was given up served bytes too, which the line does not show; the bytes that it shows come
    last.
    """
    by_line = {}
    for row in rows:
        for first, length, line in row.served:
            by_line[line] = by_line.get(line, b"") + keys[row.name].span(first, length)
    shown = {fields[0]: fields for fields in (line.split(" ") for line in transcript.splitlines()) if len(fields) == 5}

    def is_equal(line, served):
        _, word, _, _, digits = shown.get(line, 5 * [""])
        return served.hex() == digits or (word == "vread" and digits != "-" and served.hex().endswith(digits))

    return len(by_line), next((line for line, served in by_line.items() if not is_equal(line, served)), None)


def stamps_of(transcript):
    """For each event of a script of one caller, the last stamp up to the event's end."""
    stamps, last = [], 0
    for line in transcript.splitlines()[1:-1]:
        fields = line.split(" ")
        for stamp in STAMP.findall(fields[3]) if len(fields) == 5 else ():
            last = int(stamp)
        stamps.append(last)
    return stamps


class Values:
    """All of a boot's values, and the pool after `events` events."""

    def __init__(self, script, transcript, rows, events):
        self.rows = [Row(it) for it in rows]
        self.by_name = {it.name: it for it in self.rows}
        self.extractions, pools = replayed(script, [events])
        self.pool = pools.get(events)
        self.keys = keys_of(self.rows, {it.name: it.value for it in self.extractions})
        self.lines, other = unequal_lines(self.rows, self.keys, transcript)
        if other:
            raise command.Fault(f"the bytes of line {other} do not follow from the key audit's rows: this is a fault of "
                                "tools/memory, or the transcript is of another script")

    def given_by(self, name, stamp, stamps):
        """The keys, the lines (as numbers of events) and the number of bytes that a reader of the key can compute up to
        a stamp."""
        known, lines, count = {name}, set(), 0
        for row in self.rows:
            if row.name not in known:
                continue
            known.update(key for _, _, key in row.became if self.by_name[key].made <= stamp)
            for _, length, line in row.served:
                event = int(line.partition(".")[2])
                if stamps[event] <= stamp:
                    lines.add(event)
                    count += length
        return known, lines, count

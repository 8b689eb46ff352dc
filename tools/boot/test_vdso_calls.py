"""Tests of vdso_calls.py on small records that are made by hand. The expected scripts follow from docs/RECORDING.md."""

import unittest

import convert
from test_convert import HARDWARE, enter, leave, ready, step

VDSO, PAGE, TOP = 0x7000, 0x9000, 0x5000
VALUE, KEY = "0a" * 40, "0b" * 32


def who(process=7, name="init"):
    return [1, process, process, "task", name]


class Program:
    """A process that calls vgetrandom; each method gives the stops of one part of a call."""

    def __init__(self, mm=5, state=PAGE, pointer=TOP, process=7):
        self.mm, self.state, self.pointer, self.process = mm, state, pointer, process

    def stop(self, name, **fields):
        return {"stop": name, "cpu": 0, "mm": self.mm, "pointer": self.pointer, **fields}

    def mapped(self):
        return {"stop": "vdso", "cpu": 0, "at": VDSO, "mm": self.mm}

    def begin(self, count=40, flags=0, wiped=True, generation=0, pos=0, mark=0):
        return self.stop("venter", state=self.state, size=144, count=count, flags=flags, buffer=1, vdso=VDSO, who=who(self.process),
                         wiped=wiped, generation=generation, pos=pos, mark=mark)

    def look(self, held, published, second=False):
        return self.stop("vlook", state=self.state, generation=held, published=published, second=second)

    def point(self, name, held, second=False, **fields):
        return self.stop(name, state=self.state, generation=held, second=second, **fields)

    def system(self, word, count, buffer, flags=0, generation=1, value=KEY, steps=("serve",), stack=30):
        source = {"flags": flags, "wanted": count, "buffer": buffer, "ip": VDSO + 9, "sp": self.pointer - 80, "mm": self.mm}
        noted = [step(it, 0, stack, generation=generation) for it in steps]
        return [enter("getrandom", 900, 0, stack, who=who(self.process), **source), enter("uread", 800, 0, stack, count=count),
                *noted, leave("uread", 800, 0, stack, value=value)]

    def key(self, generation=1, second=False):
        """The parts of an attempt that takes a key, until it has the key."""
        return [self.point("vkey", generation + 1, second), *self.system("key", 32, self.state + 96, generation=generation),
                self.point("vnew", generation + 1, second)]

    def blocks(self, held, counter=0, blocks=2, second=False):
        return self.point("vblocks", held, second, counter=counter, blocks=blocks)

    def end(self, held, published, second=False):
        return self.point("vend", held, second, published=published)

    def leave(self, value=VALUE, result=None, flags=0, **fields):
        return self.stop("vleave", result=len(value) // 2 if result is None else result, flags=flags, value=value, who=who(self.process),
                         **fields)

    def whole(self, generation=1, value=VALUE, **fields):
        """A call that takes a key, and holds."""
        return [self.begin(len(value) // 2, **fields), self.look(fields.get("generation", 0), generation + 1), *self.key(generation),
                self.blocks(generation + 1), self.end(generation + 1, generation + 1), self.leave(value)]


def reseed(generation, stack=40):
    return [enter("reseed", 700, 0, stack), step("extract", 0, stack, hw=HARDWARE), step("install", 0, stack, generation=generation),
            leave("reseed", 700, 0, stack)]


def converted(stops):
    events, _, notes = convert.read([*ready(), *stops])
    script = convert.Script(events, convert.LIMIT)
    return script.lines[2:], [(number - 2, *rest) for number, *rest in script.values], notes, script


class Whole(unittest.TestCase):
    """Calls that one event shows, with all their acts."""

    def test_key_and_batch(self):
        it = Program()
        stops = [it.mapped(), *it.whole(), it.begin(8, wiped=False, generation=2, pos=40), it.look(2, 2), it.point("vserve", 2),
                 it.end(2, 2), it.leave("0c" * 8)]
        lines, values, _, script = converted(stops)
        self.assertEqual(lines, ["vread 40 0", "vread 8 0"])
        self.assertEqual(values, [(0, VALUE), (1, "0c" * 8)])
        self.assertEqual([row[3:] for row in script.who], [(7, 7, "task", "vgetrandom", "init")] * 2)
        self.assertEqual(script.head(1)[0], "rngscript 2")

    def test_states_have_numbers(self):
        one, other, third = Program(), Program(state=PAGE + 144), Program(mm=6, process=8)
        stops = [one.mapped(), *one.whole(), *other.whole(), *third.whole()]
        lines, _, _, script = converted(stops)
        self.assertEqual(lines, ["vread 40 0", "state 1", "vread 40 0", "state 2", "vread 40 0"])
        again = [it.begin(8, wiped=False, generation=2, pos=40) for it in (one, other)]
        more = [again[0], one.look(2, 2), one.point("vserve", 2), one.end(2, 2), one.leave("0c" * 8),
                again[1], other.look(2, 2), other.point("vserve", 2), other.end(2, 2), other.leave("0d" * 8)]
        lines, _, _, script = converted([*stops, *more])
        self.assertEqual(lines, ["vread 40 0", "state 1", "vread 40 0", "state 2", "vread 40 0", "state 0", "vread 8 0", "state 1",
                                 "vread 8 0"])
        self.assertEqual(script.head(1)[0], "rngscript 3")

    def test_reseed_inside(self):
        it = Program()
        stops = [it.mapped(), it.begin(), it.look(0, 2), *it.key(), *reseed(2), it.blocks(2), it.end(2, 3), it.look(2, 3, True),
                 *it.key(2, True), it.blocks(3, 2, second=True), it.end(3, 3, True), it.leave()]
        lines, values, notes, _ = converted(stops)
        self.assertEqual(lines, [f"hw {HARDWARE}", "inside 3 reseed", "vread 40 0"])
        self.assertEqual(values, [(2, VALUE)])
        self.assertEqual(notes["shown inside: reseed at point 3"], 1)

    def test_nested_call(self):
        it, inner = Program(), Program(pointer=TOP - 2000)
        nested = [inner.begin(24, wiped=False, generation=2, mark=1), *inner.system("all", 24, 77, value="0c" * 24, stack=31),
                  inner.leave("0c" * 24)]
        stops = [it.mapped(), it.begin(), it.look(0, 2), *it.key(), *nested, it.blocks(2), it.end(2, 2), it.leave()]
        lines, values, _, _ = converted(stops)
        self.assertEqual(lines, ["inside 3 vread 24", "vread 40 0"])
        self.assertEqual(values, [(0, "0c" * 24), (1, VALUE)])

    def test_wipe_at_a_point(self):
        it = Program()
        stops = [it.mapped(), it.begin(), it.look(0, 2), *it.key()[:-1], it.point("vnew", 0), it.blocks(0), it.end(0, 2),
                 it.look(0, 2, True), *it.key(1, True), it.blocks(2, 2, second=True), it.end(2, 2, True), it.leave()]
        self.assertEqual(converted(stops)[0], ["inside 2 wipe", "vread 40 0"])

    def test_no_bytes_and_bad_flags(self):
        it = Program()
        stops = [it.mapped(), it.begin(0), it.leave("", 0), it.begin(9, 8), it.leave("", -22)]
        self.assertEqual(converted(stops)[0], ["vread 0 0", "vread 9 8"])


class Parts(unittest.TestCase):
    """Calls that the script shows in another form, with the same bytes."""

    def test_two_reseeds_inside(self):
        it = Program()
        stops = [it.mapped(), it.begin(), it.look(0, 2), *it.key(), *reseed(2), *reseed(3), it.blocks(2), it.end(2, 4),
                 it.look(2, 4, True), *it.key(3, True), it.blocks(4, 2, second=True), it.end(4, 4, True), it.leave()]
        lines, values, notes, _ = converted(stops)
        self.assertEqual(lines, ["read 32 0", f"hw {HARDWARE}", "reseed", f"hw {HARDWARE}", "reseed", "vread 168 0"])
        self.assertEqual(values, [(0, KEY), (5, VALUE, 128)])
        self.assertEqual(notes["shown as the end of a longer read"], 1)

    def test_long_values_have_a_digest(self):
        it = Program()
        stops = [it.mapped(), *it.whole()[:-1], it.leave(digest="ee" * 32)]
        self.assertEqual(converted(stops)[1], [(0, VALUE, 0, "ee" * 32)])

    def test_call_that_goes_on_in_a_child(self):
        it, child = Program(), Program(mm=6, process=8)
        stops = [it.mapped(), it.begin(), it.look(0, 2), *it.key(), child.blocks(0), child.end(0, 2), child.look(0, 2, True),
                 *child.key(1, True), child.blocks(2, 2, second=True), child.end(2, 2, True), child.leave("0c" * 40),
                 it.blocks(2), it.end(2, 2), it.leave()]
        lines, values, _, _ = converted(stops)
        self.assertEqual(lines, ["vread 40 0", "state 1", "vread 168 0"])
        self.assertEqual(values, [(0, VALUE), (2, "0c" * 40, 128)])

    def test_no_attempt_holds(self):
        it = Program()
        stops = [it.mapped(), it.begin(), it.look(0, 2), *it.key(), *reseed(2), it.blocks(2), it.end(2, 3), it.look(2, 3, True),
                 *it.key(2, True), *reseed(3), it.blocks(3, 2, second=True), it.end(3, 4, True),
                 *it.system("all", 40, 1, generation=3, value=VALUE), it.leave()]
        lines, values, notes, _ = converted(stops)
        self.assertEqual([it for it in lines if it[:2] != "hw"], ["read 32 0", "reseed", "read 32 0", "reseed", "read 40 0"])
        self.assertEqual(values[-1][1], VALUE)
        self.assertEqual(notes, {"shown as the reads that it made: no attempt held": 1})


class LeftOut(unittest.TestCase):
    """Calls that a script cannot show are counted."""

    def test_call_inside_on_a_wiped_state(self):
        it, inner = Program(), Program(pointer=TOP - 2000)
        nested = [inner.begin(24), inner.look(0, 2), *inner.key(), inner.blocks(2), inner.end(2, 2), inner.leave("0c" * 24)]
        stops = [it.mapped(), it.begin(), it.look(0, 2), *it.key(), *nested, it.blocks(2), it.end(2, 2), it.leave(),
                 it.begin(8, wiped=False, generation=2, pos=40), it.look(2, 2), it.point("vserve", 2), it.end(2, 2), it.leave("0c" * 8)]
        lines, _, notes, _ = converted(stops)
        self.assertEqual(lines, ["read 32 0", "read 32 0"])
        self.assertEqual(notes, {"not shown: one inside another on a state that had been wiped": 2,
                                 "not shown: the content of its state is not known": 1})

    def test_more_states_than_a_caller_has(self):
        all_of = [Program(state=PAGE + 144 * it) for it in range(17)]
        stops = [all_of[0].mapped()]
        for it in all_of:
            stops += it.whole()
        for it in all_of:
            stops += [it.begin(8, wiped=False, generation=2, pos=40), it.look(2, 2), it.point("vserve", 2), it.end(2, 2), it.leave("0c" * 8)]
        lines, _, notes, _ = converted(stops)
        self.assertEqual(notes["not shown: more states at once than a caller has"], 2)
        self.assertEqual(lines.count("read 32 0"), 1)
        self.assertEqual(lines.count("vread 40 0"), 16)

    def test_call_without_an_end(self):
        it = Program()
        self.assertEqual(converted([it.mapped(), *it.whole()[:-1]])[0], ["read 32 0"])


class NotReady(unittest.TestCase):
    def test_answers_before_the_core_is_ready(self):
        it = Program()
        source = {"flags": 1, "wanted": 20, "buffer": 1, "ip": VDSO + 9, "sp": TOP - 80, "mm": 5, "early": True}
        eager = [it.begin(20, 1), enter("getrandom", 900, 0, 30, who=who(), **source),
                 {"stop": "answer", "call": "getrandom", "stack": 30, "pointer": 900, "result": -11}, it.leave("", -11, 1)]
        careless = [it.begin(20, 4), enter("getrandom", 900, 0, 30, who=who(), **dict(source, flags=4)),
                    enter("uread", 800, 0, 30, count=20), step("extract", 0, 30, hw=HARDWARE), step("draw", 0, 30),
                    leave("uread", 800, 0, 30, value="0c" * 20), it.leave("0c" * 20, flags=4)]
        events, _, _ = convert.read([it.mapped(), *eager, *careless, *ready()])
        script = convert.Script(events, convert.LIMIT)
        self.assertEqual(script.lines, ["vread 20 1", f"hw {HARDWARE}", "vread 20 4", f"hw {HARDWARE}", "credit 256"])
        self.assertEqual([row[0] for row in script.who], [0, 2])


if __name__ == "__main__":
    unittest.main()

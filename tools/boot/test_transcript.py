"""Tests of transcript.py on small records that are made by hand. Places and stamps follow from the order of the stops."""

import unittest

import transcript
from test_convert import HARDWARE, READ, enter, kernel_read, leave, mix, ready, reseed, step, take
from test_vdso_calls import KEY, Program
from test_vdso_calls import reseed as other_reseed


def made(stops, cpus=2):
    reader, _ = transcript.reader_of(stops)
    callers, _ = transcript.callers_of(reader)
    script, lines = transcript.texts_of(callers, cpus)
    return script[2:-1], lines[1:-1]


class Transcript(unittest.TestCase):
    def test_one_caller(self):
        fill = kernel_read(1, None, steps=("refill", "serve"), count=96, by="get_random_u32")
        script, lines = made([*ready(), *fill, take(1, "01020304"), take(1, "05060708")], 1)
        self.assertEqual(script, ["caller 0", f"hw {HARDWARE}", "credit 256", "int32", "int32"])
        self.assertEqual(lines, ["0.0 hw ok - -", "0.1 credit ok p:0@1,p:1@2,b:0@3 -", "0.2 int32 ok ~1,~1,b:1@4,c0:0@5 01020304",
                                 "0.3 int32 ok ~1,~1,c0:1@6 05060708", "0.4 end ok b:2@7 -"])

    def test_sample_between_the_steps_of_a_reseed_stays_there(self):
        stops = [*ready(), *reseed(2, between=[mix("61", cpu=1)])]
        script, lines = made(stops)
        self.assertEqual(script, ["caller 0", "fork 1", f"hw {HARDWARE}", "credit 256", f"hw {HARDWARE}", "reseed", "caller 1", "write 61"])
        self.assertEqual(lines[4], "0.4 reseed ok ~1,p:2@5,b:2@7 -")
        self.assertEqual(lines[6], "1.0 write ok p:3@6 -")

    def test_call_inside_another_one_is_a_further_callers(self):
        begun, served, ended = kernel_read(1, "0a0a0a0a", steps=("refill",))
        inner = kernel_read(1, "0b0b0b0b", steps=("serve",))
        inner = [dict(stop, stack=99) for stop in inner]
        script, lines = made([*ready(), begun, served, *inner, step("serve", generation=1), ended], 1)
        self.assertEqual(script[-2:], ["caller 1", "kread 4"])
        self.assertEqual(lines[3], "0.3 kread ok ~1,~1,b:2@5,c0:1@7 0a0a0a0a")
        self.assertEqual(lines[5], "1.0 kread ok ~1,~1,c0:0@6 0b0b0b0b")

    def test_early_key_has_its_root_before_the_base(self):
        stops = [enter("credit", 1000, bits=200), step("credit", was=0), step("early"), step("extract", hw=HARDWARE), leave("credit", 1000)]
        self.assertEqual(made(stops, 1)[1][1], "0.1 credit ok p:0@1,p:1@2,b:0@3 -")

    def test_bytes_that_are_missing_are_refused(self):
        stops = [enter("kread", READ, by="a_driver", count=9), step("draw"), leave("kread", READ, value="0a")]
        with self.assertRaisesRegex(transcript.Refused, "1 of its bytes"):
            made(stops, 1)


class Vgetrandom(unittest.TestCase):
    """A state is a caller. Its bytes are the keystream of its key: 96 for the batch, 32 for the next key."""

    def stream(self, start, count):
        return transcript.replay.keystream(bytes.fromhex(KEY), start, count).hex()

    def test_key_and_batch(self):
        it = Program()
        batch = [it.begin(8, wiped=False, generation=2, pos=40), it.look(2, 2), it.point("vserve", 2), it.end(2, 2)]
        stops = [*ready(), it.mapped(), *it.whole(value=self.stream(0, 40)), *batch, it.leave(self.stream(40, 8))]
        script, lines = made(stops, 1)
        self.assertEqual(script[-3:], ["caller 1", "vread 40 0", "vread 8 0"])
        self.assertEqual(lines[-3:], [f"1.0 vread ok ~1,~1,~1,~1,c0:0@5,~1 {self.stream(0, 40)}", f"1.1 vread ok ~1 {self.stream(40, 8)}",
                                      "1.2 end ok b:3@7 -"])

    def two_attempts(self, value):
        """Both keys are the same here; the counter goes on, so the second attempt serves from block 2 on."""
        it = Program()
        return [*ready(), it.mapped(), it.begin(), it.look(0, 2), *it.key(), *other_reseed(2), it.blocks(2), it.end(2, 3),
                it.look(2, 3, True), *it.key(2, True), it.blocks(3, 2, second=True), it.end(3, 3, True), it.leave(value)]

    def test_reseed_inside_is_another_callers(self):
        script, lines = made(self.two_attempts(self.stream(128, 40)), 1)
        self.assertEqual(script[-4:], [f"hw {HARDWARE}", "reseed", "caller 1", "vread 40 0"])
        self.assertEqual(lines[-2], f"1.0 vread ok ~1,~1,~1,~1,c0:0@5,~2,~2,~2,~2,c0:1@8,~2 {self.stream(128, 40)}")

    def test_other_bytes_are_refused(self):
        with self.assertRaisesRegex(transcript.Refused, "not those"):
            made(self.two_attempts(self.stream(0, 40)), 1)

    def test_calls_that_are_no_line(self):
        it = Program()
        short = [it.begin(40), it.look(0, 2), *it.key(), *other_reseed(2), it.blocks(2), it.end(2, 3), it.look(2, 3, True),
                 *it.key(2, True), *other_reseed(3), it.blocks(3, 2, second=True), it.end(3, 4, True),
                 *it.system("all", 40, 1, generation=3, value="0a" * 40), it.leave("0a" * 16)]
        reader, _ = transcript.reader_of([*ready(), it.mapped(), *short])
        callers, left = transcript.callers_of(reader)
        self.assertEqual(left, {"a signal cut its system call short": 1})
        self.assertEqual(callers[0][-1].event, "read 16 0")


if __name__ == "__main__":
    unittest.main()

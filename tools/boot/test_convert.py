"""Tests of convert.py on small records that are made by hand. The expected scripts follow from docs/RECORDING.md."""

import unittest

import convert

HARDWARE = "ab" * 32
CREDIT, RESEED, READ, INTEGER = 1000, 900, 800, 700  # stack pointers of calls


def enter(call, pointer, cpu=0, stack=0, by="a_driver", **fields):
    return {"stop": "enter", "call": call, "pointer": pointer, "cpu": cpu, "stack": stack or 10 + cpu, "by": by, **fields}


def leave(call, pointer, cpu=0, stack=0, value=None):
    return {"stop": "leave", "call": call, "pointer": pointer, "cpu": cpu, "stack": stack or 10 + cpu, "value": value}


def step(name, cpu=0, stack=0, **fields):
    return {"stop": name, "cpu": cpu, "stack": stack or 10 + cpu, **fields}


def mix(data, by="a_driver", cpu=0):
    return step("mix", cpu, by=by, data=data)


def ready(generation=1):
    """A credit that makes the core ready."""
    return [
        enter("credit", CREDIT, bits=256),
        step("credit", was=0),
        enter("reseed", RESEED, by="_credit_init_bits.part.0"),
        step("extract", hw=HARDWARE),
        step("install", generation=generation),
        leave("reseed", RESEED),
        leave("credit", CREDIT),
    ]


def reseed(generation, cpu=0, between=()):
    """A reseed, with other stops between its two steps."""
    first, last = step("extract", cpu, hw=HARDWARE), step("install", cpu, generation=generation)
    return [enter("reseed", RESEED, cpu), first, *between, last, leave("reseed", RESEED, cpu)]


def kernel_read(generation, value, cpu=0, steps=("serve",), count=4, by="a_driver"):
    noted = [step(name, cpu, generation=generation) for name in steps]
    return [enter("kread", READ, cpu, by=by, count=count), *noted, leave("kread", READ, cpu, value=value)]


def take(generation, value, cpu=0):
    return step("take", cpu, call="int32", pointer=INTEGER, generation=generation, value=value)


def converted(stops, longest=convert.LIMIT):
    return convert.script_of(convert.events_of(stops)[0], longest)


class Words(unittest.TestCase):
    """The event that each kind of call becomes."""

    def test_samples(self):
        stops = [mix("0100000000000000", "add_device_randomness"), mix("6162", "add_device_randomness"), mix("63")]
        self.assertEqual(converted(stops), (["device 1 6162", "write 63"], []))

    def test_sample_of_no_bytes(self):
        stops = [mix("ff00000000000000", "add_device_randomness"), mix("", "add_device_randomness"), mix("")]
        self.assertEqual(converted(stops)[0], ["device 255 -", "write -"])

    def test_credit_that_makes_the_core_ready(self):
        self.assertEqual(converted(ready()), ([f"hw {HARDWARE}", "credit 256"], []))

    def test_early_key(self):
        stops = [enter("credit", CREDIT, bits=200), step("credit", was=0), step("early"), step("extract", hw=HARDWARE)]
        self.assertEqual(converted([*stops, leave("credit", CREDIT)])[0], [f"hw {HARDWARE}", "credit 200"])

    def test_read_before_the_core_is_ready(self):
        stops = [enter("kread", READ, count=2), step("extract", hw=HARDWARE), step("draw")]
        stops += [leave("kread", READ, value="1234")]
        self.assertEqual(converted(stops), ([f"hw {HARDWARE}", "kread 2"], [(1, "1234")]))

    def test_integer_before_the_core_is_ready(self):
        stops = [enter("kread", READ, by="get_random_u16", count=2), step("draw"), leave("kread", READ, value="1234")]
        self.assertEqual(converted(stops), (["int16"], [(0, "1234")]))

    def test_integers_out_of_a_batch(self):
        fill = kernel_read(1, None, steps=("refill", "serve"), count=96, by="get_random_u32")
        lines, values = converted([*ready(), *fill, take(1, "01020304"), take(1, "05060708")])
        self.assertEqual(lines[2:], ["int32", "int32"])
        self.assertEqual(values, [(2, "01020304"), (3, "05060708")])

    def test_system_call_and_files(self):
        stops = ready()
        for source, fields in (("getrandom", {"flags": 4}), ("random_file", {}), ("urandom_file", {})):
            stops += [enter(source, READ, **fields), enter("uread", READ, count=8), step("serve", generation=1)]
            stops += [leave("uread", READ, value="aa" * 8)]
        self.assertEqual(converted(stops)[0][2:], ["read 8 4", "dread 8 0", "uread 8"])

    def test_caller_goes_to_the_cpu_that_served(self):
        stops = [*ready(), *kernel_read(1, "0a", cpu=1), *kernel_read(1, "0b", cpu=0)]
        self.assertEqual(converted(stops)[0][2:], ["on 1", "kread 4", "on 0", "kread 4"])

    def test_cpus_that_come(self):
        stops = [step("prepare", of=1), step("online", cpu=1, of=1)]
        self.assertEqual(converted(stops)[0], ["prepare 1", "online 1"])


class Places(unittest.TestCase):
    """The order comes from locks and generations."""

    def test_sample_between_extraction_and_install_is_after_the_reseed(self):
        stops = [*ready(), *reseed(2, between=[mix("61", cpu=1)])]
        self.assertEqual(converted(stops)[0][2:], [f"hw {HARDWARE}", "reseed", "write 61"])

    def test_read_by_the_old_generation_is_before_the_reseed(self):
        begun, served, ended = kernel_read(1, "0a", cpu=1)
        stops = [*ready(), begun, *reseed(2), served, ended]
        lines, values = converted(stops)
        self.assertEqual(lines[2:], ["on 1", "kread 4", f"hw {HARDWARE}", "reseed"])
        self.assertEqual(values, [(3, "0a")])

    def test_integer_by_the_new_generation_is_after_the_reseed(self):
        fill = kernel_read(2, None, cpu=1, steps=("refill", "serve"), count=96, by="get_random_u32")
        stops = [*ready(), *reseed(2), *fill, take(2, "0a0b0c0d", cpu=1)]
        self.assertEqual(converted(stops)[0][2:], [f"hw {HARDWARE}", "reseed", "on 1", "int32"])

    def test_cycle_is_refused(self):
        draw = [enter("kread", READ, 1, count=4), step("extract", 1, hw=HARDWARE), step("draw", 1)]
        stops = reseed(1, between=[*draw, leave("kread", READ, 1, value="0a")])
        with self.assertRaisesRegex(convert.Refused, "cycle"):
            converted(stops)


class Rest(unittest.TestCase):
    """Calls that were seen twice or cut off, and records that have no order."""

    def test_calls_that_are_met_twice(self):
        begun, served, ended = kernel_read(1, "0a")
        self.assertEqual(converted([*ready(), begun, begun, served, ended, ended])[1], [(2, "0a")])

    def test_record_that_ends_within_a_call(self):
        whole = [*ready(), mix("61")]
        self.assertEqual(converted([*whole, *reseed(2)[:2], mix("62")]), converted(whole))

    def test_script_has_no_more_events_than_asked_for(self):
        stops = [*ready(), *kernel_read(1, "0a", cpu=1), *kernel_read(1, "0b", cpu=1)]
        self.assertEqual(converted(stops, 4), (converted(stops)[0][:4], [(3, "0a")]))
        self.assertEqual(len(converted(stops, 3)[0]), 2)

    def assert_refused(self, stops, why):
        with self.assertRaisesRegex(convert.Refused, why):
            converted(stops)

    def test_refused(self):
        self.assert_refused([enter("credit", CREDIT, bits=1), step("credit", was=7)], "7")
        self.assert_refused([step("error", why="no memory")], "no memory")
        self.assert_refused([step("sleep")], "unknown")
        self.assert_refused([step("serve", generation=1)], "no call")
        self.assert_refused(kernel_read(3, "0a"), "generation 3")
        self.assert_refused([*ready(), *reseed(4)], "generation 4")
        self.assert_refused([enter("uread", READ, count=8)], "nowhere")

    def test_two_generations_in_one_call_are_refused(self):
        fill = kernel_read(1, None, count=96, by="get_random_u32")
        self.assert_refused([*ready(), *fill, *reseed(2), take(2, "01020304")], "generations")

    def test_integer_that_became_ready_within_is_refused(self):
        self.assert_refused([*ready(), *kernel_read(1, "0a", by="get_random_u32")], "steps")

    def test_crossing_without_a_reseed_is_refused(self):
        self.assert_refused([enter("credit", CREDIT, bits=256), step("credit", was=0), leave("credit", CREDIT)], "steps")

    def test_sample_in_two_parts_is_refused(self):
        self.assert_refused([mix("01" * 8, "add_device_randomness"), mix("61")], "middle")


if __name__ == "__main__":
    unittest.main()

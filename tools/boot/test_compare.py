"""Tests of compare.py on lines that are made by hand."""

import unittest

import compare

TRANSCRIPT = [line.split(" ") for line in ("0.0 write ok p:0@1 -", "0.1 int32 ok ~0 01020304", "0.2 read EAGAIN ~0 -")]


class Compared(unittest.TestCase):
    def test_values(self):
        self.assertEqual(compare.values_of("1 01020304\n7 aa\n"), [(1, "01020304"), (7, "aa")])

    def test_equal_and_other(self):
        self.assertEqual(compare.compare([(1, "01020304"), (1, "0102"), (1, "0103")], TRANSCRIPT), ([0], [1, 2]))

    def test_call_that_failed_is_not_equal(self):
        self.assertEqual(compare.compare([(2, "")], TRANSCRIPT), ([], [0]))

    def test_first_that_differs_is_printed(self):
        said = compare.difference([(1, "01020305")], TRANSCRIPT, 0)
        self.assertIn("event 1, int32", said)
        self.assertIn("01020305", said)
        self.assertIn("01020304", said)

    def test_one_digit_is_changed(self):
        self.assertEqual(compare.changed("rngscript 2\nwrite -\nwrite ab\nend\n"), "rngscript 2\nwrite -\nwrite a0\nend\n")
        self.assertEqual(compare.changed("device 5 10\n"), "device 5 11\n")

    def test_script_without_a_sample_cannot_be_changed(self):
        with self.assertRaises(compare.command.Fault):
            compare.changed("rngscript 2\nend\n")

    def test_values_that_are_none(self):
        for text in ("1 01020304\nnonsense\n", "1 0102zz\n", "x 01\n", "-1 01\n", "1" * 5000 + " 01\n", "<html>\n"):
            with self.assertRaises(compare.command.Fault):
                compare.values_of(text)

    def test_values_of_another_script(self):
        with self.assertRaises(compare.command.Fault):
            compare.compare([(3, "aa")], TRANSCRIPT)


if __name__ == "__main__":
    unittest.main()

"""Tests of how the tools of this folder end: with a line and a status, whatever input they get."""

import gzip
import os
import shutil
import subprocess
import sys
import tempfile
import unittest

HERE = os.path.dirname(os.path.abspath(__file__))
STOP = '{"stop": "mix", "by": "a", "data": "aa", "cpu": 0, "stack": 1}\n'
FOREIGN = {
    "nothing": "", "words": "no record\n", "a list": "[1, {}\n{}\n", "no stop": "{}\n", "another stop": '{"stop": 5}\n',
    "a stop without its fields": '{"stop": "mix"}\n', "an unknown stop": '{"stop": "other"}\n',
    "fields of another kind": STOP.replace('"aa"', "[7]"),
}


class Ends(unittest.TestCase):
    def setUp(self):
        self.room = tempfile.mkdtemp()
        self.addCleanup(shutil.rmtree, self.room)

    def path(self, name, content=None):
        path = os.path.join(self.room, name)
        if content is not None:
            with open(path, "wb") as file:
                file.write(content if isinstance(content, bytes) else content.encode())
        return path

    def run_tool(self, tool, words, redirected="", **more):
        # -S: the tools need only Python's own library, and each of these runs starts faster without the rest.
        command = ["sh", "-c", f'exec "$@" {redirected}', "sh", sys.executable, "-S", "-B", os.path.join(HERE, tool), *words]
        return subprocess.run(command, capture_output=True, text=True, timeout=60, check=False, **more)

    def assert_line(self, ran, status, *said):
        self.assertEqual(ran.returncode, status, ran.stderr)
        self.assertNotIn("Traceback", ran.stderr)
        for it in said:
            self.assertIn(it, ran.stdout + ran.stderr)

    def converted(self, record, redirected=""):
        return self.run_tool("convert.py", [record, "1", self.path("script"), self.path("values")], redirected)

    def assert_usage(self, tool):
        for words in ([], ["one"], ["1", "2", "3", "4", "5", "6"], ["--nonsense"]):
            self.assert_line(self.run_tool(tool, words), 2, f"usage: {tool}")
        self.assert_line(self.run_tool(tool, ["--help"]), 0, f"usage: {tool}")

    def test_words_of_compare(self):
        self.assert_usage("compare.py")

    def test_words_of_convert(self):
        self.assert_usage("convert.py")

    def test_words_of_transcript(self):
        self.assert_usage("transcript.py")

    def test_words_of_who(self):
        self.assert_usage("who")

    def test_other_words(self):
        self.assert_line(self.run_tool("recorder.py", []), 1, "tools/boot/record starts gdb")
        for cpus in ("0", "65", "many"):
            self.assert_line(self.run_tool("convert.py", ["a", cpus, "b", "c"]), 2, "from 1 to 64")

    def test_files_that_are_not_there(self):
        for tool, words in (("compare.py", []), ("convert.py", ["1", "a", "b"]), ("transcript.py", ["1", "a", "b"]), ("who", ["a", "b"])):
            ran = self.run_tool(tool, ["/nowhere", *words] if words else ["/nowhere", "/nowhere"])
            self.assert_line(ran, 2, f"{tool}: /nowhere: No such file")
        self.assert_line(self.run_tool("convert.py", [self.path("one", STOP), "1", "/nowhere/s", "b"]), 2, "/nowhere/s")

    def test_foreign_records(self):
        self.assert_line(self.converted(self.path("record", STOP)), 0, "1 stops")
        for name, content in FOREIGN.items():
            with self.subTest(name):
                ran = self.converted(self.path("record", content))
                self.assert_line(ran, 1 if "refused: " in ran.stdout else 2, "stop")

    def test_damaged_records(self):
        whole = gzip.compress(STOP.encode() * 100)
        for content in (b"\xff\xfe}\n", whole, whole[:-9], b"no gzip\n"):
            with self.subTest(content[:9]):
                ran = self.converted(self.path("record.gz" if content[:1] != b"\xff" else "record", content))
                self.assert_line(ran, 0 if content == whole else 2)

    def test_closed_streams(self):
        record = self.path("record", STOP)
        self.assert_line(self.converted(record, ">&-"), 2, "standard output is closed")
        self.assert_line(self.converted(record, ">/dev/full"), 2, "standard output: No space")
        self.assert_line(self.converted(record, "2>&-"), 0)
        self.assertEqual(self.converted(self.path("record", "no record"), "2>&-").returncode, 2)

    def test_programs_that_do_not_answer(self):
        words = [self.path("script", "rngscript 1\n"), self.path("values", "0 aa\n")]
        for program, said in (("/nowhere", "/nowhere: No such file"), ("false", "ended with status 1")):
            ran = self.run_tool("compare.py", words, env=dict(os.environ, RNG=program))
            self.assert_line(ran, 2, said)

    @unittest.skipUnless(shutil.which("gdb"), "there is no gdb")
    def test_recorder_without_its_environment(self):
        command = ["gdb", "-nx", "-batch", "-x", os.path.join(HERE, "recorder.py")]
        ran = subprocess.run(command, capture_output=True, text=True, timeout=60, check=False, stdin=subprocess.DEVNULL)
        self.assert_line(ran, 1, "recorder.py: 'BOOT_STUB' is missing")


if __name__ == "__main__":
    unittest.main()

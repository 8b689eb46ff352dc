"""Tests of who: the rows list the processes that were served before the core was ready, that waited, and that got EAGAIN."""

import contextlib
import importlib.machinery
import importlib.util
import io
import json
import os
import sys
import tempfile
import unittest
from unittest import mock

HERE = os.path.dirname(os.path.abspath(__file__))
LOADER = importlib.machinery.SourceFileLoader("who", os.path.join(HERE, "who"))
who = importlib.util.module_from_spec(importlib.util.spec_from_loader("who", LOADER))
sys.modules["who"] = who
LOADER.exec_module(who)
SCRIPT = ["rngscript 2", "cpus 1", "caller 0", "int32", "read 8 1", "read 8 4", "credit 256", "read 40 0", "read 4 0", "end"]
TRANSCRIPT = ["rngtranscript 1", "0.0 int32 ok ~0,p:0@1,b:0@2 01020304", "0.1 read EAGAIN ~0 -", "0.2 read ok ~0,p:1@3,b:1@4 0102030405060708",
              "0.3 credit ok p:2@5,p:3@6,b:2@7 -", f"0.4 read ok ~1,~1,b:3@8,c0:0@9 {'0a' * 40}", "0.5 read ok ~1,~1,c0:1@10 01020304",
              "0.6 end ok b:4@11 -", "end"]
WHO = ["0 0 - 0 0 task start_kernel swapper", "1 100 100 7 7 task getrandom eager", "2 110 110 8 8 task getrandom careless",
       "4 150 120 9 10 task getrandom patient", r"5 200 - 11 11 task getrandom a\x20name"]


class Ran:
    """A run of the command, in this process."""

    def __init__(self, words):
        out, err = io.StringIO(), io.StringIO()
        with contextlib.redirect_stdout(out), contextlib.redirect_stderr(err), mock.patch("sys.argv", ["who", *words]):
            try:
                who.command.end("who", who.main)
            except SystemExit as end:
                self.returncode = end.code
        self.stdout, self.stderr = out.getvalue(), err.getvalue()


class Who(unittest.TestCase):
    def run_who(self, script=SCRIPT, transcript=TRANSCRIPT, who=WHO, words=()):
        with tempfile.TemporaryDirectory() as room:
            paths = [os.path.join(room, name) for name in ("script", "transcript", "who")]
            for path, lines in zip(paths, (script, transcript, who)):
                with open(path, "w") as file:
                    file.write("".join(f"{line}\n" for line in lines))
            with mock.patch("who.command.let_go_of_output"):
                return Ran([*words, *paths])

    def test_outcomes(self):
        ran = self.run_who(words=["--json"])
        calls = json.loads(ran.stdout)["calls"]
        self.assertEqual([(it["name"], it["outcome"], it["waited"]) for it in calls], [
            ("swapper", "before", None), ("eager", "EAGAIN", None), ("careless", "before", None), ("patient", "waited", 30),
            (r"a\x20name", "after", None)])

    def test_table(self):
        ran = self.run_who()
        self.assertEqual((ran.returncode, ran.stderr), (0, ""))
        rows = [" ".join(line.split()) for line in ran.stdout.splitlines()]
        self.assertIn("7 eager 0 1 0 0 - 0 100 getrandom", rows)
        self.assertIn("8 careless 1 0 0 0 - 8 110 getrandom", rows)
        self.assertIn("9 patient 0 0 1 0 30 40 150 getrandom", rows)
        self.assertIn("start_kernel 1 0 4 0 int32", rows)
        self.assertNotIn("a\\x20name", ran.stdout)
        self.assertIn("a\\x20name", self.run_who(words=["--all"]).stdout)

    def test_what_does_not_fit(self):
        for changes, said in (({"script": ["nonsense"]}, "SCRIPT"), ({"transcript": ["nonsense"]}, "TRANSCRIPT"),
                              ({"transcript": TRANSCRIPT[:3] + ["end"]}, "TRANSCRIPT 2"), ({"who": ["x"]}, "WHO, line 1"),
                              ({"script": SCRIPT[:3] + SCRIPT[4:]}, "in SCRIPT and `int32` in TRANSCRIPT"),
                              ({"transcript": TRANSCRIPT[:1] + TRANSCRIPT[2:]}, "TRANSCRIPT, line 2"),
                              ({"who": WHO[:1] + ["0 100 100 7 7 task getrandom eager"]}, "line 2: event 0 is `int32`, and no call of getrandom"),
                              ({"who": ["3 100 - 0 0 task start_kernel swapper"]}, "event 3 is `credit`, and no call of start_kernel")):
            ran = self.run_who(**changes)
            self.assertEqual(ran.returncode, 2, changes)
            self.assertIn(said, ran.stderr)
            self.assertNotIn("Traceback", ran.stderr)


if __name__ == "__main__":
    unittest.main()

"""rng-under --sweep: runs a program again and again, in each case into which a kernel can bring it, and judges each
run.

docs/CALLERS.md describes the cases and the verdicts; man/rng-under.1 is the short form.
"""

import collections
import contextlib
import json
import os
import shlex
import shutil
import signal
import sys
import time

import cases
import verdicts
from sweep_runs import Runner, Program, be_reaper, some

WELL_DONE, IS_BAD, OWN, INTERRUPTED = 0, 1, 125, 130
POINTS = 24
WITHOUT_SWEEP = ("json", "only", "jobs", "seconds", "input")
ALONE = ("record", "asked", "stats", "seed", "most", "still")


def add_arguments(parser):
    more = parser.add_argument_group("a sweep of all cases")
    more.add_argument("--sweep", action="store_true",
                      help="runs the program in each case that a kernel can bring it into, and prints a verdict for each; "
                           "{dir} in ARGS is a new folder at each run, and its files count as output")
    more.add_argument("--only", metavar="CASES",
                      help="with --sweep: these cases, separated by commas: names such as EPERM or late:2, patterns such "
                           "as 'late:*', or lawful (the default), combined, unlawful, all")
    more.add_argument("--jobs", metavar="N", type=int,
                      help="with --sweep: runs at the same time; the default is the number of processors")
    more.add_argument("--seconds", metavar="N", type=float,
                      help="with --sweep: a run that takes longer hangs; the default is 30")
    more.add_argument("--input", metavar="FILE",
                      help="with --sweep: the standard input of each run; the default is empty input")
    more.add_argument("--json", metavar="FILE", help="with --sweep: writes a line of JSON to FILE for each case")


def problem_of(given):
    """The fault of the options, or an empty text."""
    named = vars(given)
    if not given.sweep:
        wrong = [it for it in WITHOUT_SWEEP if named[it] is not None]
        return f"--{wrong[0]} is an option of --sweep" if wrong else ""
    wrong = [it for it in ALONE if named[it]] + (["prologue"] if given.prologue != "ready" else [])
    if wrong:
        return f"--sweep goes without --{wrong[0]}, which each of its runs has"
    if (given.jobs is not None and given.jobs < 1) or (given.seconds is not None and given.seconds <= 0):
        return "--jobs and --seconds want a number above 0"
    if not shutil.which(given.words[0]):
        return f"{given.words[0]} is not found"
    if given.input and not os.access(given.input, os.R_OK):
        return f"{given.input} cannot be read"
    return ""


# ---- The report -------------------------------------------------------------------------------------------------

def as_text(data):
    """A program's output, on one line."""
    text = data.decode(errors="backslashreplace").rstrip("\n")
    return "".join(it if it.isprintable() else repr(it)[1:-1] for it in text)


class Report:
    """Rows in the order of the cases, a line of progress on a terminal, and lines of JSON."""

    def __init__(self, program, command, json_file):
        self.program, self.command, self.json_file = program, command, json_file
        self.is_terminal = sys.stderr.isatty()
        self.began = time.monotonic()
        self.count, self.findings, self.printed = 0, [], 0

    def begin(self, base, chosen, points):
        self.order = [it.name for it in chosen]
        self.count = len(chosen)
        print(f"{shlex.join(self.program.words)}: {some(len(base.requests), 'request')}, {some(base.served, 'byte')}, "
              f"{some(self.count, 'case')}")
        if len(points) < len(base.requests):
            print("requests tried: " + ", ".join(map(str, points)))
        for line in verdicts.not_held(base.one):
            print(line)
        if not base.is_still:
            print("its clock goes on: with the clock held still it does not end, or fails")
        if not base.depends:
            print("its output does not depend on the random bytes, so bytes are only counted")
        elif not base.is_repeatable:
            print("its output is another one at each run, so bytes are only counted")
        if not base.is_steady:
            print("it asks for more bytes at one run than at another, so fewer bytes are no verdict")
        self.save({"program": self.program.words, "requests": [it.text() for it in base.requests],
                   "tried": points, "bytes": base.served, "still": base.is_still,
                   "depends": base.depends, "repeatable": base.is_repeatable})
        self.show_progress()

    def add(self, finding):
        self.findings.append(finding)
        self.save(self.fields(finding))
        done = {it.case.name: it for it in self.findings}
        while self.printed < self.count and self.order[self.printed] in done:
            self.row(done[self.order[self.printed]])
            self.printed += 1
        self.show_progress()

    def row(self, finding):
        self.clear()
        number, text = finding.request()
        is_odd = number and finding.runs[0].requests[number - 1].is_odd()
        text = f"request {number}: {text}; {finding.why}" if is_odd else finding.why
        print(f"{finding.case.name:16} {finding.word:8} {text}", flush=True)

    def show_progress(self):
        if not self.is_terminal or len(self.findings) == self.count:
            return
        done = len(self.findings)
        spent = time.monotonic() - self.began
        left = f", {spent / done * (self.count - done):.0f} s left" if done else ""
        print(f"\r\033[K{done} of {self.count} cases{left}", end="", file=sys.stderr, flush=True)

    def clear(self):
        if self.is_terminal:
            print("\r\033[K", end="", file=sys.stderr, flush=True)

    # ---- Each finding

    def shown_again(self, finding):
        """The command line that makes one of the case's runs again."""
        run = finding.runs[0]
        words = [self.command, *self.program.options(finding.case.name, run.seed, run.is_still)]
        if run.requests and len(run.requests) >= run.most:
            words += ["--most", str(run.most)]
        has_folder = any("{dir}" in word for word in self.program.words)
        program = ['"$d"'.join(shlex.quote(piece) if piece else "" for piece in word.split("{dir}")) if "{dir}" in word
                   else shlex.quote(word) for word in self.program.words]
        return ("d=$(mktemp -d); " if has_folder else "") + " ".join([*map(shlex.quote, words), *program])

    def fields(self, finding):
        number, text = finding.request()
        return {"case": finding.case.name, "group": finding.case.group, "verdict": finding.word, "why": finding.why,
                "request": number, "met": text, "command": self.shown_again(finding),
                "runs": [{"seed": it.seed, "status": it.status, "requests": len(it.requests), "bytes": it.served,
                          "unready": it.unready, "output": as_text(it.shown), "error": it.err[-400:],
                          "seconds": round(it.seconds, 2)} for it in finding.runs]}

    def save(self, fields):
        if self.json_file:
            self.json_file.write(json.dumps(fields) + "\n")
            self.json_file.flush()

    def details(self, finding):
        print(f"\n{finding.case.name}: {finding.word}\n    $ {self.shown_again(finding)}")
        for run in finding.runs:
            print(f"    seed {run.seed} wrote: {as_text(run.shown) or 'nothing'}")
        said = verdicts.last_line(finding.runs[0])
        if said:
            print(f"    and on standard error: {said}")

    def end(self, is_whole):
        """Prints the remaining rows, and the command for each bad one; returns the exit status."""
        self.clear()
        place = {name: at for at, name in enumerate(self.order)} if self.count else {}
        found = sorted(self.findings, key=lambda it: place[it.case.name])
        for finding in found[self.printed:] if not is_whole else []:
            self.row(finding)
        for finding in found:
            if finding.word != verdicts.WELL:
                self.details(finding)
        counts = collections.Counter(it.word for it in found)
        sums = ", ".join(f"{word} {counts[word]}" for word in (*verdicts.ORDER, verdicts.FAILED) if counts[word])
        whole = some(len(found), "case") if is_whole else f"interrupted, after {len(found)} of {self.count} cases"
        print(f"\n{whole}: {sums or 'nothing'}", flush=True)
        self.save({"end": is_whole, "cases": len(found), "verdicts": dict(counts)})
        if not is_whole:
            return INTERRUPTED
        return OWN if counts[verdicts.FAILED] else IS_BAD if any(map(verdicts.is_bad, counts)) else WELL_DONE


# ---- The command -------------------------------------------------------------------------------------------------

class Stopped(Exception):
    """A signal came: no more runs are made."""


def stop(number, _):
    for it in (signal.SIGINT, signal.SIGTERM, signal.SIGHUP):
        signal.signal(it, signal.SIG_IGN)
    raise Stopped


def say(text):
    print(f"rng-under: {text}", file=sys.stderr, flush=True)


def swept(given, program, runner, report):
    base, hindrance = next(runner.results([verdicts.tried(program)]))
    if not base:
        say(hindrance)
        return OWN
    only = [it for it in (given.only or cases.LAWFUL).split(",") if it]
    chosen, points = cases.cases_of(base.requests, only, POINTS)
    if not chosen:
        say(f"--only {given.only}: no such case")
        return OWN
    report.begin(base, chosen, points)
    for finding in runner.results(verdicts.judged(it, base, program) for it in chosen):
        report.add(finding)
    return report.end(is_whole=True)


def sweep_in(room, given, command, json_file):
    program = Program(given, command, room)
    runner = Runner(given.jobs or len(os.sched_getaffinity(0)))
    report = Report(program, command, json_file)
    try:
        return swept(given, program, runner, report)
    except Stopped:
        runner.stop()
        return report.end(is_whole=False)
    finally:
        runner.stop()


def main(given, command, room):
    """Sweeps in an existing folder, and returns the exit status. Raises OSError if a file cannot be made."""
    given.seconds = given.seconds or 30
    for number in (signal.SIGINT, signal.SIGTERM, signal.SIGHUP):
        signal.signal(number, stop)
    be_reaper()
    try:
        with contextlib.ExitStack() as files:
            json_file = files.enter_context(open(given.json, "w", encoding="utf-8")) if given.json else None
            return sweep_in(room, given, command, json_file)
    except Stopped:
        return INTERRUPTED

"""A prologue of rng-under: events of a script, each due after a number of requests, and lines of its own kind."""

import errno
import os

LONGEST = 1 << 20  # bytes of one read

# The errors of a prologue, each with the requests that it answers, as a bit for each word of mailbox.h.
CALL, FILES = 1, 2 | 4
ANSWERS = {"EINTR": CALL | FILES, "EAGAIN": CALL | FILES, "EIO": CALL | FILES, "EFAULT": CALL | FILES,
           "EPERM": CALL, "ENOSYS": CALL, "end": FILES}
OPENS = ("ENOENT", "EACCES", "EMFILE", "ENXIO")
AT_END = 0x10000
NOT_LIVE = ("fork", "inside")


class Failed(Exception):
    """A reason why rng-under cannot go on."""


class Prologue:
    """Steps, each with the number of requests after which it is due: events, and lines of the prologue's own kind."""

    def __init__(self, path, seed):
        self.path, self.cpus, self.due = path, 1, 0
        self.steps = []  # for each, the number of requests and a line for the server
        self.events, self.places = [], []  # for each event, its text and its line in the file
        self.kinds = set()  # the kinds of errors that are due at this number of requests
        if seed:
            self.add_event(0, f"write {os.fsencode(seed).hex()}")
        with open(path, encoding="ascii", errors="replace") as file:
            lines = file.read().split("\n")
        for number, line in enumerate(lines, 1):
            if line and not line.startswith("#"):
                self.take(number, line, line.split(" "))

    def fail(self, number, why):
        raise Failed(f"{self.path}: line {number}: {why}")

    def take(self, number, line, fields):
        word, rest = fields[0], fields[1:]
        is_kept = rest[1:] == ["always"]
        may_be_kept = is_kept and word == "short"
        if word in ("cpus", "wait", "short") and not ("".join(rest[:1]).isdecimal() and (may_be_kept or not rest[1:])):
            self.fail(number, f"{word} wants one number")
        if word == "short" and not 1 <= int(rest[0]) <= LONGEST:
            self.fail(number, f"short wants a number from 1 to {LONGEST}")
        if word == "cpus":
            self.cpus = int(rest[0])
        elif word == "wait":
            self.wait(int(rest[0]))
        elif word == "short":
            self.add(f"short {int(rest[0])} {int(is_kept)}")
        elif word == "fault":
            self.take_fault(number, rest, is_kept)
        else:
            self.add_event(number, line)

    def add(self, step):
        self.steps.append((self.due, step))

    def add_event(self, number, line):
        self.add(line)
        self.events.append(line)
        self.places.append(number)

    def wait(self, count):
        self.due += count
        self.kinds = set()

    def take_fault(self, number, rest, is_kept):
        """A second error directly below the first one answers the request after it."""
        if not rest or rest[0] not in (*ANSWERS, *OPENS) or (rest[1:] and not is_kept):
            kinds = ", ".join((*ANSWERS, *OPENS))
            self.fail(number, f"fault wants one of {kinds}, and may have always after it")
        kind = rest[0]
        is_of_opens = kind in OPENS
        if is_of_opens in self.kinds:
            self.wait(1)
        self.kinds.add(is_of_opens)
        code = AT_END if kind == "end" else getattr(errno, kind)
        self.add(f"opens {code} {int(is_kept)}" if is_of_opens else f"fault {code} {ANSWERS[kind]} {int(is_kept)}")

    def script(self):
        """All its events as a script. The first event is the script's fourth line."""
        return "\n".join(["rngscript 3", f"cpus {self.cpus}", "caller 0", *self.events, "end", ""])

    def write_plan(self, path):
        with open(path, "w", encoding="ascii") as file:
            file.writelines(f"{due} {step}\n" for due, step in self.steps)

    def problem_of(self, fault):
        """The line in the file, for a line of the script in which `rng run` finds a fault."""
        line = fault.split("line ")[-1].split(",")[0]
        at = int(line) - 4 if line.isdecimal() else -1
        place = f"line {self.places[at]}" if 0 <= at < len(self.places) else "as a whole"
        return f"{self.path}, {place}: {fault}"

    def check(self, run):
        """Checks all of it before the program starts. `run` returns the message of `rng run` about a faulty script."""
        fault = run(self.script())
        if fault:
            raise Failed(self.problem_of(fault))
        for number, event in zip(self.places, self.events):
            word = event.split(" ")[0]
            if word in NOT_LIVE:
                self.fail(number, f"{word} is no event of rng live, which has one caller")

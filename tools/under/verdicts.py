"""The verdict that a case of rng-under --sweep gives on a program, by the ends and the output of the program's runs.

Each case runs with two seeds. If fewer bytes were served than without the case, or bytes of a core that was not ready,
further runs find out whether the output depends on those bytes. Such a run changes the bytes of one request and no
other, in a way that a kernel can: the request is served on another CPU, and another process reads in its place.
"""

import signal

import cases
from sweep_runs import some

WELL, REFUSES, LESS, ASKS_ON, HANGS, CRASH, WITHOUT, UNREADY, FIXED = ORDER = (
    "WELL", "REFUSES", "LESS", "ASKS-ON", "HANGS", "CRASH", "WITHOUT", "UNREADY", "FIXED")
FAILED = "FAILED"  # no verdict: the tool's own fault
SEEDS = ("1", "2")
WEIGHED = 16  # for so many requests of a run, the output is searched for their bytes
TAIL = 50


def is_bad(word):
    return word != FAILED and ORDER.index(word) > ORDER.index(REFUSES)


class Finding:
    """A case's verdict, the reason, the requests that it is about, and the runs with the two seeds."""

    def __init__(self, case, word, why, runs, point=0):
        self.case, self.word, self.why, self.runs, self.point = case, word, why, runs, point

    def request(self):
        """The number of the request and its description; 0 and nothing if there is none."""
        rows = self.runs[0].requests
        at = self.point or self.case.point
        return (at, rows[at - 1].text()) if 0 < at <= len(rows) else (0, "")


class Base:
    """The runs of the undisturbed program: a core that is ready, two seeds, and one of them once more."""

    def __init__(self, one, two, again):
        served = [it.served for it in (one, two, again)]
        self.one, self.requests, self.served = one, one.requests, min(served)
        self.is_steady = min(served) == max(served)  # otherwise fewer bytes in another run mean nothing
        self.is_still = one.is_still
        self.depends, self.is_repeatable = one.digest != two.digest, one.digest == again.digest
        self.weight = None

    def compares(self):
        """Whether the output shows which bytes were used."""
        return self.depends and self.is_repeatable

    def most(self):
        return len(self.requests) * (1 if self.is_steady else 4) + 400


# ---- How a run ended ---------------------------------------------------------------------------------------------

STILL = "rng-under: --still"


def not_held(run):
    """The messages of rng-under about things that it cannot hold still."""
    return [it[len("rng-under: "):] for it in run.err.splitlines() if it.startswith(STILL)]


def last_line(run):
    lines = [it.strip() for it in run.err.splitlines() if it.strip() and not it.startswith("rng-under: ")]
    return lines[-1][:160] if lines else ""


def first_odd(run):
    """The number of the first request that did not get the answer of a ready core."""
    return next((at for at, it in enumerate(run.requests, 1) if it.is_odd()), 0)


def waits(run):
    """Whether the program repeats a call that would wait in the kernel."""
    tail = run.requests[-TAIL:]
    return len(tail) == TAIL and all(it.is_interrupted_wait() for it in tail)


def by_its_end(run):
    """A verdict and the reason, or None if the program ended with status 0."""
    if run.is_flood:
        return HANGS, "it wrote more than 64 MiB"
    if run.is_hung:
        return HANGS, f"no end within {run.program.seconds} s, after {len(run.requests)} requests"
    own = run.own_fault()
    if own and len(run.requests) >= run.most:
        if waits(run):
            return WELL, "it waits: each wait was interrupted, and it waited again"
        return ASKS_ON, f"it asked {len(run.requests)} times, without an end"
    if own:
        return FAILED, own
    if run.status < 0:
        return FAILED, f"rng-under itself was ended by {name_of_signal(-run.status)}"
    if 128 < run.status < 160:
        return CRASH, f"it was ended by {name_of_signal(run.status - 128)}"
    if run.status:
        return REFUSES, f"status {run.status}: {last_line(run) or 'it wrote nothing on standard error'}"
    return None


def name_of_signal(number):
    try:
        return signal.Signals(number).name
    except ValueError:
        return f"signal {number}"


def worse(ends):
    found = [it for it in ends if it]
    return max(found, key=lambda it: len(ORDER) if it[0] == FAILED else ORDER.index(it[0])) if found else None


# ---- Which bytes were used ---------------------------------------------------------------------------------------

def other_bytes_at(steps, point):
    """The same run, but request `point` gets other bytes: those of CPU 1, while CPU 0 serves another process."""
    return [*steps, (point - 1, "uread 1"), (point - 1, "on 1"), (point, "on 0")]


def other_early_bytes(steps):
    """The same run, but before it another process has read one byte of the early core. A ready core's bytes stay the
    same."""
    at = next(place for place, (_, line) in enumerate(steps) if line == cases.EARLY)
    return [*steps[:at + 1], (0, "uread 1"), *steps[at + 1:]]


def counted(run):
    return sum(it.served for it in run.requests if not it.is_mallocs())


def weight_of(case, one, compares, run_of):
    """How many of the bytes that a run was served its output depends on; all, if this does not show."""
    served = [at for at, it in enumerate(one.requests, 1) if it.served and not it.is_unready]
    if not compares or len(served) > WEIGHED:
        return counted(one)
    others = (yield [run_of(case, SEEDS[0], other_bytes_at(case.steps, at)) for at in served]) if served else []
    used = [at for at, run in zip(served, others) if run.digest != one.digest or run.status != one.status]
    return sum(one.requests[at - 1].served for at in used)


def uses_unready(case, one, two, compares, run_of):
    """The reason why bytes of a core that was not ready were used, or nothing if they were not."""
    reason = f"the output depends on bytes of an unready core, {one.unready} of {one.served}"
    if not compares:
        if not sum(it.served for it in one.requests if it.is_unready and not it.is_mallocs()):
            return ""
        return f"bytes of an unready core, {one.unready} of {one.served}; whether the output depends on them does not show"
    if one.unready == one.served or not any(line == cases.EARLY for _, line in case.steps):
        return reason if one.digest != two.digest else ""
    other, = yield [run_of(case, SEEDS[0], other_early_bytes(case.steps))]
    return reason if other.digest != one.digest else ""


# ---- The verdict -------------------------------------------------------------------------------------------------

def judged(case, base, program, is_still=True):
    """The steps to a Finding."""
    is_still = is_still and base.is_still

    def run_of(of, seed, steps=None):
        return program.run(of, seed, is_still, base.most(), steps)

    one, two = yield [run_of(case, seed) for seed in SEEDS]
    runs = (one, two)
    end = worse([by_its_end(one), by_its_end(two)])
    if end and end[0] in (HANGS, ASKS_ON) and is_still:
        # If time is held still, the program may wait for a clock.
        return (yield from judged(case, base, program, is_still=False))
    if end:
        return Finding(case, *end, runs, first_odd(one))
    if one.is_silent and not base.one.is_silent:
        return Finding(case, WITHOUT, "status 0, and it wrote nothing", runs, first_odd(one))
    if base.depends and one.digest == two.digest:
        return Finding(case, FIXED, "the same output for two seeds", runs, first_odd(one))
    if not one.unready and one.served >= base.served:
        return Finding(case, WELL, f"{some(len(one.requests), 'request')}, {some(one.served, 'byte')}", runs)
    return (yield from judged_by_bytes(case, base, runs, run_of))


def judged_by_bytes(case, base, runs, run_of):
    """The case in which fewer bytes were served, or bytes of a core that was not ready."""
    one, two = runs
    again, = yield [run_of(case, SEEDS[0])]
    compares = base.compares() and again.digest == one.digest
    odd, note = first_odd(one), f"{one.served} bytes instead of {base.served}; the output needs no more"
    if one.unready:
        why = yield from uses_unready(case, one, two, compares, run_of)
        if why:
            unready = next(at for at, it in enumerate(one.requests, 1) if it.is_unready)
            return Finding(case, UNREADY, why, runs, unready)
        note = f"bytes of an unready core, {one.unready} of {one.served}; the output depends on none of them"
    if base.weight is None:
        base.weight = yield from weight_of(cases.READY_CASE, base.one, base.compares(), run_of)
    weight = yield from weight_of(case, one, compares, run_of)
    if base.weight and not weight:
        return Finding(case, WITHOUT, "status 0, and the output depends on no random byte", runs, odd)
    is_steady = base.is_steady and again.served == one.served
    if weight < base.weight and (compares or is_steady):
        return Finding(case, LESS, f"the output depends on {weight} random bytes instead of {base.weight}", runs, odd)
    return Finding(case, WELL, note, runs, odd)


def tried(program):
    """The steps to a Base, or to the reason why there is none: with clock and process numbers held still, and else without."""
    for is_still in (True, False):
        runs = yield [program.run(cases.READY_CASE, seed, is_still, 65535) for seed in (*SEEDS, SEEDS[0])]
        end = worse([by_its_end(it) for it in runs])
        if not end and any(it.is_read for it in runs[0].requests):
            return Base(*runs), ""
    if not end:
        return None, "it asked for no random byte" + ("" if program.ways else "; --supervise may see more")
    return None, f"it does not end well with nothing done to it: {end[1]}"

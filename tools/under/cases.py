"""The cases of rng-under --sweep: the effects of each on the core and on the requests, as lines of a prologue.

A case is a name, as `empty`, or a name with the number of a request, as `late:2`. `rng-under --prologue late:2` runs a
program in that case alone.
"""

import fnmatch
import re

EARLY = "add 000102030405060708090a0b0c0d0e0f 128"
READY = "add 000102030405060708090a0b0c0d0e0f101112131415161718191a1b1c1d1e1f 256"
VMFORK = "vmfork 1 00112233445566778899aabbccddeeff"
PAGE = 4096
LAWFUL, COMBINED, UNLAWFUL = GROUPS = "lawful", "combined", "unlawful"

# For each case without a number: its group, and its lines, each with the number of requests after which it is due.
WHOLE = {
    "empty": (LAWFUL, []),
    "early": (LAWFUL, [(0, EARLY)]),
    "no-device": (LAWFUL, [(0, READY), (0, "fault ENOENT always")]),
    "EPERM": (LAWFUL, [(0, READY), (0, "fault EPERM always")]),
    "ENOSYS": (LAWFUL, [(0, READY), (0, "fault ENOSYS always")]),
    "ENOSYS-early": (COMBINED, [(0, EARLY), (0, "fault ENOSYS always")]),
    "nothing": (LAWFUL, [(0, READY), (0, "fault ENOSYS always"), (0, "fault ENOENT always")]),
    "EINTR": (UNLAWFUL, [(0, READY), (0, "fault EINTR always")]),
    "EIO": (UNLAWFUL, [(0, READY), (0, "fault EIO always")]),
    "one-byte": (UNLAWFUL, [(0, READY), (0, "short 1 always")]),
}

# For each case at a request: its group, and its lines for request K, counted from 1.
AT_REQUEST = {
    "late": (LAWFUL, lambda k: [(0, EARLY), (k, READY)]),
    "interrupted": (LAWFUL, lambda k: [(0, EARLY), (k, READY)]),
    "reseed": (LAWFUL, lambda k: [(0, READY), (k - 1, "reseed")]),
    "fork": (LAWFUL, lambda k: [(0, READY), (k - 1, VMFORK)]),
    "cut": (LAWFUL, lambda k: [(0, READY), (k - 1, f"short {PAGE}")]),
    "EINTR": (UNLAWFUL, lambda k: [(0, READY), (k - 1, "fault EINTR")]),
    "EAGAIN": (UNLAWFUL, lambda k: [(0, READY), (k - 1, "fault EAGAIN")]),
    "EIO": (UNLAWFUL, lambda k: [(0, READY), (k - 1, "fault EIO")]),
    "end": (UNLAWFUL, lambda k: [(0, READY), (k - 1, "fault end")]),
    "ENOSYS": (UNLAWFUL, lambda k: [(0, READY), (k - 1, "fault ENOSYS always")]),
}


class Case:
    """A name, the number of its request (0 if it has none), its group and its steps."""

    def __init__(self, name, point, group, steps):
        self.name, self.point, self.group, self.steps = name, point, group, steps

    def lines(self):
        return lines_of_steps(self.steps)


READY_CASE = Case("ready", 0, LAWFUL, [(0, READY)])


def lines_of_steps(steps, cpus=1):
    """A prologue's lines."""
    lines, passed = [f"cpus {cpus}"], 0
    for due, line in sorted(steps, key=lambda it: it[0]):
        if due > passed:
            lines.append(f"wait {due - passed}")
            passed = due
        lines.append(line)
    return lines


def named(name):
    """The case of this name, or None."""
    if name in WHOLE:
        return Case(name, 0, *WHOLE[name])
    word, _, number = name.partition(":")
    if word not in AT_REQUEST or not re.fullmatch("[1-9][0-9]{0,4}", number):
        return None
    group, steps = AT_REQUEST[word]
    return Case(name, int(number), group, steps(int(number)))


def lines_of(name):
    """The prologue's lines of the case of this name, or None."""
    case = named(name)
    return case and case.lines()


# ---- The cases of a program -------------------------------------------------------------------------------------

def is_first_of_process(requests, at):
    return at > 0 and all(it.process != requests[at].process for it in requests[:at])


def points_of(requests, most):
    """The numbers of the reads that are tried, from 1: all, or the first of each kind and process and some in
    between."""
    count = len(requests)
    if count <= most:
        return [at for at, it in enumerate(requests, 1) if it.is_read]
    firsts, seen = [1, count], set()
    for at, it in enumerate(requests):
        kind = (it.word, it.asked, it.flags)
        if kind not in seen or is_first_of_process(requests, at):
            firsts.append(at + 1)
        seen.add(kind)
    chosen = sorted(set(firsts))[:most]
    left = most - len(chosen)
    spread = {1 + (count - 1) * it // max(1, left) for it in range(left)}
    return sorted(at for at in spread.union(chosen) if requests[at - 1].is_read)


def names_at(requests, point):
    """The names of the cases that can happen at request `point`."""
    it = requests[point - 1]
    yield "interrupted" if it.waits() else "late"
    yield "reseed"
    if is_first_of_process(requests, point - 1):
        yield "fork"
    if it.asked > PAGE:
        yield "cut"
    yield from ("EINTR", "EAGAIN", "EIO")
    if it.word != "read":
        yield "end"
    elif point > 1:
        yield "ENOSYS"


def is_chosen(case, only):
    return any(case.group == it or it == "all" or fnmatch.fnmatchcase(case.name, it) for it in only)


def cases_of(requests, only, most):
    """The cases for a program with these requests. A name in `only` that has a number is tried as it is."""
    points = points_of(requests, most)
    names = list(WHOLE) + [f"{name}:{point}" for point in points for name in names_at(requests, point)]
    names += [it for it in only if it not in names and named(it)]
    order = [*WHOLE, *(f"{name}:" for name in AT_REQUEST)]
    found = [it for it in map(named, names) if is_chosen(it, only)]
    return sorted(found, key=lambda it: (GROUPS.index(it.group), order.index(it.name.rstrip("0123456789")), it.point)), points

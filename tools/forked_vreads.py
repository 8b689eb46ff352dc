#!/usr/bin/env python3
"""Compares `rng vfork` at all points of both attempts with the bytes that the parts of tools/replay.py give.

    forked_vreads.py [LENGTH..]

The program is `rng` at the top of the repository, or the one that RNG names. If no lengths are given, they are those
near the sizes of keys, blocks and batches, up to the greatest. Parent and child must share no 16 bytes at the same
place. Each difference is printed, and the status is then 1.
"""
import copy
import os
import subprocess
import sys

import command
import replay

TOP = os.path.dirname(os.path.dirname(os.path.abspath(__file__)))
PROGRAM = os.environ.get('RNG', os.path.join(TOP, 'rng'))
LENGTHS = (1, 2, 15, 16, 31, 32, 33, 40, 63, 64, 65, 95, 96, 97, 100, 127, 128, 129, 160, 161, 192, 4096, 65537, 1048576)


class Call:
    """A vgetrandom call that has reached a point, before the acts at that point."""

    def __init__(self, length, published):
        self.length, self.published = length, published
        self.attempt, self.point, self.number, self.buffer = 1, 1, 0, b''


def advance(core, state, call):
    """Goes on to the next point, or returns the bytes if the call ends."""
    if call.point == 1 and state.generation != call.published:
        state.generation, call.point = call.published, 2
    elif call.point == 1:
        call.point = 3
    elif call.point == 2:
        state.key, state.at, call.point = core.system_call(32, 0), replay.BATCH, 3
    elif call.point == 3:
        core.number = call.number
        call.buffer = core.take(state, call.length)
        call.number, call.point = core.number, 4
    elif core.look() + 1 == state.generation:
        return call.buffer
    elif call.attempt == 1:
        call.attempt, call.point, call.published = 2, 1, core.look() + 1
    else:
        return core.system_call(call.length, 0)
    return None


def finish(core, state, call):
    found = None
    while found is None:
        found = advance(core, state, call)
    return found


def forked(point, attempt, length):
    """The bytes that parent and child give out."""
    core, state = replay.Caller(1), replay.State()
    core.mix(bytes(range(32)), 256)
    core.look()
    call = Call(length, core.look() + 1)
    while (call.attempt, call.point) != (attempt, point):
        if attempt == 2 and (call.attempt, call.point) == (1, 3):
            core.reseed()
        if advance(core, state, call) is not None:
            sys.exit('a call of %d bytes does not come to point %d of attempt %d' % (length, point, attempt))
    core.visit('b')
    child = copy.copy(call)
    return finish(core, state, call), finish(core, replay.State(), child)


def longest_run(one, other):
    run = longest = 0
    for a, b in zip(one, other):
        run = run + 1 if a == b else 0
        longest = max(longest, run)
    return longest


def compare(point, attempt, length):
    """The fault, or an empty text."""
    wanted = forked(point, attempt, length)
    done = subprocess.run([PROGRAM, 'vfork', str(point), str(attempt), str(length)], stdout=subprocess.PIPE)
    if done.returncode != 0:
        return 'status %d' % done.returncode
    if done.stdout != b'parent %s\nchild %s\n' % tuple(end.hex().encode() for end in wanted):
        return 'other bytes'
    return 'both share 16 bytes' if longest_run(*wanted) >= 16 else ''


def main():
    lengths = [int(word) for word in command.take(__doc__, 0, None, are_numbers=True)] or LENGTHS
    failed = compared = 0
    for length in lengths:
        for attempt in (1, 2):
            for point in (1, 2, 3, 4):
                problem = compare(point, attempt, length)
                compared += 1
                if problem:
                    failed += 1
                    print('vfork %d %d %d: %s' % (point, attempt, length, problem))
    print('%d forks, %d with a difference' % (compared, failed))
    sys.exit(1 if failed else 0)


if __name__ == '__main__':
    command.end('forked_vreads.py', main)

#!/usr/bin/env python3
"""Runs random scripts of 1 to 64 callers, and has their transcripts checked and replayed.

check_random.py SCRIPTS [FIRST]

Makes SCRIPTS scripts, numbered from FIRST on, which is 0 if left out. A number always gives the same script and the
same changes. The program is `rng` at the top of the repository, or the one that RNG names. For each script:

- The output of `rng run` is lawful (`rng check` prints yes). So is the same transcript with later stamps, which no run of
  a single caller writes.
- With its answers and data blanked, the transcript is replayed as it was (`rng replay`).
- With one field changed it is not lawful, and the check names one of the clauses that the change can break.

If one of these does not hold, it is printed with the script's number, and the status is 1.
"""
import os
import random
import re
import subprocess
import sys

TOP = os.path.dirname(os.path.dirname(os.path.abspath(__file__)))
sys.path.insert(0, os.path.join(TOP, 'tools', 'kernel'))
import command  # noqa: E402
from random_scripts import Maker  # noqa: E402

PROGRAM = os.environ.get('RNG', os.path.join(TOP, 'rng'))
ANSWERS = ('ok', 'EAGAIN', 'EINVAL', 'ENODATA', 'EINTR', 'fired', 'idle', 'unused')


class Callers(Maker):
    """A script of several callers: each but the first is forked by one of a lower number."""

    def __init__(self, number):
        super().__init__(number)
        self.callers = self.draw.choice((1, 2, 2, 3, 5, 8, 64))
        self.parents = [None] + [self.draw.randrange(caller) for caller in range(1, self.callers)]

    def block(self, caller):
        self.acts = 0
        count = self.draw.choice((0, 5, 20, 60, 200)) if self.callers < 9 else self.draw.choice((0, 3, 10))
        lines = []
        for _ in range(count):
            kind = self.draw.choices(self.kinds, self.weights)[0]
            lines.append(getattr(self, 'make_' + kind)())
        for child in (c for c in range(self.callers) if self.parents[c] == caller):
            lines.insert(self.draw.randint(0, len(lines)), 'fork %d' % child)
        return ['caller %d' % caller, *lines]

    def script(self):
        lines = ['rngscript 3', 'cpus %d' % self.cpus]
        for caller in range(self.callers):
            lines += self.block(caller)
        return '\n'.join(lines + ['end', ''])


def rng(word, given):
    ran = subprocess.run([PROGRAM, word], input=given.encode(), capture_output=True, timeout=120)
    return ran.returncode, ran.stdout.decode()


# ---- Changes of a line's fields, each with the clauses that may then be the first to fail --------------------------

def change_answer(draw, fields):
    return [*fields[:2], draw.choice([it for it in ANSWERS if it != fields[2]]), *fields[3:]], {5}


def change_data(draw, fields):
    data = fields[4]
    if data == '-':
        other = '7' if fields[1] == 'bits' else '00'
    elif fields[1] == 'bits':
        other = str(int(data) + 1)
    else:
        at = draw.randrange(len(data))
        other = data[:at] + draw.choice([c for c in '0123456789abcdef' if c != data[at]]) + data[at + 1:]
    return [*fields[:4], other], {6}


def visits_of(fields):
    return [n for n, step in enumerate(fields[3].split(',')) if '@' in step]


def with_step(fields, number, step):
    steps = fields[3].split(',')
    steps[number] = step
    return [*fields[:3], ','.join(steps), fields[4]]


def change_place(draw, fields):
    number = draw.choice(visits_of(fields))
    lane, rest = fields[3].split(',')[number].split(':')
    place, stamp = rest.split('@')
    return with_step(fields, number, '%s:%d@%s' % (lane, int(place) + draw.choice((1, 2, 1000)), stamp)), {3}


def change_look(draw, fields):
    looks = [n for n, step in enumerate(fields[3].split(',')) if step.startswith('~')]
    return with_step(fields, draw.choice(looks), '~%d' % (2 ** 40)), {4, 5, 7}


def change_event(draw, fields):
    caller, event = fields[0].split('.')
    return ['%s.%d' % (caller, int(event) + 1), *fields[1:]], {2}


def change_word(draw, fields):
    return [fields[0], 'tick' if fields[1] != 'tick' else 'reseed', *fields[2:]], {2} if fields[1] != 'bits' else {1, 2}


def drop_line(draw, fields):
    return None, {2}


def change(draw, line):
    """A change of the line, and the clauses of which the check has to name one."""
    fields = line.split(' ')
    able = [change_answer, change_data, change_event, change_word, drop_line]
    if visits_of(fields):
        able += [change_place] * 2
    if '~' in fields[3]:
        able += [change_look] * 2
    changed, clauses = draw.choice(able)(draw, fields)
    return changed and ' '.join(changed), clauses


def blanked(line):
    fields = line.split(' ')
    return ' '.join([*fields[:2], 'EINVAL', fields[3], '-'])


def text_of(lines):
    return '\n'.join(['rngtranscript 1', *lines, 'end', ''])


def judge(number):
    """The faults of one script, and how many lines its transcript has."""
    script = Callers(number).script()
    status, transcript = rng('run', script)
    if status:
        return ['run ended with status %d: %r' % (status, transcript[:60])], 0
    lines, found = transcript.split('\n')[1:-2], []
    if rng('check', script + transcript) != (0, 'yes\n'):
        found.append('its own transcript is not called lawful')
    if rng('check', script + re.sub('@([0-9]+)', lambda stamp: '@%d' % (int(stamp[1]) + 3), transcript)) != (0, 'yes\n'):
        found.append('with later stamps it is not called lawful')
    if rng('replay', script + text_of(map(blanked, lines))) != (0, transcript):
        found.append('its blanked transcript is not replayed as it was')
    draw = random.Random(number)
    at = draw.randrange(len(lines))
    changed, clauses = change(draw, lines[at])
    others = lines[:at] + ([changed] if changed else []) + lines[at + 1:]
    said = rng('check', script + text_of(others))
    if said not in [(1, 'no %d\n' % clause) for clause in clauses]:
        found.append('%r became %r: %r, and not one of %s' % (lines[at][:90], changed and changed[:90], said, sorted(clauses)))
    return found, len(lines)


def main():
    arguments = command.take(__doc__, 1, 2, are_numbers=True)
    count, first = int(arguments[0]), int(arguments[1]) if len(arguments) > 1 else 0
    wrong = lines = 0
    for number in range(first, first + count):
        found, some = judge(number)
        lines += some
        wrong += bool(found)
        for fault in found:
            print('script %d: %s' % (number, fault), flush=True)
        done = number - first + 1
        if done % 500 == 0 or done == count:
            print('%d scripts, %d lines: %s of them wrong' % (done, lines, wrong or 'none'), flush=True)
    return 1 if wrong or not count else 0


if __name__ == '__main__':
    command.end('check_random.py', main)

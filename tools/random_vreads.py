#!/usr/bin/env python3
"""Compares random vreads, with wipes, nested reads and reseeds inside, with the results of tools/replay.py.

    random_vreads.py [SEED [VREADS]]

SEED is 1 and VREADS is 10000 if they are left out. A seed always makes the same scripts. The program is `rng` at the
top of the repository, or the one that RNG names. Every line is compared, with its steps. If a script has a difference,
it is printed up to there, and the status is 1. The status is also 1 if, in 1000 vreads or more, some act was made at
none of the four points of a first attempt. A script's acts happen only in first attempts; tools/vread_cases has both
attempts.
"""
import os
import random
import subprocess
import sys

import command
import replay

TOP = os.path.dirname(os.path.dirname(os.path.abspath(__file__)))
PROGRAM = os.environ.get('RNG', os.path.join(TOP, 'rng'))
IN_A_SCRIPT = 100
LENGTHS = (1, 8, 31, 32, 33, 63, 64, 65, 95, 96, 97, 127, 128, 160, 161, 300)


def acts(draw):
    """The acts inside one vread: up to three, at any points and in any order."""
    for _ in range(draw.choice((0, 1, 1, 2, 3))):
        act = draw.choice(('wipe', 'wipe', 'reseed', 'vread %d' % draw.choice(LENGTHS)))
        yield 'inside %d %s' % (draw.randint(1, 4), act)


def between(draw):
    """The events between two vreads, chosen so that now and then a state loses its key and bytes."""
    return draw.choice(([], [], [], ['reseed'], ['drop'], ['state %d' % draw.randint(0, 1)], ['on %d' % draw.randint(0, 1)],
                        ['read 40 0'], ['vmfork 1 aa'], ['at %d' % draw.randint(0, 10 ** 6)]))


def script(draw, vreads):
    lines = ['rngscript 3', 'cpus 2', 'caller 0']
    opened = draw.randint(0, 3)
    for number in range(vreads):
        if number == opened:
            lines.append('credit 256')
        lines += between(draw)
        lines += acts(draw)
        flags = draw.choice((0, 0, 0, 1, 4)) if number >= opened else 1
        lines.append('vread %d %d' % (draw.choice(LENGTHS + (0,)), flags))
    return '\n'.join(lines + ['end', ''])


def ran(text):
    done = subprocess.run([PROGRAM, 'run'], input=text.encode(), stdout=subprocess.PIPE, check=False)
    if done.returncode:
        raise command.Fault('%s run ended with status %d' % (PROGRAM, done.returncode))
    return done.stdout.decode().splitlines()


def done_acts(text, lines):
    """The word and the point of each act that was done."""
    for event, line in zip(text.splitlines()[3:], lines[1:]):
        if event.startswith('inside ') and ' unused ' not in line:
            yield event.split(' ')[2], event.split(' ')[1]


def main():
    words = command.take(__doc__, 0, 2, are_numbers=True)
    seed = int(words[0]) if words else 1
    left = int(words[1]) if len(words) > 1 else 10000
    draw, compared, inside, met = random.Random(seed), 0, 0, set()
    is_long = left >= 1000
    while left > 0:
        text = script(draw, min(left, IN_A_SCRIPT))
        wanted, got = list(replay.transcript(text)), ran(text)
        for number, (line, other) in enumerate(zip(wanted, got)):
            if line != other:
                print('\n'.join(text.splitlines()[:number + 3]))
                print('wanted %s\ngot    %s' % (line, other))
                sys.exit(1)
        if len(wanted) != len(got):
            sys.exit('%d lines in place of %d' % (len(got), len(wanted)))
        left -= IN_A_SCRIPT
        compared += sum(' vread ' in line for line in wanted)
        acts_done = list(done_acts(text, wanted))
        inside += len(acts_done)
        met.update(acts_done)
    if is_long and len(met) != 12:
        sys.exit('of three acts at four points %d were met' % len(met))
    print('%d vreads with %d acts inside, as worked out' % (compared, inside))


if __name__ == '__main__':
    command.end('random_vreads.py', main)

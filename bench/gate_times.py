#!/usr/bin/env python3
"""Runs the gate, or another command, and prints the processor time of each crate.

    bench/gate_times.py [--page FILE] [COMMAND..]        `rt ci` if no command is given

Every half second it reads from /proc the time that each process below the command has used so far. The process's
command line shows its crate, and its kind: a proof, a test's proof, or a wrong edit. The time that a process uses in
its last half second is lost; the system's own sum follows the table. The table has processor minutes, the crate with
the most first. The command's status is the result.

`--page` puts the table into a page, bench/GATE.md, between its two lines `gate times`. A crate's budget there is kept; a
crate that has none gets its own time and a fifth more. Crates over their budgets are named. If nothing was done for a
crate of the page, since a kit kept an earlier run's results, the page stays as it is and the status is 1. If a part
of a crate was kept, its time is too low, without a message.
"""
import os
import re
import resource
import subprocess
import sys
import time

sys.path.insert(0, os.path.join(os.path.dirname(os.path.dirname(os.path.abspath(__file__))), 'tools'))
sys.dont_write_bytecode = True
import command  # noqa: E402

TICKS = os.sysconf('SC_CLK_TCK')
KINDS = ('proof', 'tests', 'edits', 'rest')
OTHER = ('(other)', 'rest')
MARKS = '<!-- gate times -->\n', '<!-- gate times end -->\n'


def read(path):
    try:
        with open(path, 'rb') as file:
            return file.read().decode(errors='replace')
    except OSError:
        return ''


def processes():
    """Of each process its parent, when it began, and the ticks that it has used."""
    found = {}
    for pid in filter(str.isdigit, os.listdir('/proc')):
        fields = read('/proc/%s/stat' % pid).rpartition(')')[2].split()
        if fields:
            found[int(pid)] = (int(fields[1]), fields[19], int(fields[11]) + int(fields[12]))
    return found


def work_of(pid):
    """The crate that a process works for, and the kind of work."""
    line = read('/proc/%d/cmdline' % pid).split('\0')
    if '--crate-name' not in line:
        return None
    name = line[line.index('--crate-name') + 1]
    try:
        folder = os.readlink('/proc/%d/cwd' % pid)
    except OSError:
        folder = ''
    if '/rt-edit' in folder:
        return name, 'edits'
    return name, 'tests' if '--test' in line else 'proof'


class Sums:
    """The time of each process when it was last seen, and its work."""

    def __init__(self, root):
        self.root, self.used, self.work = root, {}, {}

    def look(self):
        found = processes()
        for pid in found:
            chain = [pid]
            while chain[-1] in found and chain[-1] != self.root and len(chain) < 40:
                chain.append(found[chain[-1]][0])
            if chain[-1] != self.root:
                continue
            key = pid, found[pid][1]
            # A process that was just forked still has its parent's command line, so this is read again.
            if self.work.get(key, OTHER) == OTHER:
                works = (work_of(it) for it in chain[:-1])
                self.work[key] = next((it for it in works if it), OTHER)
            self.used[key] = found[pid][2]

    def table(self):
        """Of each crate its processor minutes by kind."""
        rows = {}
        for key, ticks in self.used.items():
            name, kind = self.work[key]
            rows.setdefault(name, dict.fromkeys(KINDS, 0.0))[kind] += ticks / TICKS / 60
        return rows


def whole(row):
    return sum(row.values())


def by_time(rows):
    return sorted(rows.items(), key=lambda it: -whole(it[1]))


def total_of(rows):
    return {kind: sum(row[kind] for row in rows.values()) for kind in KINDS}


def print_table(rows, ending):
    print('\n%-18s %8s %8s %8s %8s %8s' % ('processor minutes', 'whole', *KINDS))
    for name, row in [*by_time(rows), ('all', total_of(rows))]:
        print('%-18s' % name, *('%8.1f' % minutes for minutes in (whole(row), *row.values())))
    print(ending)


def budgets_of(text):
    """The budgets of the crates in a page's table, in minutes."""
    return {row[1]: int(row[2]) for row in re.finditer(r'^\| `(\w+)` \|.*\| (\d+) \|$', text, flags=re.M)}


def page_table(rows, budgets, ending):
    lines = ['| Crate | Proof | Its tests | Edits | Whole | Budget |', '|---|---|---|---|---|---|']
    crates = {name: row for name, row in rows.items() if name != OTHER[0]}
    for name, row in by_time(crates):
        minutes = ['%.1f' % it if it >= 0.05 else '' for it in (row['proof'], row['tests'], row['edits'], whole(row))]
        lines.append('| `%s` | %s | %d |' % (name, ' | '.join(minutes), budgets[name]))
    sums = total_of(rows)
    minutes = ' | '.join('%.0f' % it for it in (sums['proof'], sums['tests'], sums['edits'], whole(sums)))
    lines.append('| all, and other work | %s | %d |' % (minutes, sum(budgets[name] for name in crates)))
    return '\n'.join(lines) + '\n\n' + ending[0].upper() + ending[1:] + '.\n'


def into_page(path, rows, ending):
    """Puts the table into the page, and prints the crates that are over the budgets that it had."""
    text = read(path)
    head, first, rest = text.partition(MARKS[0])
    old, last, back = rest.partition(MARKS[1])
    if not last:
        sys.exit('%s has no lines %s and %s' % (path, *map(str.strip, MARKS)))
    budgeted = budgets_of(old)
    with open('crates.txt', encoding='utf-8') as file:
        listed = {line.split(':')[0].split()[0] for line in file if re.match(r'\w+[^:]*:', line)}
    kept = sorted((set(budgeted) & listed) - set(rows))
    if kept:
        sys.exit('%s is left as it is, since nothing was done for %s' % (path, ', '.join(kept)))
    budgets = {name: budgeted.get(name, int(whole(row) * 1.2) + 1) for name, row in rows.items()}
    with open(path, 'w', encoding='utf-8') as file:
        file.write(head + first + page_table(rows, budgets, ending) + last + back)
    for name, row in by_time(rows):
        if name in budgeted and whole(row) > budgeted[name]:
            print('over its budget: %s, %.1f of %d minutes' % (name, whole(row), budgeted[name]))


def main():
    page, words = None, sys.argv[1:]
    while words and words[0].startswith('-'):
        word, *words = words
        if word in ('-h', '--help'):
            print(__doc__.strip())
            return 0
        if word != '--page' or not words:
            raise command.Fault('%s; --help shows the words' % ('--page takes a file' if word == '--page' else 'there is no option %r' % word))
        page, *words = words
    began = time.monotonic()
    gate = subprocess.Popen(words or ['rt', 'ci'])
    sums = Sums(gate.pid)
    while gate.poll() is None:
        sums.look()
        time.sleep(0.5)
    used = resource.getrusage(resource.RUSAGE_CHILDREN)
    ending = '%.1f minutes by the clock on %d processors, and %.1f processor minutes by the system\'s own sum' % (
        (time.monotonic() - began) / 60, len(os.sched_getaffinity(0)), (used.ru_utime + used.ru_stime) / 60)
    rows = sums.table()
    print_table(rows, ending)
    if page and gate.returncode == 0:
        into_page(page, rows, ending)
    return gate.returncode


if __name__ == '__main__':
    command.end('gate_times.py', main)

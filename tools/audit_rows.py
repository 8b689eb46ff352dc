#!/usr/bin/env python3
"""audit_rows.py [keys | live T | live C.E | line C.E] < SCRIPT_AND_TRANSCRIPT: a key audit, as `key_audit` writes it.

It shares nothing with the crates: it was written from docs/TRANSCRIPT.md, docs/DEFINITIONS.md and docs/AUDIT.md. The
crates follow each lane's list. Here all visits are replayed in the order of their stamps, and each key is an object
that one holder passes to the next. It makes no bytes, is slow, and assumes that the transcript is lawful for the script.
"""
import sys

BATCH, BLOCK, KEY = 96, 64, 32
WIDTHS = {'int8': 1, 'int16': 2, 'int32': 4, 'int64': 8}
MIXES = ('write', 'device', 'bits', 'add', 'credit', 'input', 'vmfork')


class Visit:
    def __init__(self, text, line):
        self.lane, rest = text.split(':')
        self.place, self.stamp = map(int, rest.split('@'))
        self.line, self.role, self.key_call = line, None, False

    def __str__(self):
        return '%s:%d@%d' % (self.lane, self.place, self.stamp)


class Moment:
    """An entry of a vgetrandom state. Its stamp is the one at which the call that left it was over."""

    def __init__(self, caller, state, place, line, entry):
        self.caller, self.state, self.place, self.line, self.entry = caller, state, place, line, entry
        self.call, self.stamp = None, None

    def __str__(self):
        return 'v%d.%d:%d@%d' % (self.caller, self.state, self.place, self.stamp)


class Key:
    def __init__(self, name, holder, made):
        self.name, self.holder, self.made, self.ended, self.uses = name, holder, made, None, []

    def row(self, fates='=>!?'):
        end = '%s %s' % (self.ended, self.ended.line) if self.ended else 'held'
        uses = [' %d+%d%s' % use for use in sorted(self.uses) if use[2][0] in fates]
        return '%s %s %s %s %s%s' % (self.name, self.holder, self.made, self.made.line, end, ''.join(uses))

    def became(self):
        return [fate[1:] for _, _, fate in self.uses if fate[0] == '=']


# ---- Reading ----------------------------------------------------------------------------------------------------

def read(text):
    """The events of each caller, and the steps of each caller's lines."""
    lines = text.split('\n')
    end = lines.index('end')
    events, steps = [], []
    for line in lines[2:end]:
        fields = line.split(' ')
        if fields[0] == 'caller':
            events.append([])
            steps.append([])
        else:
            events[-1].append(fields)
    for line in lines[end + 2:]:
        fields = line.split(' ')
        if len(fields) == 5:
            caller = int(fields[0].split('.')[0])
            steps[caller].append([step_of(step, fields[0]) for step in fields[3].split(',') if step != '-'])
    return events, steps


def step_of(text, line):
    return int(text[1:]) if text[0] == '~' else Visit(text, line)


def lane_of(step):
    return '~' if isinstance(step, int) else step.lane[0]


# ---- The roles of visits ----------------------------------------------------------------------------------------

def give_roles(word, fields, steps):
    """Gives each visit of a line its role. A read has the length of its whole line."""
    lanes = [lane_of(step) for step in steps]
    for at, step in enumerate(steps):
        if isinstance(step, int):
            continue
        before = lanes[at - 1] if at else ''
        after = lanes[at + 1] if at + 1 < len(steps) else ''
        if step.lane == 'p':
            own = (word in MIXES and at == 0) or (word == 'irq' and before == 'c')
            step.role = ('mix',) if own else ('extract',)
        elif step.lane == 'b':
            step.role = base_role(word, fields, steps, at, before, after)
        else:
            step.role = cpu_role(word, fields, steps, at, after)


def base_role(word, fields, steps, at, before, after):
    root = steps[at - 1] if before == 'p' and steps[at - 1].role == ('extract',) else None
    if word in ('fork', 'end', 'tick', 'reseed', 'irq') or word in MIXES:
        return ('install', root) if root else ('other',)
    if after == 'b' or before == 'b':
        return ('other',)
    if after == 'c':
        return ('refill', steps[at + 1])
    return ('draw', root) + taken_of(word, fields)


def cpu_role(word, fields, steps, at, after):
    if word in ('irq', 'prepare', 'online'):
        return ('dump',) if word == 'irq' and at else (word,)
    refill = steps[at - 1] if lane_of(steps[at - 1]) == 'b' else None
    if word in WIDTHS and steps[0] != 0:
        return ('int', refill, steps[at - 2 if refill else at - 1], WIDTHS[word])
    return ('read', refill) + taken_of(word, fields)


def taken_of(word, fields):
    """The kind of caller of a read, user or kernel, and the read's length."""
    if word == 'inside':
        return ('user', int(fields[3]))
    if word in WIDTHS:
        return ('kernel', WIDTHS[word])
    return ('kernel' if word == 'kread' else 'user', int(fields[1]))


# ---- vgetrandom states -------------------------------------------------------------------------------------------

class State:
    def __init__(self):
        self.generation, self.at, self.count = 0, 0, 0


class StateCalls:
    """The calls of one caller on its states, and the entries that they leave."""

    def __init__(self, caller, stamp):
        self.caller, self.stamp, self.states, self.current = caller, stamp, [State() for _ in range(16)], 0
        self.moments, self.calls, self.ends = [], 0, {}

    def leave(self, line, *entry):
        state = self.states[self.current]
        self.moments.append(Moment(self.caller, self.current, state.count, line, entry))
        state.count += 1

    def over(self, numbers):
        """A call, with the lines of these numbers, is over."""
        for moment in self.moments:
            if moment.call is None:
                moment.call, moment.stamp = self.calls, self.stamp
        for number in numbers:
            self.ends['%d.%d' % (self.caller, number)] = (self.calls, self.stamp)
        self.calls += 1

    def wipe(self, line):
        state = self.states[self.current]
        state.generation, state.at = 0, 0
        self.leave(line, 'wipe')

    def passed(self, steps):
        for step in steps:
            if not isinstance(step, int):
                self.stamp = max(self.stamp, step.stamp)

    def act_at(self, line, acts, point):
        is_wiped = False
        for at, words, steps, _ in acts:
            if at == point:
                self.passed(steps)
                if words[0] == 'wipe' and not is_wiped:
                    self.wipe(line)
                    is_wiped = True

    def vread(self, line, length, flags, acts, steps):
        state, rest = self.states[self.current], list(steps)
        if not (flags & ~7 or flags & 6 == 6) and rest[0] and length:
            look = rest.pop(0)
            if not acts and state.generation == look + 1 and length <= BATCH - state.at:
                self.copy(line, 0, length)
            else:
                self.attempts(line, length, acts, rest)
        self.passed(steps)
        for act in acts:
            self.passed(act[2])

    def attempts(self, line, length, acts, rest):
        state, block = self.states[self.current], 0
        for number in (1, 2):
            bound = acts if number == 1 else []
            published = rest.pop(0) + 1
            self.act_at(line, bound, 1)
            if state.generation != published:
                state.generation = published
                self.act_at(line, bound, 2)
                rest.pop(0), rest.pop(0)
                visit = rest.pop(0)
                if visit.lane == 'b':
                    visit = rest.pop(0)
                visit.key_call = True
                state.at = BATCH
                self.leave(line, 'rekey', visit)
            self.act_at(line, bound, 3)
            block = self.copy(line, block, length)
            self.act_at(line, bound, 4)
            if rest.pop(0) + 1 == state.generation:
                return

    def copy(self, line, block, length):
        """Adds the entries for a copy of `length` bytes; returns the key's next block."""
        state = self.states[self.current]
        first = min(length, BATCH - state.at)
        if first:
            self.leave(line, 'serve', state.at, first)
        state.at += first
        if first == length:
            return block
        whole, last = divmod(length - first, BLOCK)
        if whole:
            self.leave(line, 'blocks', block, whole)
        self.leave(line, 'refill', block + whole)
        if last:
            self.leave(line, 'serve', 0, last)
        state.at = last
        return block + whole + 2


def parents_of(events):
    """For each forked caller, its parent and the number of the line that forks it."""
    return {int(fields[1]): (caller, number)
            for caller, lines in enumerate(events) for number, fields in enumerate(lines) if fields[0] == 'fork'}


def entries_of(events, steps):
    """Gives each visit its role; returns the entries of all states, each caller's in order, and for each line the
    number of its call and the stamp at which that call was over."""
    parents, stamps, moments, ends = parents_of(events), {}, [], {}
    for caller, lines in enumerate(events):
        start = stamps.get(parents.get(caller), 0)
        calls, waiting = StateCalls(caller, start), []
        last = max([n for n, fields in enumerate(lines) if fields[0] == 'vread'], default=-1)
        for number, fields in enumerate(lines + [['end']]):
            line, taken = '%d.%d' % (caller, number), steps[caller][number]
            word = fields[0]
            give_roles('reseed' if fields[2:] == ['reseed'] and word == 'inside' else word, fields, taken)
            if word == 'inside' and number < last:
                waiting.append((int(fields[1]), fields[2:], taken, number))
                continue
            acts = []
            if word == 'vread':
                acts, waiting = waiting, []
                calls.vread(line, int(fields[1]), int(fields[2]), acts, taken)
            elif word == 'drop':
                calls.wipe(line)
            elif word == 'state':
                calls.current = int(fields[1])
            if word == 'fork':
                visits = [step for step in taken if not isinstance(step, int)]
                stamps[(caller, number)] = visits[0].stamp if visits else calls.stamp
            calls.passed(taken)
            calls.over([act[3] for act in acts] + [number])
        moments += calls.moments
        ends.update(calls.ends)
    return moments, ends


# ---- Keys --------------------------------------------------------------------------------------------------------

class Keys:
    def __init__(self):
        self.made, self.held, self.named = [], {}, {}
        self.batches, self.refills = {}, {}

    def make(self, name, holder, moment):
        key = Key(name, holder, moment)
        self.made.append(key)
        self.named[name] = key
        return key

    def end(self, holder, moment):
        key = self.held.pop(holder, None)
        if key:
            key.ended = moment
        return key

    def take(self, holder, name, moment):
        self.end(holder, moment)
        self.held[holder] = self.named[name]
        self.held[holder].holder = holder

    def erase(self, holder, name, moment):
        """The key in use; bytes 0 to 32 become the next one."""
        key = self.end(holder, moment)
        self.held[holder] = self.make(name, holder, moment)
        key.uses.append((0, KEY, '=' + name))
        return key

    def call_key(self, key, name, moment):
        key.uses.append((KEY, KEY, '=' + name))
        return self.make(name, 'call', moment)

    def read(self, holder, own, call, reader, length, moment, is_key=False):
        key = self.erase(holder, own, moment)
        if reader == 'user' and length > KEY:
            longer = self.call_key(key, call, moment)
            longer.ended = moment
            longer.uses.append((64, length, '>' + moment.line))
        elif is_key:
            self.call_key(key, call, moment)
        else:
            key.uses.append((KEY, length, '>' + moment.line))

    def give_up(self, batch, moment):
        """The rest of a batch that is used up, replaced or wiped will not be served."""
        rest = self.batches.pop(batch, None)
        if rest and rest[0] and rest[2]:
            rest[0].uses.append((rest[1], rest[2], '!%s' % moment if moment else '?'))

    # -- lanes

    def base(self, visit):
        role, place = visit.role, visit.place
        root = role[1] if role[0] in ('install', 'draw') else None
        if root:
            self.take('base', 'Root(%d)' % root.place, visit)
        if role[0] == 'draw':
            self.read('base', 'Base(%d)' % place, 'Call(Base,%d)' % place, role[2], role[3], visit)
        elif role[0] == 'refill':
            key = self.erase('base', 'Base(%d)' % place, visit)
            self.call_key(key, 'Call(Base,%d)' % place, visit)

    def cpu(self, visit):
        role, number, place = visit.role, int(visit.lane[1:]), visit.place
        holder = 'cpu%d' % number
        if role[0] == 'prepare':
            for width in (1, 2, 4, 8):
                self.give_up((holder, width), visit)
        if role[0] not in ('int', 'read'):
            return
        if role[1]:
            self.take(holder, 'Call(Base,%d)' % role[1].place, visit)
        own, call = 'Cpu(%d,%d)' % (number, place), 'Call(Cpu(%d),%d)' % (number, place)
        if role[0] == 'read':
            is_key = visit.key_call
            return self.read(holder, own, call, role[2], KEY if is_key else role[3], visit, is_key)
        self.integer(visit, holder, own, role[2], role[3])

    def integer(self, visit, holder, own, look, width):
        batch = self.batches.get((holder, width))
        if batch is None or batch[2] < width or batch[3] != look:
            self.give_up((holder, width), visit)
            batch = self.batches[(holder, width)] = [self.erase(holder, own, visit), KEY, BATCH, look]
        batch[0].uses.append((batch[1], width, '>' + visit.line))
        batch[1] += width
        batch[2] -= width

    # -- states

    def state(self, moment):
        holder, entry = 'state%d.%d' % (moment.caller, moment.state), moment.entry
        key = self.held.get(holder)
        if entry[0] == 'rekey':
            self.give_up(holder, moment)
            self.take(holder, 'Call(Cpu(%s),%d)' % (entry[1].lane[1:], entry[1].place), moment)
        elif entry[0] == 'wipe':
            self.give_up(holder, moment)
            self.end(holder, moment)
        elif entry[0] == 'blocks' and key:
            key.uses.append((BLOCK * entry[1], BLOCK * entry[2], '>' + moment.line))
        elif entry[0] == 'refill':
            self.refill(moment, holder, key, BLOCK * entry[1])
        elif entry[0] == 'serve' and holder in self.batches:
            batch = self.batches[holder]
            batch[0].uses.append((batch[1], entry[2], '>' + moment.line))
            batch[1] += entry[2]
            batch[2] -= entry[2]

    def refill(self, moment, holder, key, start):
        number = self.refills.get(holder, 0)
        self.refills[holder] = number + 1
        self.give_up(holder, moment)
        if key:
            name = 'Vdso(%d,%d,%d)' % (moment.caller, moment.state, number)
            self.end(holder, moment)
            self.held[holder] = self.make(name, holder, moment)
            key.uses.append((start + BATCH, KEY, '=' + name))
            self.batches[holder] = [key, start, BATCH]

    def apply(self, one):
        if isinstance(one, Moment):
            self.state(one)
        elif one.lane == 'p':
            if one.role == ('extract',):
                self.make('Root(%d)' % one.place, 'base', one)
        elif one.lane == 'b':
            self.base(one)
        else:
            self.cpu(one)


def rank(one):
    """The order among entries with one stamp: lanes first, then states."""
    if isinstance(one, Moment):
        return (one.stamp, 1, one.caller, one.state, one.place)
    number = {'p': 0, 'b': 1}.get(one.lane) if one.lane in 'pb' else 2 + int(one.lane[1:])
    return (one.stamp, 0, number, 0, one.place)


def keys_after(entries):
    """The keys after some visits and entries."""
    keys = Keys()
    for one in entries:
        keys.apply(one)
    return keys


def run_of(text):
    """The events of all callers, all visits and entries in the order in which they happened, and the ends of lines."""
    events, steps = read(text)
    moments, ends = entries_of(events, steps)
    visits = [step for lines in steps for line in lines for step in line if not isinstance(step, int)]
    by_caller = sorted(enumerate(visits + moments), key=lambda of: rank(of[1])[:2] + of[:1])
    return events, [one for _, one in by_caller], ends


def in_order(keys):
    second = lambda key: key.name.startswith('Call')
    return sorted(keys.made, key=lambda key: (rank(key.made), second(key)))


def rows(run):
    keys = keys_after(run)
    for batch in list(keys.batches):
        keys.give_up(batch, None)
    return in_order(keys)


# ---- The commands -----------------------------------------------------------------------------------------------

def keys(text):
    return [key.row() for key in rows(run_of(text)[1])]


def holder_rank(holder):
    if holder[:3] == 'cpu':
        return (1, int(holder[3:]))
    return (2, *map(int, holder[5:].split('.'))) if holder != 'base' else (0,)


def live(text, at):
    """The keys and rests that are held after a stamp or a line, and the bytes that can be computed from them."""
    _, run, ends = run_of(text)
    call, stamp = (None, int(at)) if '.' not in at else ends.get(at, (None, None))
    if stamp is None or stamp > max((one.stamp for one in run), default=-1):
        yield 'no line' if '.' in at else 'no stamp'
        return
    before = keys_after(one for one in run if is_by(one, at.split('.')[0], call, stamp))
    held = [before.held[holder].name for holder in sorted(before.held, key=holder_rank)]
    rests = [((batch if isinstance(batch, str) else batch[0]), rest[0].name, rest[1], rest[2])
             for batch, rest in sorted(before.batches.items(), key=batch_rank) if rest[0] and rest[2]]
    made = rows(run)
    named, known = {key.name: key for key in made}, set(held)
    for key in made:
        if key.name in known:
            known.update(key.became())
    yield from ('held ' + named[name].row('=') for name in held)
    yield from ('rest %s %s %d+%d' % (name, holder, first, length) for holder, name, first, length in rests)
    yield from ('next ' + key.row('=') for key in made if key.name in known and key.name not in held)
    lines = {}
    for key in made:
        for first, length, fate in sorted(key.uses):
            is_rest = any(name == key.name and start <= first < start + left for _, name, start, left in rests)
            if fate[0] == '>' and (key.name in known or is_rest):
                lines.setdefault(fate[1:], []).append('%d+%d<%s' % (first, length, key.name))
    for line in sorted(lines, key=lambda line: tuple(map(int, line.split('.')))):
        yield 'line %s %s' % (line, ' '.join(lines[line]))


def is_by(one, caller, call, stamp):
    """The calls of the named line's caller count up to the line's call; everything else counts by the call's stamp."""
    if call is not None and isinstance(one, Moment) and str(one.caller) == caller:
        return one.call <= call
    return one.stamp <= stamp


def batch_rank(item):
    batch = item[0]
    return (*holder_rank(batch), 0) if isinstance(batch, str) else (*holder_rank(batch[0]), batch[1])


def line(text, wanted):
    """The rows that the bytes of a line come from, and the extractions of their roots."""
    events, run, ends = run_of(text)
    if wanted not in ends:
        yield 'no line'
        return
    found, roots = set(), []
    for key in reversed(rows(run)):
        if any(fate == '>' + wanted for _, _, fate in key.uses) or found.intersection(key.became()):
            found.add(key.name)
            yield key.row()
            if key.name.startswith('Root'):
                roots.append(key)
    bits = bits_before(events, run)
    samples = [one for one in run if not isinstance(one, Moment) and one.lane == 'p' and one.role[0] == 'mix'
               and event_of(events, one)[0] not in ('bits', 'credit')]
    for key in roots:
        fed = sum(one.stamp < key.made.stamp for one in samples)
        yield 'extraction %s %s %s samples %d bits %d' % (key.name, key.made, key.made.line, fed, bits[key.made])


# ---- The pool's bits ---------------------------------------------------------------------------------------------

def event_of(events, visit):
    caller, number = map(int, visit.line.split('.'))
    return (events[caller] + [['end']])[number]


def moments_of(events):
    """The moment of each line. A child begins at the moment of its parent's fork."""
    forks, times = parents_of(events), []
    for caller, lines in enumerate(events):
        parent = forks.get(caller)
        now, found = times[parent[0]][parent[1]] if parent else 0, []
        for fields in lines + [['end']]:
            if fields[0] == 'at':
                now = int(fields[1])
            found.append(now)
        times.append(found)
    return times


class Timer:
    """The bits that an input sample credits, by the time since the samples before it."""

    def __init__(self):
        self.last = self.first = self.second = self.value = 0

    def bits(self, now):
        first = now - self.last
        second = first - self.first
        third = second - self.second
        self.last, self.first, self.second = now, first, second
        return min(((min(abs(first), abs(second), abs(third)) >> 1) & 0xFFFFFFFF).bit_length(), 11)


def bits_before(events, run):
    """For each visit of the pool, the bits before it."""
    times, timer, counts, dumped, bits, before = moments_of(events), Timer(), {}, {}, 0, {}
    for one in run:
        if isinstance(one, Moment) or one.role is None:
            continue
        if one.role[0] == 'irq':
            counts[one.lane] = counts.get(one.lane, 0) + 1
        elif one.role[0] == 'dump':
            dumped[one.line] = min(max((counts[one.lane] & 0xFFFF) // 64, 1), 128)
        if one.role[0] in ('dump', 'online'):
            counts[one.lane] = 0
        if one.lane == 'p':
            before[one] = bits
            caller, number = map(int, one.line.split('.'))
            fields, now = event_of(events, one), times[caller][number]
            if fields[0] == 'irq':
                bits = min(bits + (dumped[one.line] if one.role[0] == 'mix' else 0), 256)
            elif one.role[0] == 'mix':
                bits = min(bits + credit_of(fields, now, timer, bits), 256)
    return before


def credit_of(fields, now, timer, bits):
    """The bits that a sample credits. Input that repeats the last value is no sample."""
    if fields[0] in ('credit', 'add'):
        return int(fields[-1])
    if fields[0] != 'input' or int(fields[4]) == timer.value:
        return 0
    timer.value = int(fields[4])
    return timer.bits(now) if bits < 256 else 0


def main(words, text):
    if words in ([], ['keys']):
        return keys(text)
    if len(words) == 2 and words[0] in ('live', 'line'):
        return live(text, words[1]) if words[0] == 'live' else line(text, words[1])
    sys.exit('usage: audit_rows.py [keys | live T | live C.E | line C.E]')


if __name__ == '__main__':
    answer = list(main(sys.argv[1:], sys.stdin.read()))
    print(*answer, sep='\n', end='\n' if answer else '')
    sys.exit(1 if answer in (['no stamp'], ['no line']) else 0)

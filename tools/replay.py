#!/usr/bin/env python3
"""replay.py < SCRIPT > TRANSCRIPT: the transcript of a script of one caller, worked out a second time.

It shares nothing with the crates: it was written from docs/SCRIPT.md, docs/TRANSCRIPT.md, docs/DEFINITIONS.md, RFC 7693
(by Python's hashlib) and RFC 8439. .ci/page_checks compares its bytes and steps with those of the worked cases, which
agree with the kernel's own C code. It makes the transcripts of the examples. It proves nothing, is slow, and assumes
that its input is a script.
"""
import hashlib
import os
import struct
import sys

ZERO = bytes(32)
BATCH = 96


# ---- Hash and keystream -----------------------------------------------------------------------------------------

def blake2s(key, text):
    return hashlib.blake2s(text, key=key).digest()


def rotated(word, by):
    return (word << by | word >> (32 - by)) & 0xFFFFFFFF


def quarter_round(s, a, b, c, d):
    """RFC 8439, section 2.1."""
    for to, added, turned, by in ((a, b, d, 16), (c, d, b, 12), (a, b, d, 8), (c, d, b, 7)):
        s[to] = (s[to] + s[added]) & 0xFFFFFFFF
        s[turned] = rotated(s[turned] ^ s[to], by)


def block(key, number):
    """RFC 8439, section 2.3, with nonce zero and the counter in words 12 and 13."""
    start = list(struct.unpack('<4I', b'expand 32-byte k')) + list(struct.unpack('<8I', key))
    start += [number & 0xFFFFFFFF, number >> 32, 0, 0]
    s = list(start)
    for _ in range(10):
        for column in range(4):
            quarter_round(s, column, column + 4, column + 8, column + 12)
        for column in range(4):
            quarter_round(s, column, 4 + (column + 1) % 4, 8 + (column + 2) % 4, 12 + (column + 3) % 4)
    return struct.pack('<16I', *((a + b) & 0xFFFFFFFF for a, b in zip(s, start)))


def keystream(key, start, length):
    first = start // 64
    blocks = b''.join(block(key, number) for number in range(first, (start + length + 63) // 64))
    return blocks[start - 64 * first:][:length]


def bytes_of_read(key, length, for_user):
    """The bytes of a read that finds this key in use (`crng_fast_key_erasure`, `get_random_bytes_user`)."""
    if for_user and length > 32:
        return keystream(keystream(key, 32, 32), 64, length)
    return keystream(key, 32, length)


# ---- Samples ----------------------------------------------------------------------------------------------------

class FastPool:
    """`fast_mix`, `add_interrupt_randomness`, `mix_interrupt_randomness`."""

    def __init__(self):
        self.words = list(struct.unpack('>4Q', b'somepseudorandomlygeneratedbytes'))
        self.count = self.last = 0
        self.is_due = False

    def round(self):
        """One round of SipHash."""
        limit = (1 << 64) - 1
        turn = lambda word, by: (word << by | word >> (64 - by)) & limit
        a, b, c, d = self.words
        a = (a + b) & limit; b = turn(b, 13) ^ a; a = turn(a, 32)
        c = (c + d) & limit; d = turn(d, 16) ^ c
        a = (a + d) & limit; d = turn(d, 21) ^ a
        c = (c + b) & limit; b = turn(b, 17) ^ c; c = turn(c, 32)
        self.words = [a, b, c, d]

    def mix(self, first, second, now):
        """Whether a dump is due by this interrupt."""
        for word in (first, second):
            self.words[3] ^= word
            self.round()
            self.words[0] ^= word
        self.count += 1
        if self.is_due or (self.count < 1024 and not self.last + 1000 < now):
            return False
        self.is_due = True
        return True

    def dump(self, now):
        text = struct.pack('<2Q', *self.words[:2])
        bits = min(max((self.count & 0xFFFF) // 64, 1), 128)
        self.count, self.last, self.is_due = 0, now, False
        return text, bits


class InputTimer:
    """`add_timer_randomness`, `add_input_randomness`."""

    def __init__(self):
        self.last = self.first = self.second = 0
        self.value = 0

    def bits(self, now):
        first = now - self.last
        second = first - self.first
        third = second - self.second
        self.last, self.first, self.second = now, first, second
        return min(((min(map(abs, (first, second, third))) >> 1) & 0xFFFFFFFF).bit_length(), 11)


# ---- Lanes ------------------------------------------------------------------------------------------------------

class Pool:
    def __init__(self):
        self.key, self.text, self.bits = b'', b'', 0

    def credit(self, bits):
        """The threshold that the credit crosses: 128, 256 or None (`_credit_init_bits`)."""
        before, self.bits = self.bits, min(self.bits + bits, 256)
        if before < 256 <= self.bits:
            return 256
        return 128 if before < 128 <= self.bits else None

    def extract(self, hardware):
        """`extract_entropy`"""
        seed = blake2s(self.key, self.text)
        root = blake2s(seed, hardware + struct.pack('<Q', 1))
        self.key, self.text = blake2s(seed, hardware + struct.pack('<Q', 0)), b''
        return root


class Base:
    def __init__(self):
        self.key, self.phase, self.generation = ZERO, 'empty', 0
        self.due, self.is_old = None, False

    def install(self, root, now, has_fired=False):
        """`crng_reseed`"""
        self.key, self.phase = root, 'ready'
        self.generation += 1
        if now // 1000 >= 120:
            self.is_old = True
        interval = 60000 if self.is_old else max(1000, now // 1000 // 2 * 1000)
        if has_fired or self.due is None:
            self.due = now + interval

    def erase(self):
        used, self.key = self.key, keystream(self.key, 0, 32)
        return used


class Cpu:
    def __init__(self):
        self.key, self.generation, self.fast = ZERO, 0, FastPool()
        self.batches = {}


class State:
    """The memory of a vgetrandom call (`struct vgetrandom_state`)."""

    def __init__(self):
        self.wipe()

    def wipe(self):
        self.batch, self.key, self.generation, self.at, self.in_use = bytes(BATCH), ZERO, 0, 0, False


class Refused(Exception):
    """A call that returns an error, by the error's name."""


# ---- A caller's calls -------------------------------------------------------------------------------------------

class Caller:
    def __init__(self, cpus):
        self.pool, self.base, self.timer = Pool(), Base(), InputTimer()
        self.cpus = [Cpu() for _ in range(cpus)]
        self.states, self.state = [State() for _ in range(16)], 0
        self.now = self.cpu = self.stamp = 0
        self.hardware = ZERO
        self.places = {}
        self.steps = []
        self.waiting = []

    # -- steps

    def look(self):
        self.steps.append('~%d' % self.base.generation)
        return self.base.generation

    def visit(self, lane):
        """A visit gets its place when the lane is taken, and its stamp when the visit ends."""
        place = self.places.get(lane, 0)
        self.places[lane] = place + 1
        self.stamp += 1
        self.steps.append('%s:%d@%d' % (lane, place, self.stamp))

    def on_cpu(self):
        return 'c%d' % self.cpu

    # -- samples

    def extract(self):
        self.visit('p')
        return self.pool.extract(self.hardware)

    def cross(self, crossed):
        if crossed == 256:
            root = self.extract()
            self.base.install(root, self.now)
            self.visit('b')
        elif crossed == 128:
            if self.base.phase == 'empty':
                self.base.key, self.base.phase = self.extract(), 'early'
            self.visit('b')

    def mix(self, text, bits=None):
        self.pool.text += text
        crossed = self.pool.credit(bits) if bits is not None else None
        self.visit('p')
        self.cross(crossed)

    def irq(self, first, second):
        fast = self.cpus[self.cpu].fast
        is_due = fast.mix(first, second, self.now)
        self.visit(self.on_cpu())
        if is_due:
            text, bits = fast.dump(self.now)
            self.visit(self.on_cpu())
            self.mix(text, bits)

    def input(self, word, kind, code, value):
        if value == self.timer.value:
            return self.visit('p')
        self.timer.value = value
        bits = self.timer.bits(self.now) if self.pool.bits < 256 else 0
        self.mix(struct.pack('<QI', word, (kind << 4) ^ code ^ (code >> 4) ^ value), bits)

    def reseed(self):
        if not self.look():
            raise Refused('ENODATA')
        self.reseed_ready()

    def reseed_ready(self, has_fired=False):
        root = self.extract()
        self.base.install(root, self.now, has_fired)
        self.visit('b')

    def tick(self):
        """Whether the reseed timer fired."""
        is_due = self.base.due is not None and self.base.due <= self.now
        if is_due:
            self.reseed_ready(has_fired=True)
        else:
            self.visit('b')
        return is_due

    # -- reads

    def draw(self, length, for_user):
        """A read of a core that is not ready."""
        if self.base.phase == 'empty':
            self.base.key = self.extract()
        used = self.base.erase()
        self.visit('b')
        return bytes_of_read(used, length, for_user)

    def refill(self, cpu):
        cpu.key = keystream(self.base.erase(), 32, 32)
        cpu.generation = self.base.generation
        self.visit('b')

    def read_cpu(self, length, for_user):
        """`crng_make_state` of a ready core."""
        cpu = self.cpus[self.cpu]
        if cpu.generation != self.look():
            self.refill(cpu)
        used, cpu.key = cpu.key, keystream(cpu.key, 0, 32)
        self.visit(self.on_cpu())
        return bytes_of_read(used, length, for_user)

    def read(self, length, for_user):
        return self.read_after(self.look(), length, for_user)

    def read_after(self, look, length, for_user):
        return self.read_cpu(length, for_user) if look else self.draw(length, for_user)

    def system_call(self, length, flags):
        """getrandom(2)"""
        if flags & ~7 or flags & 6 == 6:
            raise Refused('EINVAL')
        look = self.look()
        if not look and not flags & 4:
            if flags & 1:
                raise Refused('EAGAIN')
            self.visit('b')
            self.visit('b')
            raise Refused('EINTR')
        return self.read_after(look, length, True) if length else b''

    def integer(self, width):
        """`get_random_u8` to `get_random_u64`"""
        if not self.look():
            return self.draw(width, False)
        cpu, look = self.cpus[self.cpu], self.look()
        batch = cpu.batches.get(width)
        if batch is None or batch['at'] == BATCH or batch['look'] != look:
            if cpu.generation != look:
                self.refill(cpu)
            batch = cpu.batches[width] = {'look': look, 'at': 0, 'bytes': keystream(cpu.key, 32, BATCH)}
            cpu.key = keystream(cpu.key, 0, 32)
        self.visit(self.on_cpu())
        batch['at'] += width
        return batch['bytes'][batch['at'] - width:batch['at']]

    # -- vgetrandom

    def vread(self, length, flags, acts):
        """`__cvdso_getrandom_data`, with acts at the points of its first attempt. The acts' answers go to `acts`."""
        state = self.states[self.state]
        if flags & ~7 or flags & 6 == 6:
            return self.system_call(length, flags)
        generation = self.look()
        if not acts and length and self.serves_alone(state, generation, length):
            return self.copy(state, length)
        if not generation:
            return self.system_call(length, flags)
        if not length:
            return b''
        state.in_use, self.number = True, 0
        for attempt in (1, 2):
            published = self.look() + 1
            self.act_at(1, attempt, acts)
            if state.generation != published:
                state.generation = published
                self.act_at(2, attempt, acts)
                state.key = self.system_call(32, 0)
                state.at = BATCH
            self.act_at(3, attempt, acts)
            answer = self.take(state, length)
            self.act_at(4, attempt, acts)
            if self.look() + 1 == state.generation:
                state.in_use = False
                return answer
        state.in_use = False
        return self.system_call(length, flags)

    def serves_alone(self, state, generation, length):
        return not state.in_use and generation and state.generation == generation + 1 and length <= BATCH - state.at

    def copy(self, state, length):
        at = state.at
        answer = state.batch[at:at + length]
        state.batch = state.batch[:at] + bytes(len(answer)) + state.batch[at + length:]
        state.at += len(answer)
        return answer

    def take(self, state, length):
        answer = self.copy(state, min(length, BATCH - state.at))
        if len(answer) == length:
            return answer
        while length - len(answer) >= 64:
            answer += block(state.key, self.number)
            self.number += 1
        # This also holds if only whole blocks were wanted: the key that made them is replaced.
        fresh = keystream(state.key, 64 * self.number, 128)
        self.number += 2
        state.batch, state.key, state.at = fresh[:BATCH], fresh[BATCH:], 0
        return answer + self.copy(state, length - len(answer))

    def act_at(self, point, attempt, acts):
        """Makes the acts of a point. Their steps go to the acts' own lines."""
        for act in acts if attempt == 1 else []:
            if act['point'] == point:
                outer, self.steps = self.steps, []
                act['answer'], act['data'] = self.answered(lambda: self.act(act['words']))
                act['steps'], self.steps = self.steps, outer

    def act(self, words):
        if words[0] == 'wipe':
            return self.states[self.state].wipe()
        if words[0] == 'vread':
            return self.system_call(int(words[1]), 0)
        return self.reseed()

    # -- events

    @staticmethod
    def answered(call):
        """The answer and the data of a call."""
        try:
            found = call()
        except Refused as error:
            return str(error), b''
        return 'ok', found or b''

    def event(self, words):
        """The answer and the data of an event that is no act."""
        word, rest = words[0], words[1:]
        text = lambda at: b'' if rest[at] == '-' else bytes.fromhex(rest[at])
        number = lambda at: int(rest[at])
        if word == 'tick':
            return 'fired' if self.tick() else 'idle', b''
        if word == 'bits':
            self.visit('p')
            return 'ok', self.pool.bits
        if word == 'vread':
            acts, self.waiting = self.waiting, []
            return self.answered(lambda: self.vread(number(0), number(1), acts))
        return self.answered(lambda: {
            'at': lambda: setattr(self, 'now', number(0)),
            'on': lambda: setattr(self, 'cpu', number(0)),
            'hw': lambda: setattr(self, 'hardware', text(0)),
            'state': lambda: setattr(self, 'state', number(0)),
            'drop': lambda: self.states[self.state].wipe(),
            'write': lambda: self.mix(text(0)),
            'device': lambda: self.mix(struct.pack('<Q', number(0)) + text(1)),
            'add': lambda: self.mix(text(0), number(1)),
            'credit': lambda: self.mix(b'', number(0)),
            'irq': lambda: self.irq(number(0), number(1)),
            'input': lambda: self.input(*map(int, rest)),
            'reseed': self.reseed,
            'vmfork': lambda: self.vmfork(struct.pack('<Q', number(0)) + text(1)),
            'prepare': lambda: self.prepare(number(0)),
            'online': lambda: self.online(number(0)),
            'read': lambda: self.system_call(number(0), number(1)),
            'dread': lambda: self.system_call(number(0), number(1)),
            'kread': lambda: self.read(number(0), False) if number(0) else b'',
            'uread': lambda: self.read(number(0), True) if number(0) else b'',
            'int8': lambda: self.integer(1), 'int16': lambda: self.integer(2),
            'int32': lambda: self.integer(4), 'int64': lambda: self.integer(8),
        }[word]())

    def vmfork(self, text):
        self.mix(text)
        if self.look():
            self.reseed_ready()

    def prepare(self, number):
        cpu = self.cpus[number]
        cpu.generation, cpu.batches = 0, {}
        self.visit('c%d' % number)

    def online(self, number):
        fast = self.cpus[number].fast
        fast.count, fast.is_due = 0, False
        self.visit('c%d' % number)


def shown(data):
    return str(data) if isinstance(data, int) else data.hex() or '-'


def transcript(script):
    lines = script.splitlines()
    caller = Caller(int(lines[1].split()[1]))
    lines_made = []
    for event in lines[3:lines.index('end')]:
        words = event.split(' ')
        if words[0] == 'inside':
            line = {'word': 'inside', 'answer': 'unused', 'data': b'', 'steps': []}
            line.update(point=int(words[1]), words=words[2:])
            caller.waiting.append(line)
        else:
            caller.steps = []
            answer, data = caller.event(words)
            line = {'word': words[0], 'answer': answer, 'data': data, 'steps': caller.steps}
        lines_made.append(line)
    caller.steps = []
    caller.visit('b')
    lines_made.append({'word': 'end', 'answer': 'ok', 'data': b'', 'steps': caller.steps})
    yield 'rngtranscript 1'
    for number, line in enumerate(lines_made):
        steps = ','.join(line['steps']) or '-'
        yield '0.%d %s %s %s %s' % (number, line['word'], line['answer'], steps, shown(line['data']))
    yield 'end'


def fail(why):
    print('replay.py: ' + why, file=sys.stderr)
    return 2


def main(words):
    """The releases have this file without the helpers of tools/, so it has its own."""
    if words and not {'-h', '--help'} & set(words):
        return fail('%r is not taken: the script is on standard input; --help has more' % words[0])
    try:
        text = __doc__.strip() if words else '\n'.join(transcript(sys.stdin.read()))
    except Exception:  # pylint: disable=broad-except
        return fail('the input is no script of one caller: `rng run` names the fault')
    try:
        print(text, flush=True)
    except OSError as fault:
        os.dup2(os.open(os.devnull, os.O_WRONLY), 1)
        return fail('standard output: %s' % fault.strerror)
    return 0


if __name__ == '__main__':
    sys.exit(main(sys.argv[1:]))

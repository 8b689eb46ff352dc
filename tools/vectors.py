#!/usr/bin/env python3
"""Makes the rows of the program `test_vectors`, and the answers that they must get, without any of the crates.

    tools/vectors.py             compares both with crates/test_vectors/stdin and stdout; the status is 1 if they differ
    tools/vectors.py --write     writes both files

Hashes are those of Python's hashlib. Keystream, pool, samples and reseeds are those of replay.py, which was written from
RFC 8439 and the kernel's rules. First, both are compared with the numbers that RFC 7693, RFC 8439 and the known-answer
tests of BLAKE2 publish. A C program of the kernel's rules once printed the same answers to `irq`, `bits` and `reseed`.
"""
import hashlib
import os
import sys

import command
import replay

HERE = os.path.dirname(os.path.abspath(__file__))
FOLDER = os.path.join(os.path.dirname(HERE), 'crates/test_vectors')
ZERO = bytes(32)
COUNTING = bytes(range(32))

# Key, text and BLAKE2s-256: RFC 7693, appendix B, and the known-answer tests of the reference implementation.
HASHES = (
    (b'', b'abc', '508c5e8c327c14e2e1a72ba34eeb452f37458b209ed63a294d999b4c86675982'),
    (COUNTING, b'', '48a8997da407876b3d79c0d92325ad3b89cbb754d86ab71aee047ad345fd2c49'),
    (COUNTING, bytes(range(64)), '8975b0577fd35566d750b362b0897a26c399136df07bababbde6203ff2954ed4'),
    (COUNTING, bytes(range(129)), '46a73a8dd3e70f59d3942c01df599def783c9da82fd83222cd662b53dce7dbdf'),
)

# Key, number of the block, and block: RFC 8439, appendix A.1, test vectors 1 to 4. Their nonce is 0.
BLOCKS = (
    (ZERO, 0,
     '76b8e0ada0f13d90405d6ae55386bd28bdd219b8a08ded1aa836efcc8b770dc7'
     'da41597c5157488d7724e03fb8d84a376a43b8f41518a11cc387b669b2ee6586'),
    (ZERO, 1,
     '9f07e7be5551387a98ba977c732d080dcb0f29a048e3656912c6533e32ee7aed'
     '29b721769ce64e43d57133b074d839d531ed1f28510afb45ace10a1f4b794d6f'),
    (bytes(31) + b'\1', 1,
     '3aeb5224ecf849929b9d828db1ced4dd832025e8018b8160b82284f3c949aa5a'
     '8eca00bbb4a73bdad192b5c42f73f2fd4e273644c8b36125a64addeb006c13a0'),
    (b'\0\xff' + bytes(30), 2,
     '72d54dfbf12ec44b362692df94137f328fea8da73990265ec1bbbea1ae9af0ca'
     '13b25aa26cb4a648cb9b9d1be65b2c0924a66c54d545ec1b7374f4872e99f096'),
)

# Two words and the moment of each interrupt (`add_interrupt_randomness`).
INTERRUPTS = (
    (0x79690975fbde15b0, 0x2a337357ae2cc59b, 112),
    (0xe4093df8432a8be5, 0x71dd0913271687b2, 761),
    (0x61b97bcd4b21c371, 0xe845105ed8c77cb7, 967),
    (0xc9ddc8f042775a71, 0xfe5defe9c5610885, 1051),
    (0xa3a03fe4de4f1c43, 0x9fded21c82caf2bb, 1089),
    (0x955753b579933f4d, 0x01239ff2c4a06a73, 1444),
    (0x2e6f66b049cdc80b, 0xf991db0c819b315b, 1617),
    (0xbe1edefcfabd75da, 0xe35ac67471cc39b1, 2295),
    (0x8b4eb7817f86ead9, 0x97876671a300714c, 2545),
    (0x11e69a347dd2966b, 0x686f3326a04fc987, 2901),
    (0x6edd22562c4c697b, 0x5b22f45380f3cf69, 3596),
    (0x76d874a3714b9ad2, 0x7dc2ae94e4dbf967, 3929),
    (0xea2177d8d51f57fb, 0x76104a9e26b7f794, 4132),
    (0x0ff20e6dfbb7c441, 0xd251a40a022b9b89, 4802),
    (0xc7dee68fffbaf963, 0x15ada4e53975b451, 4815),
    (0x314320aa7da5b1ef, 0xd27d2fde3497614c, 4833),
)

# Moments of input events (`add_timer_randomness`). The fourteenth goes back.
MOMENTS = (
    7, 83300, 83318, 83325, 84325, 122741, 122743, 14037851156, 14037932545, 14037933545, 14037933821,
    14037933823, 14037933982, 9358622655, 9358623655, 9358624655, 9358624656, 9358676674, 15504938972,
    15504939972, 15504958534, 15504959534, 15504960534, 15504960705, 15504960903, 21436825797, 21436825989,
    21436826989,
)

# Moments of reseeds (`crng_reseed_interval`).
RESEEDS = (
    0, 1162, 2388, 3566, 5079, 7759, 12154, 20797, 31192, 51219, 90951, 160376, 224580, 319328, 381055, 483247,
)

# Bits that are credited one after another (`_credit_init_bits`). The fourth and the seventh reach a threshold.
CREDITS = (0, 1, 126, 1, 100, 27, 1, 50, 1 << 20)

TEXT_LENGTHS = (0, 1, 2, 63, 64, 65, 127, 128, 129, 192, 255, 256)
PIECES = (0, 1, 63, 64, 65, 128)
STREAM_STARTS = (0, 1, 3, 63, 64, 65, 4095)
STREAM_LENGTHS = (0, 1, 2, 3, 4, 5, 61, 64, 66, 130)
READ_LENGTHS = (0, 1, 31, 32, 33, 64, 65, 96, 97, 100, 700, 4096)


def spelt(data):
    return data.hex() or '-'


def hashes():
    for key, text, _ in HASHES:
        yield 'hash %s %s 0' % (spelt(key), spelt(text)), replay.blake2s(key, text).hex()
    for length in TEXT_LENGTHS:
        text = bytes(range(length))
        for key in (b'', COUNTING):
            for size in PIECES:
                yield 'hash %s %s %d' % (spelt(key), spelt(text), size), hashlib.blake2s(text, key=key).hexdigest()


def streams():
    places = [(key, 64 * number, 64) for key, number, _ in BLOCKS]
    places += [(COUNTING, start, length) for start in STREAM_STARTS for length in STREAM_LENGTHS]
    # The second is block 2^32, of which the counter's second word is 1.
    places += [(COUNTING, 0, 700), (COUNTING, 64 << 32, 64)]
    for key, start, length in places:
        yield 'stream %s %d %d' % (spelt(key), start, length), spelt(replay.keystream(key, start, length))


def reads():
    for key in (ZERO, COUNTING):
        for length in READ_LENGTHS:
            for word in ('kernel', 'user'):
                data = replay.bytes_of_read(key, length, word == 'user')
                left = replay.keystream(key, 0, 32)
                yield '%s %s %d' % (word, spelt(key), length), '%s %s' % (spelt(left), spelt(data))


def pools():
    pool = replay.Pool()
    for text, hardware in ((b'a', None), (b'bc', ZERO), (b'', COUNTING), (b'more', ZERO)):
        pool.text += text
        yield 'mix %s' % spelt(text), str(pool.bits)
        if hardware is not None:
            yield 'extract %s' % spelt(hardware), pool.extract(hardware).hex()
    for bits in CREDITS:
        crossed = {None: '-', 128: 'early', 256: 'ready'}[pool.credit(bits)]
        yield 'credit %d' % bits, '%s %d' % (crossed, pool.bits)
    yield 'extract %s' % spelt(ZERO), pool.extract(ZERO).hex()


def samples():
    fast, timer = replay.FastPool(), replay.InputTimer()
    for first, second, now in INTERRUPTS:
        is_due = fast.mix(first, second, now)
        yield 'irq %d %d %d' % (first, second, now), '%s %d' % tuple(dumped(fast, now)) if is_due else '-'
    for now in MOMENTS:
        yield 'bits %d' % now, str(timer.bits(now))


def dumped(fast, now):
    text, bits = fast.dump(now)
    return spelt(text), bits


def reseeds():
    base = replay.Base()
    for now in RESEEDS:
        base.install(ZERO, now, base.due is not None and base.due <= now)
        yield 'reseed %d' % now, str(base.generation)
        yield 'due %d' % (base.due - 1), 'no'
        yield 'due %d' % base.due, 'yes'


def is_published():
    """Whether hash and keystream give the published numbers."""
    answers = [hashlib.blake2s(text, key=key).hexdigest() == wanted for key, text, wanted in HASHES]
    answers += [replay.keystream(key, 64 * number, 64).hex() == wanted for key, number, wanted in BLOCKS]
    return all(answers)


def main():
    words = command.take(__doc__, options=('--write',))
    if not is_published():
        sys.exit('hashlib or replay.py gives other numbers than are published')
    rows = [row for made in (hashes, streams, reads, pools, samples, reseeds) for row in made()]
    status = 0
    for name, lines in zip(('stdin', 'stdout'), zip(*rows)):
        path, text = os.path.join(FOLDER, name), ''.join(line + '\n' for line in lines)
        if words:
            with open(path, 'w', encoding='utf-8') as file:
                file.write(text)
            continue
        with open(path, encoding='utf-8') as file:
            found = file.read().splitlines()
        for number, (line, wanted) in enumerate(zip(found, lines), 1):
            if line != wanted:
                status = 1
                print('%s:%d: %s, and here it is %s' % (path, number, line, wanted))
        if len(found) != len(lines):
            status = 1
            print('%s has %d rows, and here are %d' % (path, len(found), len(lines)))
    print('%d rows' % len(rows))
    return status


if __name__ == '__main__':
    command.end('vectors.py', main)

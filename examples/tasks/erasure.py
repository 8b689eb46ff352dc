#!/usr/bin/env python3
"""The life of each key of erasure.script, by its name, and the bytes that the transcript's reads serve, computed key by key."""
import os
import sys

sys.path.insert(0, os.path.join(os.path.dirname(os.path.abspath(__file__)), '..', '..', 'tools'))
from replay import blake2s, keystream


def kept(key):
    return keystream(key, 0, 32)


def passed_on(key):
    return keystream(key, 32, 32)


zeros = bytes(32)
first_seed = blake2s(b'', b'')
second_seed = blake2s(blake2s(first_seed, zeros + bytes(8)), b'')
root_1 = blake2s(first_seed, zeros + b'\1' + bytes(7))
root_2 = blake2s(second_seed, zeros + b'\1' + bytes(7))

call_base_1 = passed_on(root_1)
cpu_0 = kept(call_base_1)
cpu_1 = kept(cpu_0)
call_base_3 = passed_on(root_2)
print('read 16  Call(Base, 1) from 32   ', keystream(call_base_1, 32, 16).hex())
print('read 40  Call(Cpu(0), 1) from 64 ', keystream(passed_on(cpu_0), 64, 40).hex())
print('kread 16 Cpu(0, 1) from 32       ', keystream(cpu_1, 32, 16).hex())
print('read 16  Call(Base, 3) from 32   ', keystream(call_base_3, 32, 16).hex())

"""Takes the table of functions out of a WebAssembly module that calls no function through it.

wasm-ld leaves an empty table whose size has 64 bits, which Node 20 and binaryen 108 do not read.
"""

import command

TABLE, ELEMENTS, HEADER = 4, 9, 8


def number(module, at):
    """A number as WebAssembly writes it, seven bits a byte, and the place after it."""
    value = shift = 0
    while True:
        byte = module[at]
        value |= (byte & 127) << shift
        at, shift = at + 1, shift + 7
        if byte < 128:
            return value, at


def sections(module):
    at = HEADER
    while at < len(module):
        length, start = number(module, at + 1)
        yield module[at], module[at:start + length]
        at = start + length


def drop_table(path):
    with open(path, "rb") as file:
        module = file.read()
    parts = list(sections(module))
    if any(kind == ELEMENTS for kind, _ in parts):
        raise command.Fault(f"{path} calls functions through a table, for which this build has no place")
    with open(path, "wb") as file:
        file.write(module[:HEADER] + b"".join(part for kind, part in parts if kind != TABLE))

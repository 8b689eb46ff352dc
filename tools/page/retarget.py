"""Turns the LLVM text of a program for x86-64 into that of the same program for WebAssembly with a 64-bit memory.

Both have pointers of 64 bits, and lay out values alike: integers of 64 and of 128 bits are aligned to 8 and to 16. So the
code, which reaches fields by offsets in bytes, stays as it is. Only the data layout and the triple change, and whatever
only an x86 processor understands.
"""

import re

LAYOUT = "e-m:e-p:64:64-p10:8:8-p20:8:8-i64:64-i128:128-n32:64-S128-ni:1:10:20"
TRIPLE = "wasm64-unknown-unknown"
# Attributes of an x86 processor or of its stack.
X86 = re.compile(
    r' sanitize_address|"frame-pointer"="all"|"probe-stack"="[^"]*"|"stack-probe-size"="\d*"'
    r'|"target-cpu"="[^"]*"|"target-features"="[^"]*"')
NO_ATTRIBUTES = re.compile(r"= \{ *\}")
# A thread would begin here. The page starts no thread, so no function has to be called by its place in a table.
ENTRY = re.compile(r'ptr (noundef )?@"[^"]*\+thread called by C \d+"')


def retargeted(line):
    """The line for WebAssembly, or None if it is left out there."""
    if line.startswith("target datalayout"):
        return f'target datalayout = "{LAYOUT}"\n'
    if line.startswith("target triple"):
        return f'target triple = "{TRIPLE}"\n'
    if "@llvm.x86.sse2.pause" in line:
        return None
    if line.startswith("attributes"):
        line = NO_ATTRIBUTES.sub('= { "none" }', X86.sub("", line))
    if " call " in line and ("pthread_create" in line or "threads::create" in line):
        line = ENTRY.sub("ptr null", line)
    # For the WebAssembly backend C's `main` has a meaning of its own.
    return line.replace("@main(", "@program_main(")


def retarget(path, to):
    with open(path, encoding="utf-8") as text, open(to, "w", encoding="utf-8") as made:
        made.writelines(line for line in map(retargeted, text) if line is not None)

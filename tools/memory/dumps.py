"""Keeps the machine's memory at chosen moments of a recorded boot: the hooks of tools/boot/recorder.py.

recorder.py takes its recorder from here if MEMORY_DUMPS is set, which tools/memory/record does. The machine's memory is a
file, so a dump is a copy of that file while all CPUs are halted. gdb writes nothing into this memory, unless a fault is
planted or the kernel is mended. The record gets a line for each dump, between the lines before and after it:

    {"stop": "dump", "name": "03_sync", "seconds": 14.4, "registers": {..}}

A dump is made once no call of the random core is open on any CPU, since inside a call keys are on their way to their holders.

The environment has: MEMORY_DUMPS, the folder for the dumps; MEMORY_FILE, the file that is the machine's memory;
MEMORY_AFTER, after how many values to dump, as `1,10,1000`; MEMORY_AT, the system calls at which to dump, as
`sync,reboot`; MEMORY_EVERY, after how many stops to dump again; MEMORY_CHANGE, `plant` or `mend`.
"""

import os
import re
import shutil
import subprocess
import sys

GENERAL = "rax rbx rcx rdx rsi rdi rbp rsp r8 r9 r10 r11 r12 r13 r14 r15 rip".split()
WIDE = 16  # XMM registers
CALLS = {"kread", "uread", "reseed", "credit"}  # the calls whose beginning and return the recorder sees
REP_STOS = bytes.fromhex("f348ab")
LONG_NOP = bytes.fromhex("0f1f00")
TICKS = 250  # a second, in Debian's kernels
ROOM = 1 << 30  # bytes that have to be free before a dump


def numbers_of(name):
    return [int(it) for it in os.environ.get(name, "").split(",") if it]


def with_dumps(recorder, base):
    """`base`, which is a Recorder of the module `recorder`, with dumps."""
    gdb, register = recorder.gdb, recorder.register

    def registers():
        found = {name: f"{register(name):016x}" for name in GENERAL}
        for number in range(WIDE):
            try:
                halves = [int(gdb.parse_and_eval(f"$xmm{number}.v2_int64[{half}]")) & (2**64 - 1) for half in (0, 1)]
            except gdb.error:
                break
            found[f"xmm{number}"] = b"".join(it.to_bytes(8, "little") for it in halves).hex()
        return found

    class Dumping(base):
        def __init__(self, *given):
            super().__init__(*given)
            self.folder, self.file = os.environ["MEMORY_DUMPS"], os.environ["MEMORY_FILE"]
            self.after, self.every = set(numbers_of("MEMORY_AFTER")), (numbers_of("MEMORY_EVERY") or [0])[0]
            self.seen = self.written = self.made = 0
            self.inside, self.wanted = set(), []  # open calls of the core, and words for dumps that are due

        # Moments

        def put(self, **fields):
            super().put(**fields)
            self.written += 1
            if self.every and self.written % self.every == 0:
                self.want(f"stop{self.written}")

        def want(self, word):
            """Notes that a dump is due. It is made at the next moment at which no call is open."""
            self.wanted.append(word)

        def dump_wanted(self):
            if self.wanted and not self.inside:
                word, self.wanted = self.wanted[0], []
                self.dump(word)

        def dump(self, word):
            self.made += 1
            name = f"{self.made:02d}_{word}"
            if shutil.disk_usage(self.folder).free < ROOM:
                raise OSError(f"no dump {name}: less than 1 GiB is free in {self.folder}")
            path = os.path.join(self.folder, name + ".ram")
            subprocess.run(["cp", "--sparse=always", self.file, path], check=True)
            self.put(stop="dump", name=name, seconds=self.seconds(), registers=registers())
            print(f"dump {name}", file=sys.stderr, flush=True)

        def seconds(self):
            """The kernel's uptime by its ticks, whose count begins 300 seconds before 2**32."""
            return (recorder.number(self.symbols.address("jiffies_64")) - 2**32) / TICKS + 300

        def enter(self, call, **fields):
            super().enter(call, **fields)
            if call in CALLS:
                self.inside.add((register("rsp") // recorder.STACK, call))

        def leave(self, call, value=None):
            super().leave(call, value)
            self.inside.discard((register("rsp") // recorder.STACK, call))
            self.count(value is not None)

        def taken(self, *given):
            super().taken(*given)
            self.count(True)

        def count(self, is_value):
            self.seen += is_value
            if is_value and self.seen in self.after:
                self.want(f"after{self.seen}")
            if self.left <= 0:
                self.want("end")
            self.dump_wanted()

        def called(self, word):
            self.want(word)
            self.dump_wanted()

        def place_commits(self):
            super().place_commits()
            for word in os.environ.get("MEMORY_AT", "").split(","):
                if word:
                    self.at(self.symbols.address(f"__x64_sys_{word}"), lambda word=word: self.called(word))
            change = os.environ.get("MEMORY_CHANGE")
            if change:
                {"plant": self.plant, "mend": self.mend}[change]()

        # The two controls

        def plant(self):
            """A fault: chacha_block_generic no longer wipes its permuted state."""
            start, end = self.symbols.bounds("chacha_block_generic")
            at = recorder.memory(start, end - start).index(REP_STOS)
            gdb.selected_inferior().write_memory(start + at, LONG_NOP)
            print(f"planted: no wipe at {start + at:#x}", file=sys.stderr)

        def mend(self):
            """blake2s_compress_generic leaves zeros in place of its locals."""
            code = recorder.Code(self.symbols, "blake2s_compress_generic")
            size, pushes = frame_of(code.lines)

            def wipe():
                top = register("rsp") - 8 * pushes
                gdb.selected_inferior().write_memory(top - size, bytes(size))

            for address in code.returns():
                self.at(address, wipe)
            print(f"mended: {size} bytes of locals, under {pushes} pushed registers, are wiped", file=sys.stderr)

    return Dumping


def frame_of(lines):
    """How many bytes of locals a function has, and how many registers it pushed before them."""
    pushes = 0
    for _, text in lines[:40]:
        match = re.match(r"sub +\$0x([0-9a-f]+),%rsp", text)
        if match:
            return int(match.group(1), 16), pushes
        pushes += text.startswith("push")
    raise LookupError("blake2s_compress_generic has no frame")

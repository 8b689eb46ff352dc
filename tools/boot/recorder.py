"""Records the steps of the random core of a Linux kernel while it boots. Run by gdb, attached to QEMU's stub.

`record` starts QEMU halted and then this file. It waits until the kernel's text is in memory, looks up in it the places
at which a step of the core is committed, and notes each time that a CPU comes there: one line of JSON for each stop.

A step is noted when it is committed: after it took its lock, and before it releases that lock. So the record has the
order in which the locks were taken, and nothing has to be moved afterwards. Calls are also noted when they begin and
end, for their arguments and for the values that they hand out, but that order decides nothing.

The places are found by the instructions near them (after the call of a lock, after the load of the generation, before a return), in
functions that are found by their names. If one is not found exactly as expected, nothing is recorded.

Each value has a note of its receiver: the task that ran there, and for an integer the function that called for it.

The environment has: BOOT_STUB, the address of QEMU's stub; BOOT_SYMBOLS, the lines of /proc/kallsyms of the same
kernel; BOOT_RECORD, the file to write; BOOT_VALUES, after how many values to stop; BOOT_VGETRANDOM, 1 if the calls of
vgetrandom in user memory are noted too (vdso_places.py).
"""

import bisect
import json
import os
import re
import sys
import time

try:
    import gdb
except ImportError:
    raise SystemExit("recorder.py: gdb runs this file, and tools/boot/record starts gdb: see docs/RECORDING.md") from None

SEED_BLOCK = 40  # bytes that an extraction hashes with its seed: 32 of the hardware, and a counter of 8
BATCH = 96  # bytes of a batch of integers
GENERATION = 32  # the generation's offset from the key, in the base as in a CPU's part
STACK = 16384  # kernel stacks have this size and begin at a multiple of it
ZERO_FLAG = 0x40
EMPTY_OR_EARLY = 2  # crng_init is below it while the core is not ready
LONGEST = 1 << 17  # at most this many bytes of a read are noted
WIDTHS = (8, 16, 32, 64)
BELOW = "__get_random_u32_below"  # draws integers for another function
USER_BUFFER = 0  # iov_iter of one buffer in user memory
EAGAIN = -11
KERNEL_HALF = 2**63  # addresses from here on are the kernel's
TASK_AT_MOST = 12288  # bytes of a task that are searched for its numbers and name
NAME = 16  # bytes of a task's name
CALL = 5  # bytes of a call instruction
SOFT, HARD = 0x100, 0xFF0000  # bits of the count of interrupts that a CPU handles


class Symbols:
    """The names of the kernel's addresses."""

    def __init__(self, path):
        self.addresses, named = {}, []
        with open(path, errors="replace") as lines:
            for line in lines:
                fields = line.split()
                if len(fields) == 3 and re.fullmatch("[0-9a-f]{16}", fields[0]):
                    self.addresses.setdefault(fields[2], int(fields[0], 16))
                    named.append((int(fields[0], 16), fields[2]))
        named.sort()
        self.starts = [start for start, _ in named]
        self.names = [name for _, name in named]

    def address(self, name):
        return self.addresses[name]

    def function(self, name):
        """The name that the compiler gave a function: it may have a suffix, as in `extract_entropy.constprop.0`."""
        found = [it for it in self.addresses if re.fullmatch(re.escape(name) + r"(\.(constprop|isra|part)\.\d+)*", it)]
        if len(found) != 1:
            raise LookupError(f"{name} is {found} in the symbols")
        return found[0]

    def function_at(self, address):
        """The name of the function that an address lies in."""
        return self.names[bisect.bisect_right(self.starts, address) - 1]

    def bounds(self, name):
        """The first address of a function, and the first address after it."""
        start = self.addresses[name]
        return start, self.starts[bisect.bisect_right(self.starts, start)]


def register(name):
    return int(gdb.parse_and_eval("$" + name)) & (2**64 - 1)


def memory(address, count):
    return bytes(gdb.selected_inferior().read_memory(address, count)) if count else b""  # gdb 16 refuses a count of 0


def number(address, size=8):
    return int.from_bytes(memory(address, size), "little")


def held(address, count):
    """The bytes of a buffer, or None if its page is away."""
    try:
        return memory(address, count).hex()
    except gdb.MemoryError:
        return None


def cpu():
    """QEMU shows each CPU as a thread, the first as thread 1."""
    return gdb.selected_thread().num - 1


class Code:
    """The instructions of one function, as pairs of an address and a text."""

    def __init__(self, symbols, name):
        self.symbols, self.name = symbols, symbols.function(name)
        self.start, self.end = symbols.bounds(self.name)
        architecture = gdb.selected_frame().architecture()
        self.lines = [(it["addr"], it["asm"]) for it in architecture.disassemble(self.start, self.end - 1)]

    def one(self, found, place):
        if len(found) != 1:
            raise LookupError(f"{self.name} has {len(found)} places {place}")
        return found[0]

    def after(self, pattern, place):
        """The address after the one instruction that fits, and the match."""
        found = []
        for (_, text), (following, _) in zip(self.lines, self.lines[1:]):
            match = re.match(pattern, text)
            if match:
                found.append((following, match))
        return self.one(found, place)

    def after_call(self, name):
        target = f"0x{self.symbols.address(name):x}"
        return self.after(rf"call +{target}\b", f"after the call of {name}")[0]

    def after_load(self, address):
        """The address after the load from a fixed address, and the register that was loaded."""
        place, match = self.after(rf"mov +[^ ]*\(%rip\),%(\w+) +# 0x{address:x}$", f"after a load of {address:x}")
        return place, match.group(1)

    def returns(self):
        """The addresses at which the function returns, or jumps to another function instead."""
        thunk = f"0x{self.symbols.address('__x86_return_thunk'):x}"
        found = [at for at, text in self.lines if re.match(rf"ret|jmp +{thunk}\b", text)]
        for at, text in self.lines:
            jump = re.match(r"jmp +0x([0-9a-f]+)", text)
            target = int(jump.group(1), 16) if jump else self.start
            if not self.start <= target < self.end and self.symbols.function_at(target).startswith(("_raw_", "_printk")):
                found.append(at)
        if not found:
            raise LookupError(f"{self.name} has no end")
        return found


    def frame(self):
        """How far above the stack pointer the return address is, once the function has its frame."""
        size, tracer = 0, f"0x{self.symbols.addresses.get('__fentry__', 0):x}"  # a kernel built without tracing has none
        for _, text in self.lines:
            less = re.match(r"sub +\$0x([0-9a-f]+),%rsp", text)
            if re.match(rf"(?!call +{tracer}\b)(j|call|ret)", text):
                return size
            size += 8 if text.startswith("push") else int(less.group(1), 16) if less else 0
        raise LookupError(f"{self.name} has no frame")


class Tasks:
    """The task that runs on a CPU.

    The offsets of a task's numbers and name are found in the first task, while it is alone: it is its own parent, twice
    in a row, with the two numbers and one word of 8 bytes before; and its name is `swapper`.
    """

    def __init__(self, symbols):
        self.current = symbols.address("pcpu_hot")  # of each CPU: the task, and the count that interrupts raise
        self.ticks = symbols.address("jiffies_64")
        first = symbols.address("init_task")
        task = memory(first, TASK_AT_MOST)
        own = first.to_bytes(8, "little")
        self.parent = self.only(task, own + own, "own parents")
        self.name = self.only(task, b"swapper\0", "name")
        self.start, self.end = min(self.parent - 16, self.name), max(self.parent, self.name + NAME)
        if self.here()[0] != first or memory(first + self.parent - 16, 8) != bytes(8):
            raise LookupError("the first task is not at the expected place")
        self.first_tick = number(self.ticks)
        self.ticks_of_a_second, rest = divmod(2**32 - self.first_tick, 300)  # ticks start five minutes before they wrap
        if rest or self.ticks_of_a_second not in (100, 250, 300, 1000):
            raise LookupError(f"the first tick is {self.first_tick}")

    def only(self, task, content, words):
        places = [at for at in range(0, len(task), 8) if task.startswith(content, at)]
        if len(places) != 1:
            raise LookupError(f"the first task has {len(places)} places of its {words}")
        return places[0]

    def here(self):
        """The task on this CPU, and its count of interrupts that are handled."""
        base = register("gs_base")
        base = base if base >= KERNEL_HALF else register("k_gs_base")
        both = memory(base + self.current, 12)
        return int.from_bytes(both[:8], "little"), int.from_bytes(both[8:], "little")

    def now(self):
        """Milliseconds of the kernel's tick counter."""
        return (number(self.ticks) - self.first_tick) * 1000 // self.ticks_of_a_second

    def who(self):
        """The moment, process, thread, kind of context (task, softirq or interrupt), and the task's name."""
        task, count = self.here()
        held_there = memory(task + self.start, self.end - self.start)
        at = self.parent - 16 - self.start
        numbers = [int.from_bytes(held_there[it : it + 4], "little") for it in (at + 4, at)]
        name = held_there[self.name - self.start :][:NAME].split(b"\0")[0]
        doing = "interrupt" if count & HARD else "softirq" if count & SOFT else "task"
        return [self.now(), *numbers, doing, name.decode("ascii", "backslashreplace")]


class Place(gdb.Breakpoint):
    """A place, at which something is noted each time that a CPU comes there."""

    def __init__(self, recorder, address, note):
        super().__init__(f"*{address:#x}", gdb.BP_BREAKPOINT, internal=True)
        self.silent = True
        self.recorder, self.note = recorder, note

    def stop(self):
        try:
            self.note()
        except Exception as error:  # a fault of the recorder belongs into the record, which is then refused
            self.recorder.put(stop="error", why=repr(error))
        return self.recorder.is_over()


class Recorder:
    """The places, and the notes that are made at each of them."""

    def __init__(self, symbols, record, values):
        self.symbols, self.record, self.left = symbols, record, values
        self.reads = {}  # for each open read, by its stack pointer, the buffer and length that it will fill
        self.base = symbols.address("base_crng")
        self.pool = symbols.address("input_pool")
        self.tasks = None
        self.callers = {}  # names of functions, by the return address of a call
        self.frames = {}  # for the functions of integers, how far above the stack pointer the return address is
        self.parts = []  # parts that note more, at places of their own
        self.jobs = []  # done when the machine is halted, since a place may not change places
        self.early_places = []  # places that matter only while the core is not ready

    def is_over(self):
        return self.left <= 0 or bool(self.jobs)

    def is_ready(self):
        return number(self.symbols.address("crng_init"), 4) >= EMPTY_OR_EARLY

    def put(self, **fields):
        fields["cpu"] = cpu()
        self.record.write(json.dumps(fields) + "\n")

    def at(self, address, note):
        return Place(self, address, note)

    def caller(self):
        """The function that called the present one; to be called at its first instruction."""
        return self.symbols.function_at(number(register("rsp")))

    # Calls, from their first instruction to their return.

    def enter(self, call, **fields):
        pointer = register("rsp")
        self.put(stop="enter", call=call, stack=pointer // STACK, pointer=pointer, **fields)

    def leave(self, call, value=None):
        pointer = register("rsp")
        more = {}
        if value is not None:
            self.left -= 1
            more["who"] = self.tasks.who()
        self.put(stop="leave", call=call, stack=pointer // STACK, pointer=pointer, value=value, **more)

    def commit(self, step, **fields):
        self.put(stop=step, stack=register("rsp") // STACK, **fields)

    def begin_read(self, call, buffer, count, **fields):
        self.enter(call, count=count, by=self.caller(), **fields)
        self.reads[register("rsp")] = (buffer, min(count, LONGEST))

    def end_read(self, call):
        buffer, count = self.reads.pop(register("rsp"), (None, 0))
        self.leave(call, None if buffer is None else held(buffer, count))

    def kernel_read(self):
        """The filling of a batch is such a read too; its bytes are handed out later, one integer at a time."""
        count = register("rsi")
        asked = {"asked": self.asker(register("rsp"))} if self.caller() in self.frames else {}
        self.begin_read("kread", register("rdi") if count != BATCH else None, count, **asked)

    def user_read(self):
        iterator = register("rdi")
        kind, skipped = number(iterator, 1), number(iterator + 8)
        buffer = number(iterator + 16) + skipped if kind == USER_BUFFER else None
        self.begin_read("uread", buffer, number(iterator + 24))

    def system_read(self):
        registers = memory(register("rdi"), 160)  # struct pt_regs: arguments, and the program's registers
        wanted, buffer, ip, pointer = (int.from_bytes(registers[at : at + 8], "little") for at in (104, 112, 128, 152))
        flags = int.from_bytes(registers[96:100], "little")
        self.enter_source("getrandom", flags=flags, wanted=wanted, buffer=buffer, ip=ip, sp=pointer, mm=register("cr3") >> 12)

    def enter_source(self, call, **fields):
        """A user's call, with its caller. While the core is not ready, its answer is noted too."""
        if not self.is_ready():
            fields["early"] = True
        elif self.early_places:
            self.jobs.append(self.leave_early_places)
        self.enter(call, who=self.tasks.who(), **fields)

    def answer(self, call):
        """The answer of a user's call, as long as the core may not be ready."""
        pointer, result = register("rsp"), register("rax")
        if result == EAGAIN % 2**64:
            self.put(stop="answer", call=call, stack=pointer // STACK, pointer=pointer, result=EAGAIN)

    def leave_early_places(self):
        for place in self.early_places:
            place.delete()
        self.early_places = []

    # Steps, at the places where they are committed.

    def hashed(self):
        """Bytes that go into the pool, or the block with the hardware's words that an extraction hashes."""
        state, text, count = register("rdi"), register("rsi"), register("rdx")
        if state == self.pool:
            self.commit("mix", by=self.caller(), data=memory(text, count).hex())
        elif count == SEED_BLOCK and number(text + 32) == 0:
            self.commit("extract", hw=memory(text, 32).hex())

    def credited(self):
        if register("eflags") & ZERO_FLAG:
            self.commit("credit", was=register("eax") % 2**32)

    def erased(self):
        """A key is replaced: the base's for a read or for a CPU, or a CPU's for a read."""
        key = register("rdi")
        if key != self.base:
            self.commit("serve", generation=number(key + GENERATION))
        elif not self.is_ready():
            self.commit("draw")
        else:
            self.commit("refill", generation=number(self.base + GENERATION))

    def taken(self, width, value, generation, frame):
        """An integer was loaded from its batch, after this batch's lock and a look at the generation."""
        self.left -= 1
        digits = (register(value) % 2**width).to_bytes(width // 8, "little").hex()
        self.commit("take", call=f"int{width}", generation=register(generation), value=digits,
                    by=self.asker(register("rsp") + frame), who=self.tasks.who())

    def asker(self, pointer):
        """The function that asked for an integer, by a return address. A function that asks for another one is left
        out."""
        name = self.called_from(number(pointer))
        while name in self.frames:
            pointer += 8 + self.frames[name]
            name = self.called_from(number(pointer))
        return name

    def called_from(self, address):
        """The function that a call was made in; the call instruction is just before the return address."""
        if address not in self.callers:
            is_call = address >= KERNEL_HALF and memory(address - CALL, 1) == b"\xe8"
            self.callers[address] = self.symbols.function_at(address) if is_call else None
        return self.callers[address]

    def place_calls(self):
        entries = [("_get_random_bytes", "kread", self.kernel_read), ("get_random_bytes_user", "uread", self.user_read)]
        for name, call, note in entries:
            code = Code(self.symbols, name)
            self.at(code.start, note)
            for address in code.returns():
                self.at(address, lambda call=call: self.end_read(call))
        address = self.symbols.address
        self.at(address("__x64_sys_getrandom"), self.system_read)
        self.at(address("random_read_iter"), lambda: self.enter_source("random_file"))
        self.at(address("urandom_read_iter"), lambda: self.enter_source("urandom_file"))
        for name, call in (("__x64_sys_getrandom", "getrandom"), ("random_read_iter", "random_file")):
            for place in Code(self.symbols, name).returns():
                self.early_places.append(self.at(place, lambda call=call: self.answer(call)))
        for name, call, fields in (
            ("crng_reseed", "reseed", lambda: {"by": self.caller()}),
            ("_credit_init_bits", "credit", lambda: {"bits": register("rdi")}),
        ):
            code = Code(self.symbols, name)
            self.at(code.start, lambda call=call, fields=fields: self.enter(call, **fields()))
            for address in code.returns():
                self.at(address, lambda call=call: self.leave(call))

    def place_integers(self):
        self.frames[BELOW] = Code(self.symbols, BELOW).frame()
        for width in WIDTHS:
            code = Code(self.symbols, f"get_random_u{width}")
            generation = code.after_load(self.base + GENERATION)[1]
            self.frames[code.name] = code.frame()
            place, match = code.after(r"mov\w* +[-0-9a-fx]*\(%\w+,%\w+(?:,\d)?\),%(\w+)$", "after a load from a list")
            self.at(place, lambda width=width, value=match.group(1), generation=generation, frame=self.frames[code.name]:
                    self.taken(width, value, generation, frame))

    def place_commits(self):
        address = self.symbols.address
        self.at(address("blake2s_update"), self.hashed)
        self.at(address("crng_fast_key_erasure"), self.erased)
        reseed = Code(self.symbols, "crng_reseed")
        self.at(reseed.after_call("_raw_spin_lock_irqsave"),
                lambda: self.commit("install", generation=number(self.base + GENERATION) + 1))
        credit = Code(self.symbols, "_credit_init_bits")
        self.at(credit.after(r"lock cmpxchg .*", "after a compare and exchange")[0], self.credited)
        self.at(credit.after_call("_raw_spin_lock_irqsave"),
                lambda: self.commit("early", phase=number(address("crng_init"), 4)))
        self.at(address("random_prepare_cpu"), lambda: self.put(stop="prepare", of=register("rdi")))
        self.at(address("random_online_cpu"), lambda: self.put(stop="online", of=register("rdi")))

    def run(self):
        """Waits for the kernel's first C function, and then records until the machine is off or everything was seen."""
        gdb.Breakpoint(f"*{self.symbols.address('start_kernel'):#x}", gdb.BP_BREAKPOINT, internal=True, temporary=True)
        gdb.execute("continue")
        self.tasks = Tasks(self.symbols)
        self.place_calls()
        self.place_integers()
        self.place_commits()
        for part in self.parts:
            part.place()
        try:
            while True:
                gdb.execute("continue")
                if self.left <= 0 or not self.jobs:
                    break
                jobs, self.jobs = self.jobs, []
                for job in jobs:
                    job()
            gdb.execute("kill")
        except gdb.error as error:  # the machine was switched off, and QEMU with it
            print("the recording ends:", error)


def attach(stub):
    """QEMU may not listen yet."""
    for _ in range(300):
        try:
            gdb.execute(f"target remote {stub}")
            return
        except gdb.error:
            time.sleep(0.2)
    raise TimeoutError(f"nothing listens at {stub}")


def recorder_class():
    """The recorder, with the parts that the environment asks for."""
    sys.path.insert(0, os.path.dirname(os.path.abspath(__file__)))
    found = Recorder
    if os.environ.get("BOOT_VGETRANDOM") == "1":
        import vdso_places

        found = vdso_places.with_vgetrandom(sys.modules[__name__], found)
    if "MEMORY_DUMPS" in os.environ:
        sys.path.insert(0, os.path.join(os.path.dirname(os.path.dirname(os.path.abspath(__file__))), "memory"))
        import dumps

        found = dumps.with_dumps(sys.modules[__name__], found)
    return found


def main():
    # Without `always-inserted` gdb removes all places at each stop and puts them back: 120 packets a stop.
    for setting in ("architecture i386:x86-64", "pagination off", "confirm off", "breakpoint always-inserted on"):
        gdb.execute(f"set {setting}")
    attach(os.environ["BOOT_STUB"])
    with open(os.environ["BOOT_RECORD"], "w") as file:
        recorder_class()(Symbols(os.environ["BOOT_SYMBOLS"]), file, int(os.environ.get("BOOT_VALUES", "1000000"))).run()


def end(why):
    print(f"recorder.py: {why}", file=sys.stderr, flush=True)
    gdb.execute("quit 1")


try:
    main()
except KeyError as missing:
    end(f"{missing} is missing, in the environment or in the symbols; tools/boot/record sets both")
except (LookupError, OSError, TimeoutError, ValueError) as fault:
    end(fault)

"""Notes the calls of vgetrandom in user memory. A part of recorder.py, which gdb runs.

vgetrandom is a function of the vDSO, a small shared object that the kernel carries and maps into each program. The
places to note are found in its machine code by the instructions there, once for all programs: in each program they have the
same distance from the vDSO's start. If one is missing or there are two, nothing is recorded.

| Stop | Where the call is |
|---|---|
| venter | at its first instruction |
| vlook | it loaded the published generation, and compares it with the state's next |
| vkey | it wrote that generation into the state, and asks the system for a key |
| vnew | it has the key |
| vserve | the key is current, and nothing was copied |
| vblocks | it calls ChaCha for some blocks |
| vend | it compares the state's generation with the published one again |
| vleave | it returns |

A stop belongs to the call with the same program memory (cr3) and stack pointer at the call's first instruction.
"""

import hashlib
import re

STATE = 144  # bytes of a state
KEY, GENERATION, POSITION, MARK = 96, 128, 136, 137  # in a state
PAGE = 4096
ALIGNED = 16  # functions begin at a multiple of it
DYNAMIC, STRINGS, SYMBOLS = 2, 5, 6  # of ELF: a header's kind, and words of the dynamic section
LONGEST_CALL = 1 << 20  # bytes of an answer that are read
LONGEST = 64  # bytes of an answer that are kept; of a longer one a digest of all is noted
NAME = b"__vdso_getrandom\0"


def only(found, place):
    if len(found) != 1:
        raise LookupError(f"vgetrandom has {len(found)} places {place}")
    return found[0]


class Listing:
    """The instructions of vgetrandom, as pairs of an offset in the vDSO and a text without comments."""

    def __init__(self, lines):
        # The function ends at the beginning of ChaCha, the second mark of a branch's target.
        self.chacha = only([at for at, text in lines if text == "endbr64"][1:2], "of an end")
        self.lines = [(at, text) for at, text in lines if at < self.chacha]

    def numbers(self, pattern, first=0, count=None):
        """The places in the list of the instructions that fit, among `count` of them from place `first` on."""
        last = len(self.lines) if count is None else first + count
        return [it for it, (_, text) in enumerate(self.lines[:last]) if it >= first and re.match(pattern, text)]

    def places(self):
        """The offsets of each kind of stop, the state's register, and the place in which the function keeps the number of its
        attempt."""
        text_of, at = [text for _, text in self.lines], [at for at, _ in self.lines]
        only(self.numbers(r"push +%rbp", 0, 3), "of a frame's beginning")
        only(self.numbers(r"mov +%rsp,%rbp", 0, 4), "of a frame")
        # The first look: the published generation is loaded, and compared with the state's at once.
        look = only(self.numbers(rf"cmp +{GENERATION:#x}\(%\w+\),%rax"), "of a first look")
        state = re.search(r"\(%(\w+)\)", text_of[look]).group(1)
        # For a key the system call has no flags, and the position is then set to the end of the batch.
        key = only([it for it in self.numbers(r"syscall") if any(re.match(r"xor +%edx,%edx", text) for text in text_of[it - 4 : it])],
                   "of a call for a key")
        new = only(self.numbers(rf"movb +\$0x60,{POSITION:#x}\(%{state}\)", key, 6), "after a key")
        last = only(self.numbers(rf"mov +{GENERATION:#x}\(%{state}\),%rdx"), "of a last look")
        end = only(self.numbers(r"cmp +%rax,%rdx", last, 4), "of a last comparison")
        blocks, returns = self.numbers(rf"call +{self.chacha:x}$"), self.numbers(r"ret\b")
        if not blocks or not returns:
            raise LookupError("vgetrandom has no place of ChaCha, or of a return")
        found = {"venter": [0], "vlook": [look], "vkey": [key], "vnew": [new], "vserve": [look + 2], "vblocks": blocks,
                 "vend": [end], "vleave": returns}
        return {stop: [at[it] for it in places] for stop, places in found.items()}, state, self.second(end)

    def second(self, end):
        """The place in which the function keeps the number of its attempt: the word's distance from the frame, its size, the value
        that it is compared with when the last look finds another generation, and whether the second attempt has this
        value."""
        text_of, at = [text for _, text in self.lines], [at for at, _ in self.lines]
        jumps = [text for text in text_of[end + 1 : end + 2] if text.startswith("jne")]
        other = int(only(jumps, "of another generation").split()[-1], 16)
        start = at.index(other)
        word = re.fullmatch(r"cmp([bl]) +\$0x([0-9a-f]+),(-0x[0-9a-f]+)\(%rbp\)", text_of[start])
        jump = re.fullmatch(r"(jn?e) +([0-9a-f]+)", text_of[start + 1])
        if not word or not jump or int(jump.group(2), 16) not in at:
            raise LookupError("vgetrandom has no word that counts its attempts")
        # The jump is taken to try again, so the word has another value then.
        again = at.index(int(jump.group(2), 16))
        only([text for text in text_of[again : again + 1] if f"{word.group(3)}(%rbp)" in text], "of a second attempt")
        return int(word.group(3), 16), 4 if word.group(1) == "l" else 1, int(word.group(2), 16), jump.group(1) == "jne"


class Vgetrandom:
    """Notes calls of vgetrandom into a recorder's record. `machine` is recorder.py, which reads registers and memory."""

    def __init__(self, machine, recorder):
        self.machine, self.recorder = machine, recorder
        self.register, self.memory, self.number, self.held = machine.register, machine.memory, machine.number, machine.held
        self.vdsos = set()  # the addresses at which programs have the vDSO
        self.open, self.last = {}, {}  # buffer, length and flags of calls, by memory and stack pointer, and by that alone

    def mm(self):
        """The program memory that is in use."""
        return self.register("cr3") >> 12

    def place(self):
        self.offsets, self.state, self.attempt = self.listing().places()
        self.start = self.offsets["venter"][0]
        self.recorder.at(self.recorder.symbols.address("_install_special_mapping"), self.installed)

    def listing(self):
        """vgetrandom in the image that the kernel carries. The first word of vdso_image_64 is the image's address."""
        image = self.number(self.recorder.symbols.address("vdso_image_64"))
        headers, size, count = self.number(image + 32), self.number(image + 54, 2), self.number(image + 56, 2)
        words = {}
        for header in range(image + headers, image + headers + size * count, size):
            at = image + self.number(header + 8)
            while self.number(header, 4) == DYNAMIC and self.number(at):
                words[self.number(at)], at = self.number(at + 8), at + 16
        names, symbol = image + words[STRINGS], image + words[SYMBOLS]  # the symbols are before their names
        while self.memory(names + self.number(symbol, 4), len(NAME)) != NAME:
            symbol += 24
            if symbol >= names:
                raise LookupError("the vDSO of this kernel has no vgetrandom")
        start, length = self.number(symbol + 8), self.number(symbol + 16)
        architecture = self.machine.gdb.selected_frame().architecture()
        lines = []
        for it in architecture.disassemble(image + start, image + start + length + ALIGNED + 4):  # and the beginning of ChaCha
            text = re.sub(r"\s*(#.*|<.*>)?$", "", it["asm"])
            text = re.sub(r"0x([0-9a-f]{16})\b", lambda found: f"{int(found.group(1), 16) - image:x}", text)
            lines.append((it["addr"] - image, text))
        return Listing(lines)

    def installed(self):
        """A program gets its vDSO. The places are set there once the machine is halted."""
        if self.register("r8") == self.recorder.symbols.address("vdso_mapping"):
            at = self.register("rsi")
            self.recorder.put(stop="vdso", at=at, mm=self.mm())
            if at not in self.vdsos:
                self.vdsos.add(at)
                self.recorder.jobs.append(lambda: self.place_vdso(at))

    def place_vdso(self, vdso):
        notes = {"venter": self.enter_call, "vlook": self.look, "vblocks": self.blocks, "vend": self.end, "vleave": self.leave_call}
        for stop, offsets in self.offsets.items():
            for offset in offsets:
                self.recorder.at(vdso + offset, notes.get(stop) or (lambda stop=stop: self.point(stop)))

    def enter_call(self):
        pointer, state = self.register("rsp"), self.register("rcx")
        raw = bytes.fromhex(self.held(state, STATE) or "00" * STATE)  # a page that is away will be zeros
        fields = {"wiped": not any(raw), "generation": int.from_bytes(raw[GENERATION:POSITION], "little"), "pos": raw[POSITION],
                  "mark": raw[MARK]}
        buffer, count, flags = self.register("rdi"), self.register("rsi"), self.register("rdx") % 2**32
        self.recorder.put(stop="venter", mm=self.mm(), pointer=pointer, state=state, size=self.register("r8"), count=count,
                          flags=flags, buffer=buffer, vdso=self.register("rip") - self.start, who=self.recorder.tasks.who(), **fields)
        self.open[self.mm(), pointer] = self.last[pointer] = (buffer, count, flags)

    def is_second(self, frame):
        distance, size, value, is_equal = self.attempt
        return (self.number(frame + distance, size) == value) == is_equal

    def point(self, stop, generation=None, state=None, **fields):
        state, frame = self.register(self.state) if state is None else state, self.register("rbp")
        if generation is None:
            content = self.held(state + GENERATION, 8)
            generation = None if content is None else int.from_bytes(bytes.fromhex(content), "little")
        self.recorder.put(stop=stop, mm=self.mm(), pointer=frame + 8, state=state, generation=generation,
                          second=self.is_second(frame), **fields)

    def look(self):
        self.point("vlook", published=self.register("rax"))

    def end(self):
        self.point("vend", self.register("rdx"), published=self.register("rax"))

    def blocks(self):
        """ChaCha's arguments: the target, the state's key, the counter, and how many blocks."""
        counter = self.number(self.register("rdx"))
        self.point("vblocks", state=self.register("rsi") - KEY, blocks=self.register("rcx"), counter=counter)

    def leave_call(self):
        """A call that a fork copied into a child began in the parent, with the same stack and buffer."""
        mm, pointer, result = self.mm(), self.register("rsp"), self.register("rax")
        result = result - 2**64 if result >= 2**63 else result
        buffer, count, flags = self.open.pop((mm, pointer), None) or self.last.get(pointer, (None, 0, 0))
        fields = {}
        value = None if buffer is None or result <= 0 else self.held(buffer, min(count, result, LONGEST_CALL))
        if value is not None and len(value) > 2 * LONGEST:
            fields["digest"] = hashlib.sha256(bytes.fromhex(value)).hexdigest()
            value = value[: 2 * LONGEST]
        self.recorder.left -= value is not None
        self.recorder.put(stop="vleave", mm=mm, pointer=pointer, result=result, flags=flags, value=value,
                          who=self.recorder.tasks.who(), **fields)


def with_vgetrandom(machine, base):
    """A recorder of recorder.py, which notes calls of vgetrandom too."""

    class WithVgetrandom(base):
        def __init__(self, *given):
            super().__init__(*given)
            self.parts.append(Vgetrandom(machine, self))

    return WithVgetrandom

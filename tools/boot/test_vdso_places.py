"""Tests of vdso_places.py: the places are found in a listing that has each once, and in no listing that lacks one or
has it twice."""

import unittest

import vdso_places

# A listing as a compiler may make it of vgetrandom, without the code between the places.
LISTING = """endbr64
push   %rbp
mov    %rsp,%rbp
movb   $0x1,0x89(%rbx)
movl   $0x2,-0x54(%rbp)
mov    (%r14),%rax
cmp    0x80(%rbx),%rax
jne    20
movzbl 0x88(%rbx),%eax
call   30
mov    %rbx,%rcx
call   30
mov    0x80(%rbx),%rdx
mov    (%r14),%rax
cmp    %rax,%rdx
jne    26
ret
mov    %r12d,%edx
syscall
ret
mov    %rax,0x80(%rbx)
xor    %edx,%edx
syscall
cmp    $0x20,%rax
movb   $0x60,0x88(%rbx)
jmp    8
cmpl   $0x1,-0x54(%rbp)
jne    29
jmp    17
movl   $0x1,-0x54(%rbp)
endbr64""".split("\n")


def listing(lines):
    """Each instruction has one byte here, and the addresses are counted in tens and ones for the eye."""
    at = [int(str(it), 16) for it in range(len(lines))]
    return vdso_places.Listing(list(zip(at, lines)))


class Places(unittest.TestCase):
    def test_each_place(self):
        offsets, state, attempt = listing(LISTING).places()
        at = {stop: [int(f"{it:x}") for it in places] for stop, places in offsets.items()}
        self.assertEqual(at, {"venter": [0], "vlook": [6], "vkey": [22], "vnew": [24], "vserve": [8], "vblocks": [9, 11], "vend": [14],
                              "vleave": [16, 19]})
        self.assertEqual((state, attempt), ("rbx", (-0x54, 4, 1, True)))

    def test_word_of_the_other_sense(self):
        lines = list(LISTING)
        lines[26], lines[27], lines[29] = "cmpb   $0x0,-0x54(%rbp)", "je     29", "movb   $0x1,-0x54(%rbp)"
        self.assertEqual(listing(lines).places()[2], (-0x54, 1, 0, False))

    def test_other_compilers(self):
        """One listing has an instruction between the flags and the call for a key, and fills the room up to ChaCha."""
        moved = {"jne    26": "jne    27", "jne    29": "jne    30", "call   30": "call   33"}
        lines = [moved.get(line, line) for line in LISTING]
        lines[22:22] = ["mov    %r14,%rdi"]
        lines[31:] = ["nop", "nop", "endbr64", "movups (%rsi),%xmm6"]
        offsets = listing(lines).places()[0]
        self.assertEqual([int(f"{it:x}") for stop in ("vkey", "vnew", "vblocks") for it in offsets[stop]], [23, 25, 9, 11])

    def test_missing_or_double_places_are_refused(self):
        for place in (1, 2, 6, 12, 14, 15, 21, 22, 24, 26, 27, 29):
            with self.subTest(LISTING[place]), self.assertRaises(LookupError):
                listing([*LISTING[:place], "nop", *LISTING[place + 1 :]]).places()
        for place in (6, 12, 22):
            with self.subTest(f"twice {LISTING[place]}"), self.assertRaises(LookupError):
                lines = list(LISTING)
                lines[3:5] = LISTING[place - 1 : place + 1]
                listing(lines).places()

    def test_code_without_an_end(self):
        with self.assertRaises(LookupError):
            listing(LISTING[:-1])


if __name__ == "__main__":
    unittest.main()

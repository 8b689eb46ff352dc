"""The two functions of fenloth_texts.h, in Python. docs/USING.md shows how to build the library.

    python3 check_texts.py ./libfenloth_c.so SCRIPT TRANSCRIPT
"""
import ctypes
import sys

YES, NO_TRANSCRIPT, LINES, MARKS, FORMS, ANSWERS, DATA, LOOKS, NO_SCRIPT, NO_MEMORY, TOO_LONG, NO_ROOM = range(12)


class Texts:
    """The library at this path. Scripts and transcripts are bytes."""

    def __init__(self, path):
        library = ctypes.CDLL(path)
        text = (ctypes.c_char_p, ctypes.c_size_t)
        self._check, self._replay = library.fenloth_check, library.fenloth_replay
        self._check.restype = self._replay.restype = ctypes.c_uint32
        self._check.argtypes = [*text, *text]
        self._replay.argtypes = [*text, *text, *text, ctypes.POINTER(ctypes.c_uint64)]

    def check(self, script, transcript):
        """The answer: YES if the transcript is lawful."""
        return self._check(script, len(script), transcript, len(transcript))

    def replay_into(self, buffer, room, script, transcript, made):
        """The answer. The buffer has at least `room` bytes; `made` is a c_uint64."""
        return self._replay(script, len(script), transcript, len(transcript), buffer, room, made)

    def replay(self, script, transcript):
        """The answer, and the transcript made again if the answer is YES."""
        room, made = 0, ctypes.c_uint64()
        while True:
            buffer = ctypes.create_string_buffer(room + 1)
            answer = self.replay_into(buffer, room, script, transcript, made)
            if answer != NO_ROOM:
                return answer, buffer.raw[:made.value]
            room = made.value


def main():
    texts, both = Texts(sys.argv[1]), []
    for path in sys.argv[2:4]:
        with open(path, 'rb') as file:
            both.append(file.read())
    print(texts.check(*both), flush=True)
    answer, made = texts.replay(*both)
    sys.stdout.buffer.write(made)
    return 0 if answer == YES else 1


if __name__ == '__main__':
    sys.exit(main())

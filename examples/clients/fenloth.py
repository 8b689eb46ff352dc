"""A live core of Linux's random number generator, for tests in Python.

    with fenloth.Core(state="empty") as core:
        core.getrandom(16, os.GRND_NONBLOCK)    # raises BlockingIOError
        core.credit(256)
        key = core.getrandom(16)
    assert core.check()

The core is the program `rng live`, by two pipes: the program that is passed to Core, or else the environment's RNG, or
else rng on the PATH. The bytes depend on the events alone, so a test gets the same bytes at each run. With `patched`,
os.getrandom and os.urandom are those of a core.
"""
from __future__ import annotations

import contextlib
import errno
import os
import shutil
import subprocess
import sys
import tempfile
import threading
from typing import IO, Any, Iterator, NamedTuple

STATES = ("empty", "early", "ready", "late")
MOST = 1 << 20  # bytes of one event; a longer read is cut into several
LONGEST = 2 * MOST + 4096  # bytes of a line
LATE = 3  # requests of a late core before it is ready
ENTROPY = bytes(range(32))  # makes a core ready, or with its first half early
ANSWERS = {"ok": 0, "fired": 0, "idle": 0, "EAGAIN": errno.EAGAIN, "EINTR": errno.EINTR, "EINVAL": errno.EINVAL,
           "ENODATA": errno.ENODATA}


class FenlothError(Exception):
    """The program is missing, died, refused a line or answered out of order, and the core has ended.

    It is no OSError, so that code under test does not take it for a failed read.
    """


class Line(NamedTuple):
    """The fields of a line of the transcript, after caller and event."""

    word: str
    answer: str
    steps: str
    data: str


class Verdict(NamedTuple):
    """An answer of `rng check`. It is true if the record is lawful; otherwise `clause` is the first that fails."""

    is_lawful: bool
    clause: int | None
    words: str

    def __bool__(self) -> bool:
        return self.is_lawful


def find_program(program: str | None = None) -> str:
    """The path of the program. Raises FenlothError if there is none that can be run."""
    name = program or os.environ.get("RNG") or "rng"
    found = shutil.which(name)
    if found is None:
        raise FenlothError(f"{name}: no such program that can be run; RNG in the environment can name it")
    return found


def judge(record: bytes, program: str | None = None) -> Verdict:
    """Tests by `rng check` whether a script and the transcript after it are lawful."""
    ran = subprocess.run([find_program(program), "check"], input=record, capture_output=True, check=False)
    answer, words = ran.stdout.decode(errors="replace").strip(), ran.stderr.decode(errors="replace").strip()
    if (ran.returncode, answer) == (0, "yes"):
        return Verdict(True, None, answer)
    if ran.returncode == 1 and answer.startswith("no "):
        return Verdict(False, int(answer[3:]), words or answer)
    raise FenlothError(f"rng check ended with status {ran.returncode}: {answer} {words}".strip())


class Core:
    """A core in a process of its own. Several threads may call it.

    cpus     the number of CPUs, 1 to 256
    state    "empty": nothing in the pool; "early": 128 bits; "ready": 256; "late": ready after three requests
    seed     bytes that are written to the pool first; another seed gives other bytes
    program  the path of rng
    """

    def __init__(self, cpus: int = 1, state: str = "ready", seed: bytes = b"", program: str | None = None) -> None:
        if state not in STATES:
            raise ValueError(f"state is one of {', '.join(STATES)}, and not {state!r}")
        self.state = state
        self._left = LATE if state == "late" else None
        self._events, self._problem, self._is_open = 0, "", False
        self._lock, self._process_id = threading.RLock(), os.getpid()
        self._program = find_program(program)
        # They are not buffered, so a forked process that ends writes nothing to them.
        self._files = [tempfile.TemporaryFile(buffering=0) for _ in range(3)]
        self._script, self._transcript, self._errors = self._files
        self._start()
        self._is_open = True
        try:
            self._begin(cpus, seed)
        except BaseException:
            if self._is_open:
                self._end("was not opened")
            raise

    def __enter__(self) -> Core:
        return self

    def __exit__(self, kind: type[BaseException] | None, *_: object) -> None:
        if kind is None:
            self.close()
        elif self._is_open:
            self._end("was left by an exception")

    def __del__(self) -> None:
        if getattr(self, "_is_open", False) and os.getpid() == self._process_id:
            self._end("was left open")
        for file in getattr(self, "_files", ()):
            file.close()

    # ---- Calls ---------------------------------------------------------------------------------------------------

    def getrandom(self, n: int, flags: int = 0) -> bytes:
        """getrandom(2). Raises BlockingIOError for EAGAIN, InterruptedError for EINTR, and OSError for EINVAL.

        If the core is not ready and no flag forbids it, the kernel waits. Here nobody can end the wait, so the call is
        interrupted.
        """
        if n < 0 or not 0 <= flags < 1 << 32:
            raise OSError(errno.EINVAL, os.strerror(errno.EINVAL))
        return self._read("read", n, f" {flags}")

    def urandom(self, n: int) -> bytes:
        """read(2) of /dev/urandom, which never waits. os.urandom is another call: it waits as getrandom does."""
        if n < 0:
            raise ValueError("negative argument not allowed")
        return self._read("uread", n, "")

    def write(self, data: bytes) -> int:
        """write(2) to /dev/random, of 1 MiB at most: mixes the bytes, and credits nothing."""
        self._make(f"write {_hex(data)}")
        return len(data)

    def add(self, data: bytes, bits: int) -> None:
        """ioctl RNDADDENTROPY: mixes the bytes, and credits the bits. At 256 bits the core is ready."""
        self._make(f"add {_hex(data)} {_below(bits, 31, 'bits')}")

    def credit(self, bits: int) -> None:
        """ioctl RNDADDTOENTCNT: credits the bits."""
        self._make(f"credit {_below(bits, 31, 'bits')}")

    def bits(self) -> int:
        """ioctl RNDGETENTCNT: the credited bits, 0 to 256."""
        return int(self._make("bits").data)

    def at(self, milliseconds: int) -> None:
        """Sets the moment."""
        self._make(f"at {_below(milliseconds, 40, 'milliseconds')}")

    def tick(self) -> bool:
        """Runs the reseed timer. True if it was due, so that the core got a new key."""
        return self._make("tick").answer == "fired"

    def event(self, text: str) -> Line:
        """Makes any event of docs/SCRIPT.md, and returns its line. An errno in the line is not raised."""
        if "\n" in text:
            raise ValueError("an event is one line")
        with self._lock:
            line = self._ask(text.encode() + b"\n", b"\n").decode(errors="replace")
            fields = line[:-1].split(" ")
            if len(fields) != 5 or fields[0] != f"0.{self._events}" or fields[1] != text.split(" ")[0] or "\n" in line[:-1]:
                raise self._stop("gave the line of another event")
            if fields[2] not in ANSWERS:
                raise self._stop("gave an unknown answer")
            self._events += 1
            return Line(*fields[1:])

    @property
    def gets_ready(self) -> bool:
        """Whether the core is one that becomes ready after some requests, and is not ready yet."""
        return self._left is not None

    # ---- The record ----------------------------------------------------------------------------------------------

    def close(self) -> None:
        """Ends the session. A second time, and after a failure, it does nothing."""
        with self._lock:
            if self._is_open:
                self._ask(b"end\n", b"\nend\n")
                self._end("")
                if self._problem:
                    raise FenlothError(self._problem)

    def record(self) -> bytes:
        """The script and then the transcript, up to now. After `close` both are whole."""
        with self._lock:
            return _all_of(self._script) + _all_of(self._transcript)

    def check(self) -> Verdict:
        """Ends the session, and tests by `rng check` whether its record is lawful. Raises FenlothError if the core failed."""
        self.close()
        if self._problem:
            raise FenlothError(self._problem)
        return judge(self.record(), self._program)

    def gave(self, data: bytes) -> bool:
        """Whether some read of a ready core got these bytes, next to each other."""
        with self._lock:
            lines = _all_of(self._transcript).decode().split("\n")
        for line in lines:
            fields = line.split(" ")
            if len(fields) == 5 and fields[3].startswith("~") and not fields[3].startswith("~0") and data.hex() in fields[4]:
                return True
        return False

    # ---- The program ---------------------------------------------------------------------------------------------

    def _start(self) -> None:
        try:
            self._process: subprocess.Popen[bytes] = subprocess.Popen(
                [self._program, "live"], stdin=subprocess.PIPE, stdout=subprocess.PIPE, stderr=self._errors, bufsize=0)
        except OSError as fault:
            raise FenlothError(f"{self._program}: {fault.strerror}") from None
        assert self._process.stdin and self._process.stdout
        self._pipes = (self._process.stdin, self._process.stdout)
        self._to, self._from = (pipe.fileno() for pipe in self._pipes)

    def _begin(self, cpus: int, seed: bytes) -> None:
        if self._ask(f"rngscript 3\ncpus {cpus}\ncaller 0\n".encode(), b"\n") != b"rngtranscript 1\n":
            raise self._stop("began no transcript")
        if seed:
            self.write(seed)
        if self.state == "early":
            self.add(ENTROPY[:16], 128)
        elif self.state == "ready":
            self.add(ENTROPY, 256)

    def _ask(self, text: bytes, end: bytes) -> bytes:
        """Sends the text, and returns the answer up to the text `end`. Both go to the record."""
        if not self._is_open:
            raise FenlothError(self._problem or "the core is closed")
        if os.getpid() != self._process_id:
            raise FenlothError("another process opened this core")
        try:
            answer = self._exchange(text, end)
        except OSError as fault:
            raise self._stop(f"could not be asked: {fault.strerror}") from None
        except BaseException:
            # Otherwise a later answer would be taken for that of the next event.
            self._end("was interrupted within an event")
            raise
        if answer.startswith(b"refused "):
            raise self._stop(answer.decode(errors="replace").strip())
        if not answer.endswith(end):
            raise self._stop("broke off within an answer" if answer else "gave no answer")
        try:
            is_kept = (self._script.write(text), self._transcript.write(answer)) == (len(text), len(answer))
        except OSError:
            is_kept = False
        if not is_kept:
            raise self._stop("has a record that cannot be written")
        return answer

    def _exchange(self, text: bytes, end: bytes) -> bytes:
        left, answer = memoryview(text), bytearray()
        with contextlib.suppress(BrokenPipeError):  # the program is gone, so its answer is missing
            while left:
                left = left[os.write(self._to, left):]
        while not answer.endswith(end) and len(answer) < LONGEST:
            part = os.read(self._from, 1 << 16)
            if not part:
                break
            answer += part
        return bytes(answer)

    def _stop(self, cause: str) -> FenlothError:
        self._end(cause)
        return FenlothError(self._problem)

    def _end(self, cause: str) -> None:
        """Ends the program, which gets a second to end by itself. Without a cause, status 0 is no problem."""
        self._is_open = False
        for pipe in self._pipes:
            with contextlib.suppress(OSError):
                pipe.close()
        try:
            status = self._process.wait(1)
        except subprocess.TimeoutExpired:
            self._process.kill()
            status = self._process.wait()
        if cause or status:
            words = _all_of(self._errors).decode(errors="replace").strip()
            how = f"signal {-status}" if status < 0 else f"status {status}"
            self._problem = f"rng live {cause or 'wrote its last line'}; it ended by {how}" + (f": {words}" if words else "")

    def _make(self, text: str) -> Line:
        """Makes an event, and raises the errno in its line."""
        line = self.event(text)
        if ANSWERS[line.answer]:
            raise OSError(ANSWERS[line.answer], os.strerror(ANSWERS[line.answer]))
        return line

    def _read(self, word: str, n: int, flags: str) -> bytes:
        with self._lock:
            if self._left == 0:
                self._left = None
                self.add(ENTROPY, 256)
            elif self._left:
                self._left -= 1
            parts = [self._piece(word, min(MOST, n - at), flags) for at in range(0, n or 1, MOST)]
        return b"".join(parts)

    def _piece(self, word: str, n: int, flags: str) -> bytes:
        data = self._make(f"{word} {n}{flags}").data
        try:
            got = bytes.fromhex("" if data == "-" else data)
        except ValueError:
            got = b""
        if len(got) != n:
            raise self._stop("gave no bytes, or another number")
        return got


def _hex(data: bytes) -> str:
    if len(data) > MOST:
        raise ValueError(f"an event has {MOST} bytes at most, and not {len(data)}")
    return bytes(data).hex() or "-"


def _below(number: int, power: int, name: str) -> int:
    if not 0 <= number < 1 << power:
        raise ValueError(f"{name} are from 0 to 2^{power} - 1, and not {number}")
    return number


def _all_of(file: IO[bytes]) -> bytes:
    file.seek(0)
    return file.read()


@contextlib.contextmanager
def patched(core: Core) -> Iterator[Core]:
    """os.getrandom and os.urandom are the core's, in each module that has them by name: so in random, and through it in
    random.SystemRandom and secrets.

    As CPython's own do, both call again after EINTR. If the core never becomes ready, the kernel would keep them
    waiting for ever; here they raise InterruptedError. C code calls the machine as before: ssl, the first seed of
    random, string hashes.
    """
    def getrandom(size: int, flags: int = 0) -> bytes:
        while True:
            try:
                return core.getrandom(size, flags)
            except InterruptedError:
                if not core.gets_ready:
                    raise

    def urandom(size: int) -> bytes:
        if size < 0:
            raise ValueError("negative argument not allowed")
        return getrandom(size)

    places: list[tuple[Any, str, Any]] = []
    for old, new in ((os.getrandom, getrandom), (os.urandom, urandom)):
        for module in list(sys.modules.values()):
            names: dict[str, Any] = getattr(module, "__dict__", {})
            for name in [it for it, value in list(names.items()) if value is old]:
                places.append((module, name, old))
                setattr(module, name, new)
    try:
        yield core
    finally:
        for module, name, old in places:
            setattr(module, name, old)

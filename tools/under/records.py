"""The server of rng-under, which owns the core, and the records that it writes. `rng check` confirms each record as
soon as it is whole. If another record follows, it has to begin with the seed with which this one ends."""

import contextlib
import errno
import os
import secrets
import shutil
import subprocess
import threading

from prologue import Failed

# The limits of a script: events, bytes that its reads ask for, and characters.
EVENTS, BYTES, TEXT = 65536, 16 << 20, 16 << 20
TAIL = 1024  # bytes of a transcript, which have its last three lines


def limits():
    """The limits of a record. The checks lower them."""
    words = os.environ.get("RNG_UNDER_LIMITS", f"{EVENTS} {BYTES} {TEXT}").split()
    if len(words) != 3 or not all(it.isdecimal() for it in words):
        raise Failed("RNG_UNDER_LIMITS wants three numbers: events, bytes of reads, and bytes of text")
    return [str(min(int(it), most)) for it, most in zip(words, (EVENTS, BYTES, TEXT))]


def seed_left(path):
    """The bytes of a transcript's last kread, and the credit for them."""
    with open(path, "rb") as file:
        file.seek(max(0, os.path.getsize(path) - TAIL))
        lines = [line.split(" ") for line in file.read().decode(errors="replace").split("\n")]
    rows = {it[1]: it for it in lines[-6:] if len(it) == 5}
    if "kread" not in rows:
        return None
    is_ready = not rows["kread"][3].startswith("~0")
    return rows["kread"][4], "256" if is_ready else rows.get("bits", [""])[-1]


def seed_taken(path):
    """The bytes and the credit that a script begins with."""
    with open(path, encoding="ascii") as file:
        for line in file:
            if line.startswith("add "):
                return tuple(line.split()[1:])
    return None


class Records:
    """Each record is a file: a script, and after it its transcript."""

    def __init__(self, program, folder, are_kept):
        self.program, self.folder, self.are_kept = program, folder, are_kept
        self.left, self.paths = None, []

    def confirm(self, number):
        script, transcript = (os.path.join(self.folder, f"{it}-{number}") for it in ("script", "transcript"))
        if number > 1 and (not self.left or seed_taken(script) != self.left):
            raise Failed(f"record {number} does not begin with the seed that record {number - 1} left")
        self.left = seed_left(transcript)
        with open(script, "ab") as whole, open(transcript, "rb") as more:
            shutil.copyfileobj(more, whole, 1 << 20)
        os.unlink(transcript)
        with open(script, "rb") as file:
            ran = subprocess.run([self.program, "check"], stdin=file, stdout=subprocess.PIPE, check=False)
        if ran.stdout != b"yes\n":
            raise Failed("rng check does not confirm the record" + (f" {number}" if number > 1 else ""))
        if self.are_kept:
            self.paths.append(script)
        else:
            os.unlink(script)


class Server:
    """Serves the program's requests. Its own output has a line for each whole record, and one at the end."""

    def __init__(self, command, program, folder, prologue, most, keeps, lists):
        self.path = os.path.join(folder, "mailbox-" + secrets.token_hex(16))
        plan, self.list = os.path.join(folder, "plan"), os.path.join(folder, "list") if lists else ""
        prologue.write_plan(plan)
        self.records, self.problem, self.last = Records(program, folder, keeps), "", ""
        self.process = subprocess.Popen(
            [command, str(os.getpid()), self.path, folder, program, str(prologue.cpus), plan, self.list, str(most),
             *limits()], stdin=subprocess.PIPE, stdout=subprocess.PIPE, start_new_session=True, encoding="utf-8",
            errors="replace")

    def __enter__(self):
        word, _, why = self.process.stdout.readline().strip().partition(" ")
        if word != "ready":
            raise Failed(why or "the server could not be started")
        self.follower = threading.Thread(target=self.follow, daemon=True)
        self.follower.start()
        return self

    def __exit__(self, *_):
        self.process.kill()
        self.process.wait()

    def follow(self):
        for line in self.process.stdout:
            word, _, rest = line.rstrip("\n").partition(" ")
            if word == "cut":
                self.confirm(int(rest))
                self.reply()
            else:
                self.last = rest

    def confirm(self, number):
        try:
            if not self.problem:
                self.records.confirm(number)
        except (Failed, OSError) as fault:
            self.problem = str(fault)

    def reply(self):
        """Sends a byte for a confirmed record. Without this byte the server stops serving."""
        with contextlib.suppress(OSError, ValueError):  # the server has ended, or got no earlier byte
            if self.problem:
                self.process.stdin.close()
            self.process.stdin.write("\n")
            self.process.stdin.flush()

    def end(self):
        """Ends the session, and confirms the last record."""
        self.process.terminate()
        self.follower.join()
        status = self.process.wait()
        fields = self.last.split(" ", 5)
        if self.problem:
            raise Failed(self.problem)
        if len(fields) < 6 or fields[5] or status:
            raise Failed(fields[5] if len(fields) == 6 and fields[5] else f"the server ended with status {status}")
        self.requests, self.count, self.is_spent, self.is_loaded, self.left_root = map(int, fields[:5])
        self.confirm(self.count)
        if self.problem:
            raise Failed(self.problem)

    def asked(self):
        """A line for each request. Processes are numbered in the order of their first requests, and so are their
        threads."""
        processes, threads = {}, {}
        with open(self.list, encoding="ascii") as file:
            for line in file:
                record, event, process, thread, word, asked, flags, answer = line.split()
                one = processes.setdefault(process, len(processes))
                own = threads.setdefault(process, {})
                caller = f"{one}.{own.setdefault(thread, len(own))}"
                place = "-" if event == "-" else f"0.{event}" if record == "1" else f"{record}:0.{event}"
                said = errno.errorcode[-int(answer)] if int(answer) < 0 else answer
                yield f"{place} {caller} {word} {asked} {flags} {said}\n".encode()

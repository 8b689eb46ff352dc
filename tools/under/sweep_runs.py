"""Runs of a program for rng-under --sweep: rng-under makes each run. Runs are side by side, have a time limit, and all
processes that they left are ended."""

import ctypes
import hashlib
import os
import shutil
import signal
import subprocess
import time

import cases

PR_SET_PDEATHSIG, PR_SET_CHILD_SUBREAPER = 1, 36
OWN = 125
FLOOD = 64 << 20  # bytes of output
SHOWN = 400
GRND_NONBLOCK, GRND_INSECURE = 1, 4
FLAGS = ((1, "GRND_NONBLOCK"), (2, "GRND_RANDOM"), (4, "GRND_INSECURE"))
DEVICES = {"dread": "/dev/random", "uread": "/dev/urandom"}
READS = ("read", *DEVICES)
CONTROLS = {"write": "write to a device", "add": "RNDADDENTROPY", "credit": "RNDADDTOENTCNT", "bits": "RNDGETENTCNT",
            "reseed": "RNDRESEEDCRNG"}


def some(count, word):
    return f"{count} {word}" + ("" if count == 1 else "s")


class Request:
    """A line of --asked, and whether its bytes are those of a core that was not ready."""

    def __init__(self, line, unready):
        event, caller, self.word, asked, flags, self.answer = line.split()
        self.process = caller.partition(".")[0]
        self.flags, self.is_fault = int(flags), event == "-"
        self.is_read = self.word in READS
        self.asked = int(asked) if self.is_read else 0
        self.served = int(self.answer) if self.is_read and self.answer.isdecimal() else 0
        self.is_unready = event in unready

    def waits(self):
        """Whether the request would wait for a core that is not ready."""
        return self.is_read and self.word != "uread" and not self.flags & (GRND_NONBLOCK | GRND_INSECURE)

    def is_interrupted_wait(self):
        return self.waits() and self.answer == "EINTR" and not self.is_fault

    def is_mallocs(self):
        """Whether this is the request of the C library's malloc for a key of its own."""
        return (self.word, self.asked, self.flags) == ("read", 8, GRND_NONBLOCK)

    def is_odd(self):
        """Whether the request got no bytes, fewer than it asked for, or those of a core that was not ready."""
        return self.is_fault or self.is_unready or self.served < self.asked

    def text(self):
        if not self.is_read:
            return f"{CONTROLS[self.word]}: {self.answer}"
        if self.word in DEVICES:
            call = f"read of {DEVICES[self.word]}" + (", O_NONBLOCK" if self.flags else "")
        else:
            call = "|".join(["getrandom", *[name for bit, name in FLAGS if self.flags & bit]]).replace("|", ", ", 1)
        got = some(self.served, "byte") if self.answer.isdecimal() else self.answer
        return f"{call}, {some(self.asked, 'byte')}: {got}" + (" of an unready core" if self.is_unready else "")


class Program:
    """The program that is swept: its words, and the options of each run."""

    def __init__(self, given, under, room):
        self.words, self.under, self.room, self.seconds = given.words, under, room, given.seconds
        self.ways = [word for word, is_so in (("--supervise", given.supervise), ("--preload", given.preload)) if is_so]
        self.input = given.input or os.devnull
        self.number = 0

    def options(self, case_name, seed, is_still):
        return [*self.ways, *(["--still"] if is_still else []), "--prologue", case_name, "--seed", seed]

    def run(self, case, seed, is_still, most, steps=None):
        """steps: other steps than the case's own, on a core with two CPUs."""
        self.number += 1
        return Run(self, os.path.join(self.room, str(self.number)), case, seed, is_still, most, steps)


class Run:
    """One run of the program, and its output."""

    def __init__(self, program, folder, case, seed, is_still, most, steps):
        self.program, self.folder, self.case, self.seed = program, folder, case, seed
        self.is_still, self.most, self.steps = is_still, most, steps
        self.process = None
        self.is_hung = self.is_flood = False

    def path(self, name):
        return os.path.join(self.folder, name)

    def start(self):
        for name in ("dir", "t"):
            os.makedirs(self.path(name), mode=0o700)
        prologue = self.case.name
        if self.steps is not None:
            prologue = self.path("prologue")
            with open(prologue, "w", encoding="ascii") as file:
                file.writelines(line + "\n" for line in cases.lines_of_steps(self.steps, cpus=2))
        words = [self.program.under, *self.program.options(prologue, self.seed, self.is_still), "--most", str(self.most),
                 "--asked", self.path("asked"), "--record", self.path("record"),
                 *[it.replace("{dir}", self.path("dir")) for it in self.program.words]]
        append = os.O_WRONLY | os.O_CREAT | os.O_APPEND
        out, err, given = (os.open(path, flags, 0o600) for path, flags in (
            (self.path("out"), append), (self.path("err"), append), (self.program.input, os.O_RDONLY)))
        self.began = time.monotonic()
        self.process = subprocess.Popen(words, stdin=given, stdout=out, stderr=err, start_new_session=True,
                                        env=dict(os.environ, TMPDIR=self.path("t")), preexec_fn=end_with_parent)
        for it in (out, err, given):
            os.close(it)

    def is_over(self):
        """Ends a run that has taken too long, or that writes without end."""
        if self.process.poll() is not None:
            return True
        self.is_hung = time.monotonic() - self.began > self.program.seconds
        self.is_flood = os.path.getsize(self.path("out")) > FLOOD
        if self.is_hung or self.is_flood:
            self.process.kill()
            self.process.wait()
        return self.process.returncode is not None

    # ---- The files of the run

    def read(self, name):
        try:
            with open(self.path(name), "rb") as file:
                return file.read(FLOOD).replace(self.folder.encode(), b"{run}")
        except OSError:
            return b""

    def gather(self):
        """Reads the files of the run, and removes the run's folder."""
        self.seconds, self.status = time.monotonic() - self.began, self.process.returncode
        out = self.read("out")
        self.err = self.read("err").decode(errors="replace").strip()
        for folder, folders, names in os.walk(self.path("dir")):
            folders.sort()
            for name in sorted(names):
                path = os.path.relpath(os.path.join(folder, name), self.folder)
                out += b"%s:\n%s" % (path.encode(errors="replace"), self.read(path))
        self.shown, self.digest, self.is_silent = out[:SHOWN], hashlib.sha256(out).digest(), not out.strip()
        unready = {fields[0] for fields in self.transcript() if fields[2:3] == ["ok"] and fields[3].startswith("~0")}
        asked = [it for it in self.read("asked").decode(errors="replace").splitlines() if len(it.split()) == 6]
        self.requests = [Request(line, unready) for line in asked]
        self.served = sum(it.served for it in self.requests)
        self.unready = sum(it.served for it in self.requests if it.is_unready)
        shutil.rmtree(self.folder, ignore_errors=True)

    def transcript(self):
        """The fields of each line, in which the first is as in the list of requests."""
        texts = self.read("record").decode(errors="replace").split("\nrngtranscript 1\n")[1:]
        for number, text in enumerate(texts, 1):
            record = f"{number}:" if number > 1 else ""
            for line in text.partition("\nend\n")[0].splitlines():
                yield [record + line.split(" ")[0], *line.split(" ")[1:]]

    def own_fault(self):
        """The last message of rng-under itself if it failed or ended the program, or nothing."""
        said = [line[len("rng-under: "):] for line in self.err.splitlines() if line.startswith("rng-under: ")]
        return said[-1] if said and self.status == OWN else ""


# ---- Side by side ------------------------------------------------------------------------------------------------

def end_with_parent():
    """In the new process: it is killed if the sweep is, and its supervisor ends the processes that it ran."""
    ctypes.CDLL(None).prctl(PR_SET_PDEATHSIG, signal.SIGKILL, 0, 0, 0)


def be_reaper():
    ctypes.CDLL(None).prctl(PR_SET_CHILD_SUBREAPER, 1, 0, 0, 0)


def children():
    """The processes whose parent this one is."""
    found, own = [], str(os.getpid())
    for name in filter(str.isdecimal, os.listdir("/proc")):
        try:
            with open(f"/proc/{name}/stat", "rb") as file:
                if file.read().rpartition(b")")[2].split()[1].decode() == own:
                    found.append(int(name))
        except OSError:
            pass  # it has ended
    return found


class Task:
    """A generator that yields lists of runs to make, and is sent each list once its runs are over. Finally it returns
    a result."""

    def __init__(self, steps):
        self.steps, self.runs, self.result, self.is_done = steps, [], None, False
        self.resume(None)

    def resume(self, runs):
        try:
            self.runs = self.steps.send(runs)
        except StopIteration as end:
            self.runs, self.result, self.is_done = [], end.value, True

    def is_waiting(self):
        return any(it.process is None or it.process.returncode is None for it in self.runs)


class Runner:
    """Makes runs, at most `jobs` at a time."""

    def __init__(self, jobs):
        self.jobs, self.running, self.tasks = jobs, [], []

    def results(self, generators):
        """The generators' results, in the order in which they come to an end."""
        left = iter(generators)
        is_more = True
        while is_more or self.tasks:
            while is_more and len(self.tasks) < self.jobs:
                steps = next(left, None)
                is_more = steps is not None
                if is_more:
                    self.tasks.append(Task(steps))
            self.start()
            self.wait()
            for task in [it for it in self.tasks if not it.is_waiting()]:
                for run in task.runs:
                    run.gather()
                if not task.is_done:
                    task.resume(task.runs)
                if task.is_done:
                    self.tasks.remove(task)
                    yield task.result

    def start(self):
        fresh = [it for task in self.tasks for it in task.runs if it.process is None]
        for run in fresh[:self.jobs - len(self.running)]:
            run.start()
            self.running.append(run)

    def wait(self):
        """Waits until at least one run is over."""
        while self.running:
            over = [it for it in self.running if it.is_over()]
            self.running = [it for it in self.running if it not in over]
            if over:
                self.end_orphans()
                return
            time.sleep(0.005)

    def end_orphans(self):
        """If a run's rng-under was killed, the processes that the run left have become children of this process."""
        known = {it.process.pid for it in self.running}
        for _ in range(1000):
            orphans = [it for it in children() if it not in known]
            if not orphans:
                return
            for process in orphans:
                try:
                    os.kill(process, signal.SIGKILL)
                    os.waitpid(process, 0)
                except (ProcessLookupError, ChildProcessError):
                    pass

    def stop(self):
        """Ends all runs."""
        for run in self.running:
            run.process.kill()
            run.process.wait()
        self.running = []
        self.end_orphans()

"""Checks of rng-under, with programs of this folder and of the system. Prints a line for each, and ends non-zero if one
fails. A check that this machine does not allow, or for which it lacks something, is skipped with a message."""

import errno
import fcntl
import os
import shutil
import signal
import subprocess
import sys
import tempfile
import time

HERE = os.path.dirname(os.path.realpath(__file__))
TOP = os.path.dirname(os.path.dirname(HERE))
UNDER = os.path.join(HERE, "rng-under")
RNG = os.environ.get("RNG", os.path.join(TOP, "rng"))
ROOM = tempfile.mkdtemp(prefix="under-checks-")
CALLER, STATIC, ZEROED = (os.path.join(ROOM, name) for name in ("caller", "caller_static", "zeroed"))
FAILED = []


def report(name, problem=""):
    if problem:
        FAILED.append(name)
    print(f"FAILED  {name}: {problem}" if problem else f"ok      {name}", flush=True)


def skip(name, why):
    print(f"skipped {name}: {why}", flush=True)


def run(words, given=b"", timeout=120, **more):
    ran = subprocess.run(words, input=given, stdout=subprocess.PIPE, stderr=subprocess.PIPE, timeout=timeout, check=False,
                         **more)
    return ran.returncode, ran.stdout.decode(errors="replace"), ran.stderr.decode(errors="replace")


def under(*words, **more):
    return run([UNDER, *words], **more)


def prologue(*lines):
    path = os.path.join(ROOM, "prologue")
    with open(path, "w") as file:
        file.write("".join(line + "\n" for line in lines))
    return path


def compile_one(name, source, *options):
    compiler = os.environ.get("CC", "cc")
    words = [compiler, "-Wall", "-Wextra", "-Werror", "-O2", "-pthread", *options, "-o", os.path.join(ROOM, name)]
    return run([*words, *[os.path.join(HERE, it) for it in source.split()]])


def check_sources():
    for name, source, *options in (
            ("server", "server.c session.c mailbox.c"), ("supervisor", "supervisor.c mailbox.c"),
            ("shim.so", "shim.c opens.c mailbox.c", "-fPIC", "-shared", "-ldl"),
            ("still.so", "still.c", "-fPIC", "-shared", "-ldl"),
            ("caller", "callers/caller.c"), ("zeroed", "callers/zeroed.c")):
        status, out, err = compile_one(name, source, *options)
        report(f"{source} compiles without a warning", out + err if status else "")


def ways():
    """The ways of serving that this machine allows: a name, the words of rng-under, and the caller."""
    found = [("preloaded", [], CALLER)]
    status, _, err = under("--supervise", CALLER, "errnos")
    if any(it in err for it in ("takes no filter", "trace no other", "lets nobody read and write")):
        skip("supervised", err.strip())
        return found
    found.append(("supervised", ["--supervise"], CALLER))
    if compile_one("caller_static", "callers/caller.c", "-static")[0]:
        skip("static", "no static program can be linked")
    else:
        found.append(("static", [], STATIC))
    return found


# ---- Records -----------------------------------------------------------------------------------------------------

def records_of(path):
    """The records of a file, each a script and its transcript."""
    with open(path) as file:
        pieces = file.read().split("rngscript 3\n")
    for piece in pieces[1:]:
        script, _, transcript = piece.partition("\nend\n")
        yield "rngscript 3\n" + script + "\nend\n", transcript


def events_of(path):
    """Each event of a file's records, and the fields of its line."""
    for script, transcript in records_of(path):
        yield from zip(script.split("\n")[3:-2], (line.split(" ") for line in transcript.split("\n")[1:]))


def problem_of_boundaries(path):
    """Each record after the first begins with the bytes that the one before it ends with."""
    left = None
    for script, transcript in records_of(path):
        taken = [line.split(" ")[1] for line in script.split("\n") if line.startswith("add ")][:1]
        if left and taken != left:
            return f"a record ends with {left}, and the next begins with {taken}"
        left = [line.split(" ")[4] for line in transcript.split("\n") if " kread " in line][-1:]
    return ""


def problem_of_check(path):
    """The records, if the program confirms each of them."""
    for script, transcript in records_of(path):
        status, out, err = run([RNG, "check"], (script + transcript).encode())
        if status or out != "yes\n":
            return "rng check printed " + out + err
    return problem_of_boundaries(path)


def problem_of_record(path):
    """The records, if the program and the second implementation confirm each of them."""
    for script, transcript in records_of(path):
        status, out, err = run([RNG, "run"], script.encode())
        if status or out != transcript:
            return "rng run writes another transcript" + err
        status, out, err = run([sys.executable, "-B", os.path.join(TOP, "tools/replay.py")], script.encode())
        if out != transcript:
            return "tools/replay.py writes another transcript" + err
    return problem_of_check(path)


def mixed_of(path):
    """The output of the caller's word `mixed` if it got the bytes of the record."""
    lines, total = [], 0
    for event, its in events_of(path):
        if event.startswith("read "):
            got = b"" if its[4] == "-" else bytes.fromhex(its[4])
            for one in got:
                total = (total * 31 + one) % 2**32
            lines.append(f"{len(got) if its[2] == 'ok' else -1} {total}\n")
    return "".join(lines)


def drawn(path):
    """The answer and the bytes of each request in a record, without the eight bytes that malloc asks for itself."""
    return [(its[2], its[4]) for event, its in events_of(path)
            if event.split(" ")[0] in ("read", "dread", "uread") and event != "read 8 1"]


# ---- Checks ------------------------------------------------------------------------------------------------------

READY = ["16", "16", "16", "16", "EINVAL", "EINVAL", "16", "0", "16", "16", "16"]
EMPTY = ["EINTR", "EAGAIN", "EINTR", "16", "EINVAL", "EINVAL", "EAGAIN", "EAGAIN", "EAGAIN", "EINTR", "16"]
LATE = ["EINTR", "EAGAIN", "EINTR", "16", "EINVAL", "EINVAL", "16", "0", "16", "16", "16"]


def shown(out):
    """For each request, as the caller printed it: its errno or length, and its bytes."""
    fields = [line.split(" ") for line in out.splitlines()]
    return [(it[-1], "-") if "-1" in it else (next(f for f in it[1:] if f.isdecimal()), it[-1] if len(it[-1]) > 2 else "-")
            for it in fields]


def check_errnos(name, words, caller):
    for state, wanted in (("ready", READY), ("empty", EMPTY), ("early", EMPTY), ("late", LATE)):
        path = os.path.join(ROOM, "record")
        # After the own requests of a static or supervised program the late core would be ready too soon.
        late = prologue("wait 3" if name == "preloaded" else "wait 4", "add 616263 256")
        status, out, err = under(*words, "--prologue", late if state == "late" else state, "--record", path, caller,
                                 "errnos")
        got = shown(out)
        problem = err or ("" if status == 0 else f"status {status}")
        if not problem and [it[0] for it in got] != wanted and not (state == "late" and name != "preloaded"):
            problem = f"the answers are {[it[0] for it in got]}"
        served = [(answer, data) for answer, data in drawn(path)][-len(got):] if not problem else []
        for (answer, data), (said, bytes_said) in zip(served, got):
            if data != bytes_said or answer != ("ok" if said.isdecimal() else said):
                problem = problem or f"printed {said} {bytes_said}, and the record has {answer} {data}"
        report(f"{name}: each errno and byte, {state}", problem or problem_of_record(path))


def check_calls(name, words, caller):
    for way in ("files", "library", "threads", "forks"):
        path, asked = os.path.join(ROOM, "record"), os.path.join(ROOM, "asked")
        first = under(*words, "--record", path, "--asked", asked, caller, way)
        second = under(*words, caller, way)
        other = under(*words, "--seed", "other", caller, way)
        problem = "" if first[0] == 0 and not first[2] else f"status {first[0]}, {first[2]}"
        if first != second:
            problem = problem or "another output the second time"
        if first[1] == other[1]:
            problem = problem or "the same output for another seed"
        with open(asked) as file:
            callers = {line.split(" ")[1] for line in file}
        wanted = {"threads": {f"0.{it}" for it in range(8)}, "forks": {f"{it}.0" for it in range(5)}}.get(way, set())
        if not wanted <= callers:
            problem = problem or f"the requests are of {sorted(callers)}"
        report(f"{name}: {way}, twice the same", problem or problem_of_record(path))


PROGRAMS = {
    "mktemp": ["mktemp", "-u"],
    "shuf": ["shuf", "-i", "1-1000"],
    "sort": ["sort", "-R", os.path.join(HERE, "shim.c")],
    "head": ["head", "-c", "100", "/dev/urandom"],
    "od": ["od", "-An", "-tx1", "-N40", "/dev/random"],
    "python3": ["python3", "-c", "import secrets, random, uuid; print(secrets.token_hex(), random.random(), "
                "uuid.uuid4(), hash('text'), random.SystemRandom().random())"],
    "perl": ["perl", "-e", "my %h = map { $_ => 1 } 1 .. 99; print join(' ', keys %h), ' ', rand, qq(\\n)"],
    "bash": ["bash", "-c", "echo $SRANDOM; od -An -tu8 -N8 </dev/urandom"],
}


def check_programs(name, words):
    count = 0
    for program, its in PROGRAMS.items():
        if not shutil.which(program):
            skip(f"{name}: {program}", "it is not there")
            continue
        path = os.path.join(ROOM, "record")
        first, second = under(*words, "--record", path, *its), under(*words, *its)
        other = under(*words, "--seed", "other", *its)
        problem = "" if first[0] == 0 else f"status {first[0]}, {first[2]}"
        if first != second:
            problem = problem or f"{first[1]!r} and then {second[1]!r}"
        if first[1] == other[1]:
            problem = problem or "the same output for another seed"
        report(f"{name}: {program}, twice the same", problem or problem_of_record(path))
        count += 1
    if shutil.which("ssh-keygen"):
        keys = [os.path.join(ROOM, f"key{name}{at}") for at in range(2)]
        ran = [under(*words, "ssh-keygen", "-q", "-t", "ed25519", "-N", "", "-C", "x", "-f", key) for key in keys]
        texts = [open(key).read() for key in keys if os.path.exists(key)]
        report(f"{name}: ssh-keygen, the same key twice", "" if len(texts) == 2 and texts[0] == texts[1] else str(ran))


def check_python():
    """Python turns the errnos into its exceptions, and goes on when the core becomes ready."""
    code = ("import os, errno\nagain = 0\n"
            "try: os.getrandom(8, os.GRND_RANDOM | 4)\nexcept OSError as fault: print(fault.errno == errno.EINVAL)\n"
            "while True:\n"
            "    try: got = os.getrandom(8, os.GRND_NONBLOCK); break\n"
            "    except BlockingIOError: again += 1\n"
            "print(again > 0, len(got), again)\n")
    path = os.path.join(ROOM, "record")
    ran = under("--prologue", prologue("wait 30", "credit 256"), "--record", path, sys.executable, "-I", "-c", code)
    is_well = ran[0] == 0 and ran[1].startswith("True\nTrue 8 ") and not ran[2]
    report("Python: EINVAL, EAGAIN and then bytes", problem_of_record(path) if is_well else str(ran))
    blocked = "import os; print(len(os.getrandom(8)))"
    ran = under("--prologue", prologue("wait 30", "credit 256"), "--record", path, sys.executable, "-I", "-c", blocked)
    is_well = ran == (0, "8\n", "") and ("EINTR", "-") in drawn(path)
    report("Python: goes on after EINTR", problem_of_record(path) if is_well else str(ran))


def check_prologue():
    path = os.path.join(ROOM, "record")
    made = prologue("# cut short, and reseeded", "cpus 2", "add 616263 256", "short 5", "wait 1", "on 1", "reseed", "short 7")
    ran = under("--prologue", made, "--record", path, "head", "-c", "16", "/dev/urandom")
    lengths = [len(data) // 2 for _, data in drawn(path)]
    problem = problem_of_record(path) if ran[0] == 0 and lengths[-4:-1] != [] and 5 in lengths and 7 in lengths else str(ran)
    report("short reads of a file, a reseed and another CPU between", problem)
    for lines, place in ((["add 00 256", "", "nonsense"], "line 3"), (["wait"], "line 1"), (["fork 1"], "as a whole"),
                         (["cpus 1", "inside 1 wipe"], "line 2"),
                         (["credit 07"], "line 1"), (["short 0"], "line 1")):
        status, out, err = under("--prologue", prologue(*lines), "true")
        report(f"a prologue is refused: {lines[-1]}", "" if (status, out) == (125, "") and place in err else err)
    status, out, err = under("--prologue", "/nowhere", "true")
    report("a prologue that is not there", "" if (status, out) == (125, "") and "/nowhere" in err else err)


def check_faulty():
    """The worked example of docs/CALLERS.md: a caller that uses its zeros."""
    outs = [under("--prologue", it, "--seed", seed, ZEROED)[1] for it in ("empty", "ready") for seed in "ab"]
    is_caught = outs[0] == outs[1] == "0" * 32 + "\n" and len(set(outs)) == 3
    report("a caller that ignores EAGAIN is caught", "" if is_caught else str(outs))


def check_statuses(name, words):
    for its, wanted in ((["true"], 0), (["sh", "-c", "exit 7"], 7), (["sh", "-c", "kill -9 $$"], 137),
                        (["/nowhere/nonesuch"], 127), ([HERE], 126)):
        status = under(*words, *its)[0]
        report(f"{name}: status of {' '.join(its)[:20]}", "" if status == wanted else f"{status}")


def is_there(number):
    try:
        with open(f"/proc/{number}/stat") as file:
            return file.read().split(") ")[-1][0] != "Z"
    except OSError:
        return False


def processes_with(text):
    """The processes that have a text in their environment."""
    found = []
    for number in filter(str.isdecimal, os.listdir("/proc")):
        try:
            with open(f"/proc/{number}/environ", "rb") as file:
                if text.encode() in file.read():
                    found.append(int(number))
        except OSError:
            pass  # it has ended, or is another user's
    return found


def check_left_behind(name, words):
    """rng-under waits for processes that a program left, until one signal ends the wait. Then a traced process cannot
    go on."""
    left = "sleep 1234.5 </dev/null >/dev/null 2>&1 & echo $!; exit 3"
    began = subprocess.Popen([UNDER, *words, "sh", "-c", left], stdout=subprocess.PIPE, stderr=subprocess.PIPE)
    number = int(began.stdout.readline())
    time.sleep(1)
    waits = began.poll() is None
    began.terminate()
    try:
        status = began.wait(timeout=20)
    except subprocess.TimeoutExpired:
        status = "no end"
        began.kill()
    goes_on = is_there(number)
    if goes_on:
        os.kill(number, signal.SIGKILL)
    is_well = waits and status == 3 and goes_on == (name == "preloaded")
    report(f"{name}: one signal, and the processes that are left are not waited for", "" if is_well else f"{waits} {status} {goes_on}")


def check_limits(name, words, caller):
    status, _, err = under(*words, "--prologue", "empty", "--most", "50", caller, "retry")
    report(f"{name}: ended after 50 requests", "" if status == 125 and "after 50 requests" in err else f"{status} {err}")


def count_of(stats, word):
    """The number before a word in the output of --stats."""
    return int(stats.split(f" {word}")[0].split(" ")[-1]) if f" {word}" in stats else 0


def check_speed(name, words, caller):
    """The time of requests is only printed, since it is the machine's; the bounds are for the busiest of machines."""
    for count, size, most in ((1, 100, 9000), (10000, 16, 50), (1000, 4096, 100), (15, 1 << 20, 9000)):
        began = time.monotonic()
        status, _, err = under(*words, "--stats", caller, "many", str(count), str(size))
        spent = time.monotonic() - began
        each = float(err.split(" ms each")[0].split(" ")[-1]) if status == 0 else most
        report(f"{name}: {count} requests of {size} bytes, {each:.4f} ms each, {spent:.2f} s in all",
             "" if each < most and count_of(err, "records") == 1 else f"status {status}, {err}")


# ---- Records that are cut -------------------------------------------------------------------------------------------

def cut(events, size=1 << 24, text=1 << 24):
    """An environment in which records have less room."""
    return dict(os.environ, RNG_UNDER_LIMITS=f"{events} {size} {text}")


def check_cuts(name, words, caller):
    """Cut records give the program the same answers. Each record is confirmed, and so are the boundaries between records."""
    path = os.path.join(ROOM, "record")
    for state in ("ready", "early", "empty", "late"):
        whole = under(*words, "--prologue", state, caller, "errnos")
        ran = under(*words, "--prologue", state, "--stats", "--record", path, caller, "errnos", env=cut(10))
        answers = [[it[0] for it in shown(one[1])] for one in (whole, ran)]
        problem = "" if ran[0] == 0 and answers[0] == answers[1] else f"{ran}, not {answers[0]}"
        if count_of(ran[2], "records") < 2 or ran[2].count("\n") != 1:
            problem = problem or ran[2]
        report(f"{name}: errnos over cut records, {state}", problem or problem_of_record(path))
    for subject, limits in (("events", cut(700)), ("bytes", cut(65536, 9000)), ("text", cut(65536, 1 << 24, 6000))):
        ran = under(*words, "--stats", "--record", path, caller, "many", "1000", "16", env=limits)
        problem = "" if ran[0] == 0 and count_of(ran[2], "records") == 2 else str(ran)
        report(f"{name}: {subject} of a record run out", problem or problem_of_record(path))


def check_many_records():
    """One program, many records. The full number takes longer: an environment variable, below, asks for it."""
    path, asked = os.path.join(ROOM, "record"), os.path.join(ROOM, "asked")
    count = int(os.environ.get("UNDER_REQUESTS", "20000"))
    ran = under("--stats", "--record", path, "--asked", asked, CALLER, "many", str(count), "16", env=cut(3000))
    with open(asked) as file:
        is_whole = sum(line.endswith(" read 16 0 16\n") for line in file) == count
    problem = "" if ran[0] == 0 and count_of(ran[2], "records") == -(-count // 2995) else f"{ran[0]} {ran[2]}"
    if not is_whole:
        problem = problem or "requests are missing from the list"
    if len({its[4] for event, its in events_of(path) if event == "read 16 0"}) != count:
        problem = problem or "bytes were served twice"
    report(f"{count} requests over records of 3,000 events", problem or problem_of_check(path))
    ran = under("--stats", "--record", path, CALLER, "many", "17", "1048576")
    problem = "" if ran[0] == 0 and count_of(ran[2], "records") == 2 else str(ran)
    report("17 MiB, more than a script has", problem or problem_of_check(path))
    ran = under(CALLER, "many", "2", "300", env=cut(20, 300))
    report("a request that no record has room for", "" if ran[0] == 125 and "more room than a record" in ran[2] else str(ran))


# ---- Writes and control ---------------------------------------------------------------------------------------------

WRITTEN = ["write 3132333435363738", "write 39", "write 6162636465", "write 73747265616d"]
HANDED = b"the bytes that are handed in".ljust(32, b"\0").hex()
REFUSED = "RNDADDTOENTCNT EPERM\n" * 2 + "RNDADDENTROPY EPERM\n" * 3


def may_control():
    """Whether the kernel lets this user control the device. The kernel looks at an argument without a number later."""
    with open("/dev/random", "rb") as file:
        try:
            fcntl.ioctl(file, 0x40045201, 0)
        except OSError as fault:
            return fault.errno == errno.EFAULT
    return False


def controls_wanted(is_ready, may):
    """The output of the caller's word `controls`, and its events."""
    first, second = (256, 256) if is_ready else (0, 213)
    head = f"RNDGETENTCNT 0\n{first}\n"
    tail = "unknown EINVAL\nanother file's ENOTTY\n"
    if not may:
        rest = f"RNDGETENTCNT 0\n{first}\nRNDADDENTROPY EPERM\nRNDRESEEDCRNG EPERM\nRNDZAPENTCNT EPERM\nRNDCLEARPOOL EPERM\n"
        return f"{head}RNDRESEEDCRNG EPERM\n{REFUSED}{rest}{tail}", ["bits", "bits"]
    middle = ("RNDADDTOENTCNT 0\nRNDADDTOENTCNT EINVAL\nRNDADDENTROPY EINVAL\nRNDADDENTROPY 0\nRNDADDENTROPY 0\n"
              f"RNDGETENTCNT 0\n{second}\nRNDADDENTROPY 0\nRNDRESEEDCRNG 0\nRNDZAPENTCNT 0\nRNDCLEARPOOL 0\n")
    events = ["bits", "reseed", "credit 5", "credit 8", f"add {HANDED} 200", "bits", f"add {HANDED} 200", "reseed"]
    return f"{head}RNDRESEEDCRNG {'0' if is_ready else 'ENODATA'}\n{middle}{tail}", events


def check_controls(name, words, caller):
    path = os.path.join(ROOM, "record")
    users = [("", [], may_control())]
    if not os.geteuid() and shutil.which("setpriv") and name != "static":  # setpriv is not static
        users.append((" without rights", ["setpriv", "--reuid", "65534", "--clear-groups"], False))
    for suffix, before, may in users:
        for state in ("empty", "ready"):
            wanted, events = controls_wanted(state == "ready", may)
            ran = under(*words, "--prologue", state, "--record", path, *before, caller, "controls")
            got = [event for event, _ in events_of(path)][0 if state == "empty" else 1:]
            got = [event for event in got if event != "read 8 1"]  # malloc's
            problem = "" if ran == (0, wanted, "") and got == events else f"{ran}, not {wanted!r}, and {got}"
            report(f"{name}: ioctls of the devices, {state}{suffix}", problem or problem_of_record(path))


def check_writes(name, words, caller):
    path = os.path.join(ROOM, "record")
    ran = under(*words, "--record", path, caller, "writes")
    lines = ran[1].splitlines()
    wanted = ["write 8 3132333435363738", "pwrite 1 39", "writev 5 6162636465", "nothing 0", "closed -1 EBADF", "fclose 0"]
    events = [event for event, _ in events_of(path) if event.startswith("write ")]
    is_well = ran[0] == 0 and lines[1:-1] == wanted and events == WRITTEN
    report(f"{name}: writes to the devices", problem_of_record(path) if is_well else f"{ran} {events}")
    code = ("printf abc | dd of=/dev/urandom bs=3 2>/dev/null; printf def >/dev/random; env printf ghi >/dev/urandom\n"
            "od -An -tx1 -N8 /dev/urandom")
    ran = under(*words, "--record", path, "sh", "-c", code)
    events = [event for event, _ in events_of(path) if event.startswith("write ")]
    other = under(*words, "sh", "-c", code.replace("abc", "abd"))
    is_well = ran[0] == 0 and events == ["write 616263", "write 646566", "write 676869"]
    problem = problem_of_record(path) if is_well else f"{ran} {events}"
    report(f"{name}: a shell's writes to the devices", problem or ("" if other[0] == 0 and other[1] == ran[1] else str(other)))
    long = "import os; f = os.open('/dev/urandom', os.O_WRONLY); print(os.write(f, bytes(3 << 20)))"
    ran = under(*words, "--record", path, sys.executable, "-I", "-c", long)
    report(f"{name}: a long write is cut at 1 MiB", problem_of_check(path) if ran[:2] == (0, "1048576\n") else str(ran))


def check_prologue_between():
    """Many different lengths, while the prologue goes on: no request is lost, and none is served twice."""
    path = os.path.join(ROOM, "record")
    steps = [f"wait {it}" for it in (1, 2, 3, 58, 64, 1, 200, 1)]
    acts = ["credit 128", "short 7", "credit 128", "reseed", "add 00 8", "short 3000", "at 70000", "tick"]
    made = prologue(*[line for pair in zip(steps, acts) for line in pair])
    for name, words in (("preloaded", []), ("static", [STATIC] if os.path.exists(STATIC) else [])):
        ran = under("--prologue", made, "--record", path, *(words or [CALLER]), "mixed")
        problem = problem_of_record(path) if ran[0] == 0 else str(ran[2])
        if not problem and name == "preloaded" and ran[1] != mixed_of(path):
            problem = "the program got other bytes than the record has"
        report(f"{name}: reads of all lengths over a long prologue", problem)


def check_unserved():
    """If the library was not loaded into a program, this is no success."""
    if os.path.exists(STATIC):
        status, _, err = under("--preload", STATIC, "forks")
        report("a static program is not left unserved", "" if status == 125 and "--supervise" in err else f"{status} {err}")
    spaced = os.path.join(ROOM, "a b")
    shutil.copytree(HERE, os.path.join(spaced, "tools/under"), ignore=shutil.ignore_patterns("__pycache__"))
    shutil.copy(os.path.join(os.path.dirname(HERE), "command.py"), os.path.join(spaced, "tools"))
    ran = run([os.path.join(spaced, "tools/under/rng-under"), CALLER, "retry"], env=dict(os.environ, RNG=RNG))
    report("from a folder with a space in its name", "" if ran[:2] == under(CALLER, "retry")[:2] else str(ran))


def fake_core(name, script, environment=os.environ):
    """A program that is called in place of rng. Its script takes the place of `rng live`; rng itself runs for all other
    words."""
    path = os.path.join(ROOM, name)
    with open(path, "w") as file:
        file.write(f"#!/bin/sh\nrng='{RNG}'\n[ \"$1\" = live ] || exec \"$rng\" \"$@\"\n{script}\n")
    os.chmod(path, 0o755)
    return dict(environment, RNG=path)


def check_wrong_cores():
    """A core that serves wrong bytes, ends, or writes no line for its event is found out."""
    line = r"s/^\(0[.][0-9]* read ok [^ ]* \)"
    swap = f"{line}[0-7]/\\18/; t; {line}[89a-f]/\\10/"
    for name, script, wanted in (
            ("wrong bytes", f""""$rng" live | sed -u '{swap}'""", "does not confirm"),
            ("an end", """sed -u 5q | "$rng" live""", "fake live "),
            ("another event's line", """"$rng" live | sed -u 's/^0.2 /0.3 /'""", "its line"),
            ("no session", "exit 2", "live ended with status 2")):
        status, _, err = under(CALLER, "forks", env=fake_core("fake", script))
        report(f"a core with {name} is found out", "" if status == 125 and wanted in err else f"status {status}, {err}")
    script = """"$rng" live | sed -u 's/kread ok \\([^ ]*\\) ./kread ok \\1 0/'"""
    status, _, err = under(CALLER, "many", "40", "16", env=fake_core("fake", script, cut(20)))
    report("a wrong seed is found out", "" if status == 125 and "does not confirm" in err else f"status {status}, {err}")
    status, _, err = under("--prologue", "empty", CALLER, "retry", env=fake_core("fake", script, cut(20)))
    is_well = status == 125 and "does not confirm" in err
    report("a program that asks for ever ends if a record is not confirmed", "" if is_well else f"status {status}, {err}")


def check_page():
    """The commands of docs/CALLERS.md write the output that is below them there."""
    with open(os.path.join(TOP, "docs/CALLERS.md")) as file:
        blocks = [it.split("\n```")[0] for it in file.read().split("```text\n")[1:]]
    for block in blocks:
        for its in ("\n" + block).split("\n$ ")[1:]:
            command, _, wanted = its.partition("\n")
            ran = run(["sh", "-c", command.replace("/tmp/", ROOM + "/").replace("./rng ", RNG + " ")], cwd=TOP)
            report(f"page: {command}", "" if (ran[1] + ran[2]).strip("\n") == wanted.strip("\n") else str(ran))


def main():
    check_sources()
    if FAILED:
        return 1
    all_ways = ways()
    for name, words, caller in all_ways:
        check_errnos(name, words, caller)
        check_calls(name, words, caller)
        check_limits(name, words, caller)
        check_speed(name, words, caller)
        check_cuts(name, words, caller)
        check_controls(name, words, caller)
        check_writes(name, words, caller)
    for name, words, _ in all_ways[:2]:
        check_programs(name, words)
        check_statuses(name, words)
        check_left_behind(name, words)
    check_python()
    check_prologue()
    check_faulty()
    check_wrong_cores()
    check_prologue_between()
    check_many_records()
    check_unserved()
    check_page()
    if len(all_ways) > 1:
        ran = under("--supervise", CALLER, "droppable")
        report("supervised: no memory for vgetrandom", "" if ran == (0, "not droppable\n", "") else str(ran))
    print(f"programs on the core: {len(FAILED)} failed")
    return 1 if FAILED else 0


if __name__ == "__main__":
    try:
        sys.exit(main())
    finally:
        shutil.rmtree(ROOM, ignore_errors=True)

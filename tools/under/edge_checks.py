"""Checks of rng-under at its edges: signals, daemons, kills, wrong words, a damaged memory. Prints a line for each, and
ends non-zero if one fails. Checks that this machine does not allow are skipped with a message."""

import os
import shutil
import signal
import subprocess
import sys
import time

import checks
from checks import CALLER, HERE, ROOM, UNDER, is_there, problem_of_record, prologue, report, run, skip, under

EDGES = os.path.join(ROOM, "edges")
LEFT = "setsid sleep 1234.5 </dev/null >/dev/null 2>&1 & echo $!; exec sleep 1234.5"


def wait_until(is_so, seconds=20):
    end = time.monotonic() + seconds
    while not is_so() and time.monotonic() < end:
        time.sleep(0.02)
    return is_so()


def folder(name):
    path = os.path.join(ROOM, name)
    os.makedirs(path, exist_ok=True)
    return path


# ---- Supervised: no signal ends a call that would go on without a supervisor ---------------------------------------

def check_signals():
    wanted = "".join(f"{way} 0 of 20000 failed\n" for way in ("file", "device", "getrandom")) + "signals came\n"
    status, out, err = under("--supervise", EDGES, "interrupted", "20000")
    report(f"supervised: 60,000 calls while signals come, {', '.join(err.split(chr(10))[:3])}",
         "" if (status, out) == (0, wanted) else out + err)
    ran = under("--supervise", EDGES, "wait")
    report("supervised: a signal that is ignored ends no wait", "" if ran[1] == "epoll_wait waited on\n" else str(ran))


def check_open_modes(name, words):
    """A descriptor that is not open for reading answers as it does without rng-under."""
    ran, alone = under(*words, EDGES, "modes"), run([EDGES, "modes"])
    report(f"{name}: descriptors of the devices in each mode", "" if ran[:2] == alone[:2] else f"{ran}, not {alone}")


# ---- Daemons --------------------------------------------------------------------------------------------------------

def check_daemons(name, words):
    """The prologue has a line that is due at every hundredth request."""
    path = os.path.join(ROOM, "record")
    steps = prologue("add 616263 256", *["wait 100", "reseed"] * 11)
    ran = under(*words, "--prologue", steps, "--record", path, EDGES, "daemon")
    problem = problem_of_record(path) if ran[0] == 0 and ran[1].count("\n") == 4 else str(ran)
    report(f"{name}: a daemon without descriptors, root folder and rights", problem)
    if os.geteuid() or not shutil.which("setpriv"):
        return skip(f"{name}: a program that is started without rights", "this user cannot give them up")
    nobody = ["setpriv", "--reuid", "65534", "--clear-groups"]
    ran = under(*words, "--record", path, *nobody, "head", "-c", "16", "/dev/urandom")
    with open(path) as file:
        is_served = "\nuread 16\n" in file.read()
    report(f"{name}: a program that is started without rights", "" if ran[0] == 0 and is_served else str(ran))
    return None


def check_left_root(can_trace):
    if os.geteuid() or not os.path.exists(checks.STATIC):
        return skip("preloaded: a program that is started in another root folder", "that takes root")
    there = folder("there")
    shutil.copy(checks.STATIC, there)
    status, _, err = under("chroot", there, "/caller_static", "forks")
    is_reported = status == 0 and "changed its root folder" in err and "--supervise" in err
    report("preloaded: a program in another root folder is reported", "" if is_reported else f"{status} {err}")
    path = os.path.join(ROOM, "record")
    if can_trace:
        ran = under("--supervise", "--record", path, "chroot", there, "/caller_static", "forks")
        report("supervised: a program in another root folder", problem_of_record(path) if ran[0] == 0 else str(ran))
    return None


# ---- Ends -----------------------------------------------------------------------------------------------------------

def check_kill(name, words):
    """If rng-under is killed, the processes that it started end too, even if its caller blocked signals; the next run
    removes its folder."""
    above = folder(f"killed{name}")
    environment = dict(os.environ, TMPDIR=above)
    began = subprocess.Popen([UNDER, *words, "sh", "-c", LEFT], stdout=subprocess.PIPE, env=environment,
                             preexec_fn=lambda: signal.pthread_sigmask(signal.SIG_BLOCK, {signal.SIGUSR1}))
    left = int(began.stdout.readline())
    with open(f"/proc/{left}/stat") as file:
        first = int(file.read().split(") ")[-1].split()[1])
    count = len(checks.processes_with(above))
    began.kill()
    began.wait()
    is_ended = wait_until(lambda: not is_there(left) and not is_there(first) and not checks.processes_with(above))
    problem = "" if is_ended and count > 4 else f"{left}, {first} or {checks.processes_with(above)} of {count} go on"
    report(f"{name}: killed, it leaves no process", problem)
    for one in (left, first, *checks.processes_with(above)):
        if is_there(one):
            os.kill(one, signal.SIGKILL)
    before = os.listdir(above)
    status, _, err = under("true", env=environment)
    after = os.listdir(above)
    report(f"{name}: the next run clears its folder", "" if status == 0 and before and not after else f"{after} {err}")


def check_others_folder():
    """The folder of a run that goes on stays, and so does one that only has such a name."""
    above = folder("others")
    environment = dict(os.environ, TMPDIR=above)
    began = subprocess.Popen([UNDER, "sh", "-c", "echo; read _; exec head -c 16 /dev/urandom"], stdin=subprocess.PIPE,
                             stdout=subprocess.PIPE, env=environment)
    began.stdout.readline()
    os.makedirs(os.path.join(above, "rng-under.new"))
    ran = under("true", env=environment)
    out, _ = began.communicate(b"\n")
    is_well = ran[0] == began.returncode == 0 and len(out) == 16 and os.listdir(above) == ["rng-under.new"]
    report("a run leaves the folder of another one alone", "" if is_well else f"{ran} {len(out)} {os.listdir(above)}")


def check_nothing_asked(name, words):
    status, _, err = under(*words, "true")
    is_reported = status == 0 and "nothing was asked for" in err
    report(f"{name}: a run without a request is reported", "" if is_reported else f"{status} {err}")


def check_killed_server(name, words):
    """If the server or the core is killed, programs that ask end, and the cause is printed."""
    for at, said in ((0, "server"), (1, "live was ended by signal 9")):
        above = folder(f"server{name}{at}")
        began = subprocess.Popen([UNDER, *words, "--prologue", "empty", CALLER, "retry"], stdout=subprocess.DEVNULL,
                                 stderr=subprocess.PIPE, env=dict(os.environ, TMPDIR=above))
        is_there_all = wait_until(lambda: len(found(above)) == 2, 100)
        os.kill(found(above)[at] if is_there_all else began.pid, signal.SIGKILL)
        try:
            _, err = began.communicate(timeout=60)
        except subprocess.TimeoutExpired:
            began.kill()
            err = b"no end"
        left = checks.processes_with(above)
        is_well = began.returncode == 125 and said in err.decode() and not left and not os.listdir(above)
        report(f"{name}: the {'core' if at else 'server'} is killed", "" if is_well else f"{began.returncode} {err} {left}")


def found(above):
    """The server of a run, and its core."""
    these = [(number, command_of(number)) for number in checks.processes_with(above)]
    servers = [number for number, words in these if words[0].endswith("/server")]
    return servers + [number for number, words in these if words[-1:] == ["live"]]


def command_of(number):
    try:
        with open(f"/proc/{number}/cmdline", encoding="utf-8", errors="replace") as file:
            return file.read().rstrip("\0").split("\0")
    except OSError:
        return [""]


def check_killed_clients(name, words):
    """80 processes are killed while they ask. No other process waits for ever, and the record is confirmed."""
    path, asked = os.path.join(ROOM, "record"), os.path.join(ROOM, "asked")
    ran = under(*words, "--record", path, "--asked", asked, EDGES, "kill", "80", "30000", timeout=600)
    with open(asked) as file:
        count = sum(1 for _ in file)
    is_well = ran == (0, "all were killed\n", "") and count > 30000
    report(f"{name}: 80 processes are killed amid {count} requests", checks.problem_of_check(path) if is_well else str(ran))


def check_room_runs_out():
    """The folder of a run becomes full while the program asks: the program ends, and the cause is printed."""
    room = folder("small")
    code = f"mount -t tmpfs -o size=3m none {room} || exit 77; TMPDIR={room} exec '{UNDER}' '{CALLER}' many 60000 64"
    ran = run(["unshare", "-m", "sh", "-c", code]) if shutil.which("unshare") and not os.geteuid() else (77, "", "")
    if ran[0] in (1, 77):
        return skip("a temporary folder that gets full", "no file system can be mounted")
    is_well = ran[:2] == (125, "") and "No space left" in ran[2] and "TMPDIR" in ran[2]
    return report("a temporary folder that gets full", "" if is_well else str(ran))


def check_orphans(name, words):
    code = ("for it in 1 2 3 4 5 6 7 8; do (true &); done; tries=0\n"
            "while sleep 0.2; [ $tries -lt 20 ]; do tries=$((tries + 1))\n"
            "left=$(cat /proc/[0-9]*/stat 2>/dev/null | awk -v mine=$PPID '$4 == mine && $3 == \"Z\"' | wc -l)\n"
            "[ $left -ne 0 ] || break; done; echo $left")
    status, out, err = under(*words, "sh", "-c", code)
    report(f"{name}: orphans are waited for as they end", "" if (status, out) == (0, "0\n") else f"{status} {out} {err}")


# ---- Faults that are reported before the program starts ------------------------------------------------------------

def refused(name, words, said, **more):
    """The command ends with status 125 and a line that has these words, and does not start the program."""
    mark = os.path.join(ROOM, "started")
    status, out, err = under(*words, "touch", mark, **more)
    is_well = status == 125 and not out and all(it in err for it in said) and "Traceback" not in err
    report(f"refused: {name}", "" if is_well and not os.path.exists(mark) else f"status {status}, {err}")
    if os.path.exists(mark):
        os.unlink(mark)


def check_refusals():
    refused("an unknown option", ["--nonsense"], ["--nonsense", "usage: "])
    refused("no number", ["--most", "many"], ["--most"])
    refused("no limits", [], ["RNG_UNDER_LIMITS", "three numbers"], env=dict(os.environ, RNG_UNDER_LIMITS="many"))
    refused("no request at all", ["--most", "0"], ["--most"])
    refused("an unknown prologue", ["--prologue", "nonesuch"], ["no prologue nonesuch", "early, empty, late, ready"])
    refused("a prologue that is a folder", ["--prologue", ROOM], [ROOM])
    refused("a record in no folder", ["--record", "/nowhere/record"], ["/nowhere/record: No such file"])
    refused("a list in no folder", ["--asked", "/nowhere/asked"], ["/nowhere/asked: No such file"])
    refused("a file is too large for this user", [], ["MiB are needed", "TMPDIR"], preexec_fn=limit_files)
    status, _, err = run([UNDER])
    report("refused: no program", "" if status == 125 and "usage: " in err else f"{status} {err}")
    path = os.path.join(ROOM, "made")
    under("--prologue", "empty", "--most", "5", "--record", path, CALLER, "retry")
    is_kept = os.path.exists(path) and os.path.getsize(path) > 0
    os.unlink(path)
    under("--record", path, "--asked", "/nowhere/asked", "true")
    report("a file that got no record is not left", "" if is_kept and not os.path.exists(path) else "it is there")


def limit_files():
    import resource
    resource.setrlimit(resource.RLIMIT_FSIZE, (1 << 20, 1 << 20))


def check_full_folder():
    """If the temporary folder has no room, nothing is started, and no signal ends the command."""
    room = folder("full")
    code = f"mount -t tmpfs -o size=1m none {room} || exit 77; TMPDIR={room} exec '{UNDER}' echo started"
    ran = run(["unshare", "-m", "sh", "-c", code]) if shutil.which("unshare") and not os.geteuid() else (77, "", "")
    if ran[0] in (1, 77):
        return skip("a temporary folder without room", "no file system can be mounted")
    is_well = ran[:2] == (125, "") and "MiB are needed" in ran[2]
    return report("a temporary folder without room", "" if is_well else str(ran))


def check_seeds_and_folders():
    path = os.path.join(ROOM, "record")
    ran = under("--seed", b"\xff\x01 \n", "--record", path, CALLER, "forks")
    report("a seed of any bytes", problem_of_record(path) if ran[0] == 0 else str(ran))
    long = folder(os.path.join(*["n" * 100] * 8))
    ran = under("--record", path, CALLER, "forks", env=dict(os.environ, TMPDIR=long))
    report("a temporary folder with a long name", problem_of_record(path) if ran[0] == 0 else str(ran))
    ran = under(CALLER, "forks", env=dict(os.environ, TMPDIR="/nowhere"))
    report("a temporary folder that is not there", "" if "Traceback" not in ran[2] and ran[0] in (0, 125) else str(ran))
    for part in ("count", "word"):
        status, _, err = under(EDGES, "damage", part)
        is_well = status == 125 and "was damaged" in err and "Traceback" not in err
        report(f"a damaged memory is reported: {part}", "" if is_well else f"{status} {err}")


def check_modes():
    """Whatever the umask is and whatever was there, no other user can write the files that are loaded into programs."""
    tools = os.path.join(folder("modes"), "tools/under")
    shutil.copytree(HERE, tools, ignore=shutil.ignore_patterns("out", "__pycache__"))
    shutil.copy(os.path.join(os.path.dirname(HERE), "command.py"), os.path.dirname(tools))
    out, own = os.path.join(tools, "out"), os.path.join(tools, "rng-under")
    problem = ""
    for step in ("compiled by a user with an open umask", "found open to others"):
        ran = run(["sh", "-c", 'umask 0; exec "$@"', "sh", own, CALLER, "retry"], timeout=600,
                  env=dict(os.environ, RNG=checks.RNG))
        modes = {name: os.stat(os.path.join(out, name)).st_mode & 0o777 for name in [".", *os.listdir(out)]}
        if ran[0] or "shim.so" not in modes or any(mode & 0o022 for mode in modes.values()):
            problem = problem or f"{step}: {ran} {modes}"
        for name in modes:
            os.chmod(os.path.join(out, name), 0o777)
    report("no other user can write the compiled files", problem)


def main():
    for name, source in (("edges", "callers/edges.c"), ("caller", "callers/caller.c")):
        status, out, err = checks.compile_one(name, source)
        report(f"{source} compiles without a warning", out + err if status else "")
    if checks.FAILED:
        return 1
    ways = [(name, words) for name, words, _ in checks.ways()]
    if len(ways) > 1:
        check_signals()
    for name, words in ways[:2]:
        check_open_modes(name, words)
        check_daemons(name, words)
        check_kill(name, words)
        check_killed_server(name, words)
        check_killed_clients(name, words)
        check_orphans(name, words)
        check_nothing_asked(name, words)
    check_left_root(can_trace=len(ways) > 1)
    check_others_folder()
    check_refusals()
    check_full_folder()
    check_room_runs_out()
    check_seeds_and_folders()
    check_modes()
    print(f"edges of programs on the core: {len(checks.FAILED)} failed")
    return 1 if checks.FAILED else 0


if __name__ == "__main__":
    try:
        sys.exit(main())
    finally:
        shutil.rmtree(ROOM, ignore_errors=True)

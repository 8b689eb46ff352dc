"""Checks of rng-under --sweep, of the faults of a prologue and of --still, with the callers of callers/judged: one for
each verdict, and for each way of serving. Prints a line for each, and ends non-zero if one fails."""

import concurrent.futures
import json
import os
import shutil
import signal
import subprocess
import sys
import time

import checks
from checks import CALLER, FAILED, HERE, ROOM, UNDER, compile_one, prologue, report, run, skip, under

OWN, INTERRUPTED = 125, 130
TEMPORARY = os.path.join(ROOM, "t")
READY = "add 000102030405060708090a0b0c0d0e0f101112131415161718191a1b1c1d1e1f 256"

# For each caller, the verdict in each case that is tried.
WANTED = {
    "well": {"empty": "WELL", "no-device": "WELL", "EPERM": "REFUSES", "interrupted:1": "WELL", "reseed:1": "WELL"},
    "refuses": {"empty": "REFUSES", "ENOSYS": "REFUSES"},
    "unready": {"early": "UNREADY", "ENOSYS": "WELL", "nothing": "REFUSES"},
    "unused": {"late:1": "WELL", "interrupted:2": "WELL"},
    "mixes": {"late:1": "UNREADY", "interrupted:2": "UNREADY"},
    "fixed": {"empty": "FIXED", "EPERM": "FIXED"},
    "without": {"empty": "WITHOUT", "no-device": "WELL"},
    "less": {"late:1": "LESS", "empty": "FIXED"},
    "cut_short": {"cut:1": "LESS", "end:1": "FIXED", "EIO:1": "REFUSES"},
    "asks_on": {"early": "ASKS-ON", "late:1": "WELL"},
    "crash": {"empty": "CRASH"},
    "hangs": {"empty": "HANGS"},
}
# A supervisor also sees the first request, of the C library's malloc, so the other requests' numbers are one higher then.
SUPERVISED = {
    "well": {"early": "WELL", "no-device": "WELL", "EPERM": "REFUSES"},
    "refuses": {"empty": "REFUSES"},
    "unready": {"early": "UNREADY", "nothing": "REFUSES"},
    "mixes": {"late:1": "UNREADY"},
    "fixed": {"empty": "FIXED"},
    "without": {"empty": "WITHOUT"},
    "less": {"late:1": "LESS"},
    "cut_short": {"cut:1": "LESS"},
    "asks_on": {"early": "ASKS-ON"},
    "crash": {"empty": "CRASH"},
    "hangs": {"empty": "HANGS"},
}
BAD = {"LESS", "ASKS-ON", "HANGS", "CRASH", "WITHOUT", "UNREADY", "FIXED"}


def compile_callers():
    for name in (*WANTED, "killed"):
        status, out, err = compile_one(name, f"callers/judged/{name}.c")
        report(f"callers/judged/{name}.c compiles without a warning", out + err if status else "")


def caller(name):
    return os.path.join(ROOM, name)


def sweep(*words, **more):
    return under("--sweep", *words, env=dict(os.environ, TMPDIR=TEMPORARY), **more)


def findings_of(path):
    with open(path, encoding="utf-8") as file:
        return {it["case"]: it for it in map(json.loads, file) if "case" in it}


# ---- Verdicts ----------------------------------------------------------------------------------------------------

def problem_of_verdicts(words, name, cases):
    """The fault of the verdicts on a caller, in the table, in JSON and in the status."""
    path = os.path.join(ROOM, name + ".json")
    seconds = "6" if name == "hangs" else "60"
    status, out, err = sweep(*words, "--jobs", "2", "--seconds", seconds, "--json", path, "--only", ",".join(cases),
                             caller(name))
    rows = dict(line.split()[:2] for line in out.partition("\n\n")[0].splitlines() if line.split()[0] in cases)
    found = {case: it["verdict"] for case, it in findings_of(path).items()}
    if not rows == found == cases:
        return f"{found}, and not {cases}: {err}"
    return "" if status == int(bool(BAD.intersection(cases.values()))) else f"status {status}, {err}"


def check_verdicts(way, words, wanted):
    with concurrent.futures.ThreadPoolExecutor(4) as pool:
        problems = pool.map(lambda it: problem_of_verdicts(words, *it), wanted.items())
        for name, problem in zip(wanted, problems):
            report(f"{way}: sweep of {name}", problem)


def check_wrong_one():
    """A caller whose output has the usual length, and differs at each run, is not judged WELL because of that."""
    path = os.path.join(ROOM, "json")
    sweep("--json", path, caller("mixes"))
    found = {case: it["verdict"] for case, it in findings_of(path).items()}
    report("sweep: a wrong caller whose output always differs", "" if "UNREADY" in found.values() else str(found))


def check_shown_command():
    """The command that the sweep shows for a case makes its run again."""
    path = os.path.join(ROOM, "json")
    for name, case in (("fixed", "empty"), ("unready", "early"), ("cut_short", "cut:1"), ("well", "EPERM")):
        sweep("--json", path, "--only", case, caller(name))
        finding = findings_of(path)[case]
        status, out, _ = run(["sh", "-c", finding["command"]])
        one = finding["runs"][0]
        is_well = status == one["status"] and out.strip()[:300] == one["output"][:300]
        report(f"sweep: {case} of {name} again by its command", "" if is_well else f"{status} {out}, and not {one}")


def check_folder():
    """Files in {dir} are output, and the command that is shown makes a folder."""
    path = os.path.join(ROOM, "json")
    words = ["sh", "-c", f"{caller('fixed')} >\"$1/key\"", "sh", "{dir}"]
    status, _, err = sweep("--json", path, "--only", "empty,reseed:1", *words)
    found = findings_of(path)
    is_well = status == 1 and [found[it]["verdict"] for it in ("empty", "reseed:1")] == ["FIXED", "WELL"]
    again = run(["sh", "-c", found["empty"]["command"]])
    report("sweep: files in {dir}", "" if is_well and again[0] == 0 else f"{status} {err} {again}")


def check_many():
    """If there are many requests, the sweep lists those that it tries: the first, the last, and the first of each
    process are among them."""
    path = os.path.join(ROOM, "json")
    status, out, err = sweep("--only", "fork:*", CALLER, "many", "3", "16")
    report("sweep: no fork, no case", "" if status == 125 and "no such case" in err else f"{status} {out} {err}")
    status, out, err = sweep("--only", "reseed:*", "--json", path, CALLER, "many", "300", "16")
    with open(path, encoding="utf-8") as file:
        points = json.loads(file.readline())["tried"]
    is_well = points[0] == 1 and points[-1] == 300 and 12 <= len(points) <= 24 and "requests tried: 1, " in out
    report("sweep: many requests are sampled", "" if is_well and status == 0 else f"{status} {points} {err}")
    status, out, err = sweep("--only", "reseed:*", "--json", path, CALLER, "writes")
    with open(path, encoding="utf-8") as file:
        points = json.loads(file.readline())["tried"]
    is_well = status == 0 and points == [1, 6]
    report("sweep: of reads and writes only reads are tried", "" if is_well else f"{status} {points} {err}")
    status, out, err = sweep("--only", "fork:*", CALLER, "forks")
    is_well = status == 0 and out.count("\nfork:") == 4
    report("sweep: a case for each process that asks", "" if is_well else f"{status} {out} {err}")


def check_refusals():
    for words, wanted in ((["true"], "no random byte"), (["false"], "does not end well"),
                          (["/nowhere/nonesuch"], "not found"), (["--only", "nonsense", caller("well")], "no such case"),
                          (["--jobs", "0", "true"], "above 0"), (["--seed", "1", "true"], "without --seed"),
                          (["--input", "/nowhere", "true"], "cannot be read"),
                          (["--json", "/nowhere/x", caller("well")], "/nowhere/x")):
        status, _, err = sweep(*words)
        problem = "" if status == OWN and wanted in err and "Traceback" not in err else f"{status} {err}"
        report(f"sweep: refuses {' '.join(words)[:40]}", problem)
    status, _, err = under("--only", "empty", "true")
    report("an option of --sweep without it", "" if status == OWN and "--sweep" in err else f"{status} {err}")


# ---- Ends --------------------------------------------------------------------------------------------------------

def left_behind():
    """Files in the temporary folder, and processes that were started from there."""
    return os.listdir(TEMPORARY) + [f"process {number}" for number in checks.processes_with(TEMPORARY)]


def start_sweep(*words):
    return subprocess.Popen([UNDER, "--sweep", "--jobs", "2", *words], stdout=subprocess.PIPE, stderr=subprocess.PIPE,
                            text=True, env=dict(os.environ, TMPDIR=TEMPORARY))


def check_interrupt():
    """One signal ends a sweep with the findings so far, and no process goes on."""
    for number in (signal.SIGINT, signal.SIGTERM):
        began = start_sweep("--only", "reseed:1,late:1", caller("hangs"))
        first = [began.stdout.readline()]
        time.sleep(2)
        began.send_signal(number)
        try:
            out, err = began.communicate(timeout=30)
        except subprocess.TimeoutExpired:
            began.kill()
            out, err = "no end", ""
        is_well = began.returncode == INTERRUPTED and "interrupted, after " in out
        problem = str(left_behind() or "") if is_well else f"{began.returncode} {first} {out} {err}"
        report(f"sweep: ended by {number.name}", problem)


def check_killed_children(way, words):
    """Children of the program are killed while they ask. Each run kills them at other moments, so they ask more or
    less."""
    path = os.path.join(ROOM, "json")
    status, _, err = sweep(*words, "--only", "empty,reseed:1,reseed:2", "--json", path, caller("killed"))
    found = {case: it["verdict"] for case, it in findings_of(path).items()}
    is_well = len(found) == 3 and set(found.values()) <= {"WELL", "LESS"} and status in (0, 1)
    report(f"{way}: sweep of one whose children are killed", "" if is_well else f"{status} {found} {err}")


def check_killed_sweep():
    """A sweep that is killed leaves no process; its folder stays only until the next run."""
    began = start_sweep("--seconds", "60", "--only", "late:1", caller("hangs"))
    time.sleep(3)
    began.kill()
    began.communicate(timeout=30)
    until = time.monotonic() + 20
    while any(it.startswith("process") for it in left_behind()) and time.monotonic() < until:
        time.sleep(0.1)
    left = [it for it in left_behind() if it.startswith("process")]
    under("true", env=dict(os.environ, TMPDIR=TEMPORARY))
    report("sweep: killed, it leaves no process", str(left or left_behind() or ""))


def runs_of(process):
    """The rng-under that a sweep has started."""
    with open(f"/proc/{process}/task/{process}/children", encoding="ascii") as file:
        return [int(it) for it in file.read().split()]


def check_killed_run():
    """If a rng-under of a sweep is killed, this is reported, and the processes that it ran are ended."""
    began = start_sweep("--seconds", "60", "--only", "late:1", caller("hangs"))
    killed = set()
    until = time.monotonic() + 60
    while began.poll() is None and time.monotonic() < until:
        if len(killed) < 8 and os.path.exists(f"/proc/{began.pid}"):
            for it in set(runs_of(began.pid)) - killed if began.poll() is None else ():
                time.sleep(0.2)
                killed.add(it)
                try:
                    os.kill(it, signal.SIGKILL)
                except ProcessLookupError:
                    pass
        time.sleep(0.05)
    out, err = began.communicate(timeout=60)
    is_well = began.returncode == OWN and killed and "Traceback" not in err
    report("sweep: its own runs are killed", str(left_behind() or "") if is_well else f"{began.returncode} {out} {err}")


# ---- Faults and --still ------------------------------------------------------------------------------------------

def check_faults(way, words):
    """Each fault answers the requests that it can, once or always, and the record stays that of the core."""
    asked, path = os.path.join(ROOM, "asked"), os.path.join(ROOM, "record")
    for kind, first, count in (("EINTR", "read 16 0 EINTR", 1), ("EPERM always", "read 16 0 EPERM", 8),
                               ("ENOSYS", "read 16 0 ENOSYS", 1), ("EIO always", "read 16 0 EIO", 11),
                               ("end always", "dread 16 1 0", 3), ("EAGAIN", "read 16 0 EAGAIN", 1)):
        made = prologue(READY, f"fault {kind}")
        status, _, err = under(*words, "--prologue", made, "--asked", asked, "--record", path, CALLER, "errnos")
        with open(asked, encoding="ascii") as file:
            lines = [line for line in file if line.startswith("- ") and " read 8 1 " not in line]
        faults = [line.split(" ", 2)[2].strip() for line in lines]
        is_well = status == 0 and len(faults) == count and faults[0] == first
        report(f"{way}: fault {kind}", checks.problem_of_record(path) if is_well else f"{status} {faults} {err}")
    for kind, wanted in (("ENOENT", "No such file"), ("EMFILE", "Too many open files")):
        made = prologue(READY, f"fault {kind} always")
        ran = under(*words, "--prologue", made, "head", "-c", "8", "/dev/urandom")
        report(f"{way}: fault {kind} always, for a program that opens a device", "" if ran[0] == 1 and wanted in ran[2] else str(ran))
        ran = under(*words, "--prologue", made, "head", "-c", "8", os.path.join(HERE, "shim.c"))
        report(f"{way}: and other files open", "" if ran[:2] == (0, "// For L") else str(ran))


def check_fault_words():
    made = prologue(READY, "fault EINTR", "fault EAGAIN", "wait 1", "short 3 always")
    asked = os.path.join(ROOM, "asked")
    under("--prologue", made, "--asked", asked, CALLER, "errnos")
    with open(asked, encoding="ascii") as file:
        got = [line.split()[-1] for line in file]
    wanted = ["EINTR", "EAGAIN", "3", "3", "EINVAL", "EINVAL", "3", "0", "3", "3", "3"]
    report("two faults, and short answers always", "" if got == wanted else str(got))
    for line in ("fault", "fault NONSENSE", "fault EINTR sometimes", "fault EINTR always always", "wait 3 always",
                 "short 3 now"):
        status, out, err = under("--prologue", prologue(READY, line), "true")
        report(f"a prologue is refused: {line}", "" if (status, out) == (OWN, "") and "line 2" in err else err)
    made = prologue(READY, "fault ENOSYS always", "fault ENOENT always")
    status, _, err = under("--prologue", made, CALLER, "library")
    is_well = status in (1, 134)
    report("getentropy and arc4random end if nothing serves them", "" if is_well else f"{status} {err}")


def check_still(way, words):
    said = ["sh", "-c", "echo $$; date +%s%N; sh -c 'echo $$ $PPID'"]
    first, second = under(*words, "--still", *said), under(*words, "--still", *said)
    report(f"{way}: --still holds clock and process numbers", "" if first == second and first[0] == 0 else f"{first} {second}")
    ran = under(*words, "--still", "sh", "-c", "kill -9 $$; echo goes on")
    report(f"{way}: --still, a process that ends itself", "" if ran[:2] == (137, "") else str(ran))


def check_static():
    """The clock of a static program goes on, and this is reported; such a program's verdict is another one."""
    if compile_one("fixed_static", "callers/judged/fixed.c", "-static")[0]:
        return skip("sweep of a static program", "none can be linked")
    ran = under("--still", caller("fixed_static"))
    report("--still reports a static program", "" if ran[0] == 0 and "static" in ran[2] else str(ran))
    path = os.path.join(ROOM, "json")
    status, out, err = sweep("--only", "empty,reseed:1", "--json", path, caller("fixed_static"))
    found = {case: it["verdict"] for case, it in findings_of(path).items()}
    is_well = status == 1 and found in ({"empty": "WITHOUT", "reseed:1": "WELL"}, {"empty": "FIXED", "reseed:1": "WELL"})
    return report("sweep of a static program", "" if is_well else f"{status} {out} {err}")


def main():
    os.mkdir(TEMPORARY)
    compile_callers()
    compile_one("caller", "callers/caller.c")
    if FAILED:
        return 1
    ways = checks.ways()
    check_verdicts("preloaded", [], WANTED)
    if len(ways) > 1:
        check_verdicts("supervised", ["--supervise"], SUPERVISED)
        check_static()
    check_wrong_one()
    check_shown_command()
    check_folder()
    check_many()
    check_refusals()
    for name, words, _ in ways[:2]:
        check_faults(name, words)
        check_still(name, words)
        check_killed_children(name, words)
    check_fault_words()
    check_interrupt()
    check_killed_run()
    check_killed_sweep()
    report("sweep: nothing is left behind", str(left_behind() or ""))
    print(f"sweeps: {len(FAILED)} failed")
    return 1 if FAILED else 0


if __name__ == "__main__":
    try:
        sys.exit(main())
    finally:
        shutil.rmtree(ROOM, ignore_errors=True)

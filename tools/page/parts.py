"""The parts of the page and how they are put together: a text, a style, scripts, and data with both modules in it.

The page's head names, by their SHA-256, the scripts that may run. So a browser runs no other script in the page,
whatever a transcript contains, and opens no connection.
"""

import base64
import hashlib
import json
import os
import re
import subprocess

import command

HERE = os.path.dirname(os.path.realpath(__file__))
TOP = os.path.dirname(os.path.dirname(HERE))
# The programs of the page, each with its crate.
PROGRAMS = {"rng": "rng_tool", "key_audit": "key_audit"}
# The scripts that a worker runs, and below those that the page itself runs in addition.
SHARED = ["engine.js", "reading.js", "moments.js", "faults.js"]
WORKER = ["worker.js"]
OWN = ["words.js", "picture.js", "batch.js", "panels.js", "editor.js", "visit.js", "page.js", "selftest.js", "begin.js"]
EXAMPLES = [
    ("tasks/erasure", "Fast key erasure: three reads, a reseed, a read"),
    ("first", "First: a write, and a read before the core is ready"),
    ("worked/two_cpus", "Two CPUs, each with its own key"),
    ("worked/vread_batch", "vgetrandom: three calls from one batch"),
    ("worked/wipe_inside_with_nested_read", "vgetrandom: memory wiped in the middle of a call"),
    ("worked/reseed_inside_vread", "vgetrandom: a reseed in the middle of a call"),
    ("worked/two_vgetrandom_states", "vgetrandom: two states of one caller"),
    ("callers/fork_wipes_the_childs_state", "Two callers: a fork wipes the child's state"),
    ("callers/waiter_resumes", "Two callers: one waits until the other makes the core ready"),
    ("tasks/not_ready", "Every error, before the core is ready"),
    ("tasks/boot", "The start of a small machine"),
    ("worked/int16_across_readiness_and_reseed", "Integers out of a batch"),
    ("worked/irq_at_1001_dumps", "Interrupts, and when they reach the pool"),
    ("long_read", "Reads longer than a block"),
]
BOOTS = [
    ("one_cpu", "A recorded boot: Debian kernel, one CPU"),
    ("two_cpus", "A recorded boot: two CPUs"),
    ("multi_user", "A recorded boot: Debian 12 up to its login prompt"),
]
DATA = re.compile(r'<script type="application/json" id="data">(.*?)</script>', re.S)


def read(*path):
    with open(os.path.join(*path), encoding="utf-8") as file:
        return file.read()


def sources_of(tree, crate):
    """The sum of the sources that a program is built from, by tools/stamp.sh."""
    script = 'top=.; . tools/stamp.sh; choose "$1"; sum_of_sources'
    ran = subprocess.run(["sh", "-c", script, "sh", crate], cwd=tree, capture_output=True, text=True, check=False)
    if ran.returncode or not re.match(r"[0-9a-f]{64}\b", ran.stdout):
        raise command.Fault(f"the sources of {crate} in {tree} have no sum: {ran.stderr.strip()}")
    return ran.stdout.split()[0]


def version_of():
    return re.search(r"^## ([0-9.]+)", read(TOP, "CHANGELOG.md"), re.M).group(1)


def examples():
    for name, title in EXAMPLES:
        yield {"name": name, "title": title, "script": read(TOP, "examples", f"{name}.script")}
    for name, title in BOOTS:
        with open(f"{TOP}/examples/boots/{name}.script.gz", "rb") as file:
            yield {"name": f"boots/{name}", "title": title, "gzip": base64.b64encode(file.read()).decode()}


def data_of(page):
    found = DATA.search(page)
    if not found:
        raise command.Fault("the page has no data")
    return json.loads(found.group(1))


def as_json(value):
    """JSON in which no text can end the script element that holds it."""
    return json.dumps(value, ensure_ascii=True, indent=0).replace("<", "\\u003c")


def sum_for_policy(text):
    return "'sha256-" + base64.b64encode(hashlib.sha256(text.encode()).digest()).decode() + "'"


def joined(names):
    return "\n" + "".join(read(HERE, name) for name in names)


def page_of(modules, version):
    scripts = {"SHARED": joined(SHARED), "WORKER": joined(WORKER), "OWN": joined(OWN)}
    for name, text in scripts.items():
        if "</script" in text or "<!--" in text:
            raise command.Fault(f"the scripts of {name} have a text that would end their element")
    # For the page the worker's own script is a text; it runs only in the worker.
    policy = " ".join(sum_for_policy(scripts[name]) for name in ("SHARED", "OWN"))
    data = {"version": version, "modules": modules, "examples": list(examples())}
    filled = {"POLICY": policy, "STYLE": "\n" + read(HERE, "style.css"), "DATA": as_json(data), **scripts}
    return re.sub(r"\{\{([A-Z]+)\}\}", lambda found: filled[found.group(1)], read(HERE, "fenloth.html.in"))

#!/usr/bin/env python3
"""capture.py CRATE_FOLDER MODULE.bc LOG: catches the LLVM module of a proved program on its way to the compiler.

`rattle build` proves the program, as `rt run` does, and passes one module to the clang of its toolchain folder. Here
that folder has links to the kit's files, and its `clang` is a script that keeps a copy of the module and then calls the
kit's clang. Nothing in the kit is changed. The prover's output goes to LOG. The crates below have to be proved.
"""

import os
import shutil
import subprocess
import sys
import tempfile

KEEPING_CLANG = """#!/bin/sh
for word in "$@"; do
    case $word in
    *.bc) cp "$word" '{module}' ;;
    esac
done
exec '{home}/toolchain/bin/clang' "$@"
"""


def home_of_kit():
    """The folder of the Rattle kit whose `rt` is on the PATH, or None."""
    rt = shutil.which("rt")
    return rt and os.path.dirname(os.path.dirname(os.path.realpath(rt)))


def linked_toolchain(home, room):
    """Makes a toolchain folder in `room`; returns it, and the file in which its clang leaves the module."""
    tools, module = f"{room}/toolchain", f"{room}/module.bc"
    os.makedirs(f"{tools}/bin")
    os.symlink(f"{home}/toolchain/lib", f"{tools}/lib")
    for name in os.listdir(f"{home}/toolchain/bin"):
        if name != "clang":
            os.symlink(f"{home}/toolchain/bin/{name}", f"{tools}/bin/{name}")
    with open(f"{tools}/bin/clang", "w", encoding="ascii") as file:
        file.write(KEEPING_CLANG.format(module=module, home=home))
    os.chmod(f"{tools}/bin/clang", 0o755)
    return tools, module


def words_for(home, folder, log):
    """The words that `rt` itself passes to `rattle build` for this crate, once the crates below it are built."""
    sys.argv = ["rt"]
    sys.path.insert(0, f"{home}/bin")
    sys.dont_write_bytecode = True
    import rtlib  # pylint: disable=import-error,import-outside-toplevel

    crate = rtlib.Crate(folder, rtlib.root_above(folder) or folder, {})
    left = [below for below in crate.below() if not below.is_built()]
    for number, below in enumerate(left, 1):
        print(f"page: the library {below.name} is built from the files that its proof kept, {number} of {len(left)}", file=sys.stderr, flush=True)
        below.out = log
        if below.build_rlib(["--jobs", "1"], anew=False):
            sys.exit(f"page: the crate {below.name} is not proved")
    return [*crate.words([]), *rtlib.KEPT]


def main(folder, to, log_path):
    home, folder, to = home_of_kit(), os.path.realpath(folder), os.path.abspath(to)
    with tempfile.TemporaryDirectory() as room, open(log_path, "a", encoding="utf-8") as log:
        os.chdir(folder)
        tools, module = linked_toolchain(home, room)
        words = words_for(home, folder, log)
        log.flush()
        whole = [f"{home}/bin/rattle", "build", *words, "--toolchain", tools, "--backend", "llvm", "-o", f"{room}/made.o"]
        status = subprocess.run(whole, stdin=subprocess.DEVNULL, stdout=log, stderr=log, check=False).returncode
        if status or not os.path.isfile(module):
            return status or 1
        shutil.move(module, to)
    return 0


if __name__ == "__main__":
    sys.exit(main(*sys.argv[1:]))

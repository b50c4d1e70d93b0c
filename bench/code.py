#!/usr/bin/env python3
"""Prints how many instructions a second verification takes in, in user time, and the most memory that it needs.

Runs bench/code_main.txt over copies of crates/cc_base and cc_code in a temporary folder, proved and built by `rt run`. The
code has 65,535 instructions: straight; with 20,000 jumps and 500 selects of 20 alternatives; and the worst that is known,
65,530 offers before two ways to two tables of 65,535 entries each, which are followed for each offer on its own. The time
is that of a run that makes and verifies the code so often, less that of a run that only makes it.

    bench/code.py
"""

import os
import pathlib
import re
import shutil
import subprocess
import sys
import tempfile
import time

HERE = pathlib.Path(__file__).resolve().parent
CRATES = HERE.parent / "crates"
BELOW = {"cc_base": "", "cc_code": "cc_base itoa sqlite_items thiserror"}
INSTRUCTIONS = 65_535


def build(folder):
    for crate in BELOW:
        shutil.copytree(CRATES / crate, folder / "crates" / crate, ignore=shutil.ignore_patterns("out", "must-fail"))
    source = folder / "crates" / "bench" / "src"
    source.mkdir(parents=True)
    shutil.copyfile(HERE / "code_main.txt", source / "main.rt")
    lines = [f"{crate}: {below}" for crate, below in BELOW.items()]
    lines.append("bench: cc_base cc_code sqlite_items anyhow")
    (folder / "crates.txt").write_text("\n".join(lines) + "\n")
    crate = source.parent
    done = subprocess.run(["rt", "run", "--jobs", "2", "--", "straight", "1", "verify"], cwd=crate, stdout=subprocess.PIPE, text=True)
    if done.returncode != 0:
        sys.exit(done.stdout + "the program is not built")
    return crate / "out" / "bench"


def peak(process):
    """The most memory in KB that the process had so far, by the kernel's count of its pages."""
    try:
        status = pathlib.Path(f"/proc/{process.pid}/status").read_text()
    except OSError:
        return 0
    found = re.search(r"^VmHWM:\s*(\d+) kB$", status, re.M)
    return int(found.group(1)) if found else 0


def run(program, words):
    process = subprocess.Popen([program, *words], stdout=subprocess.DEVNULL)
    most = 0
    while True:
        most = max(most, peak(process))
        ended, status, used = os.wait4(process.pid, os.WNOHANG)
        if ended:
            break
        time.sleep(0.002)
    if status != 0:
        sys.exit(f"{words}: status {status}")
    return used.ru_utime, most


def measure(program, name, turns):
    best = None
    for _ in range(3):
        made, without = run(program, [name, str(turns)])
        both, most = run(program, [name, str(turns), "verify"])
        taken = both - made
        best = taken if best is None else min(best, taken)
    rate = turns * INSTRUCTIONS / best if best > 0 else 0
    print(f"{name:<10}{best / turns * 1000:>12.2f} ms{rate / 1e6:>12.1f} million/s{without / 1024:>10.1f} MB{most / 1024:>10.1f} MB")


def main():
    with tempfile.TemporaryDirectory() as folder:
        program = build(pathlib.Path(folder))
        print("code        once verified    instructions a second    made  verified (most memory)")
        measure(program, "straight", 100)
        measure(program, "jumping", 100)
        measure(program, "hostile", 1)


main()

#!/usr/bin/env python3
"""Prints what the machine takes for loops of about 100 million instructions, beside a switch interpreter of the same instructions in C and
Lua 5.4 on the same loops; and how long it takes to resume and to suspend a process that asks at once.

Runs bench/machine_main.txt over copies of the crates below vm_tests in a temporary folder, proved and built by `rt run`, bench/machine.c by
`gcc -O2`, and bench/machine.lua by lua5.4 where that is installed. The machine and the program in C pause after each 1,000 ticks. In turn,
so many rounds, in user time: the least and the median, and of the least how many million instructions a second. A loop gives the same
number in each program. With the word `try` the program is interpreted by `rt try`, with few turns and once, which tells only that it runs.

    bench/machine.py [rounds | try]
"""

import os
import pathlib
import shutil
import statistics
import subprocess
import sys
import tempfile

HERE = pathlib.Path(__file__).resolve().parent
CRATES = HERE.parent / "crates"
BELOW = {
    "cc_base": "",
    "cc_rules": "cc_base",
    "cc_queue": "cc_base slab",
    "cc_timer": "cc_base",
    "cc_kernel": "cc_base cc_queue cc_rules cc_timer",
    "cc_code": "cc_base itoa sqlite_items thiserror",
    "cc_vm": "cc_base cc_code itoa sqlite_items",
    "vm_tests": "cc_base cc_rules cc_kernel cc_code cc_vm sqlite_items",
}
# For each loop its turns, those where it is only tried, and how many instructions it has for so many turns.
LOOPS = {
    "plain": (3_846_154, 100, lambda n: 26 * n + 10),
    "calling": (2_941_176, 100, lambda n: 34 * n + 10),
    "array": (3_331, 2, lambda n: 30_023 * n + 10),
    "fib": (32, 10, lambda n: 29 * fibonacci(n + 1) - 14),
}
# What a process asks for again and again.
ASKED = {"prints": "a print of one byte", "waits": "a delay"}
TIMES = 10_000_000


def fibonacci(n):
    one, next = 0, 1
    for _ in range(n):
        one, next = next, one + next
    return one


def write(folder):
    for crate in BELOW:
        shutil.copytree(CRATES / crate, folder / "crates" / crate, ignore=shutil.ignore_patterns("out", "must-fail"))
    source = folder / "crates" / "bench" / "src"
    source.mkdir(parents=True)
    shutil.copyfile(HERE / "machine_main.txt", source / "main.rt")
    lines = [f"{crate}: {below}" for crate, below in BELOW.items()]
    lines.append("bench: cc_base cc_kernel cc_rules cc_code cc_vm vm_tests sqlite_items anyhow")
    (folder / "crates.txt").write_text("\n".join(lines) + "\n")
    return source.parent


def build(folder):
    crate = write(folder)
    done = subprocess.run(["rt", "run", "--jobs", "2", "--", "plain", "1"], cwd=crate, stdout=subprocess.PIPE, text=True)
    if done.returncode != 0:
        sys.exit(done.stdout + "the program is not built")
    beside = folder / "machine"
    subprocess.run(["gcc", "-O2", "-o", beside, HERE / "machine.c"], check=True)
    programs = {"machine": [crate / "out" / "bench"], "C": [beside]}
    lua = shutil.which("lua5.4")
    if lua:
        programs["Lua 5.4"] = [lua, HERE / "machine.lua"]
    else:
        print("lua5.4 is not installed: without it")
    return programs


def run(words, loop, turns):
    process = subprocess.Popen([*words, loop, str(turns)], stdout=subprocess.PIPE, text=True)
    told = process.stdout.read()
    _, status, used = os.wait4(process.pid, 0)
    if status != 0:
        sys.exit(f"{words[0]} {loop}: {told}status {status}")
    return used.ru_utime, told.strip()


def compare(programs, rounds):
    times, given = {}, {}
    for _ in range(rounds):
        for loop, (turns, _, _) in LOOPS.items():
            for name, words in programs.items():
                taken, told = run(words, loop, turns)
                times.setdefault((loop, name), []).append(taken)
                if given.setdefault(loop, told) != told:
                    sys.exit(f"{name} gives {told} for {loop}, and another gave {given[loop]}")
    print(f"{'loop':<10}{'program':<10}{'least':>9}{'median':>9}{'million/s':>11}")
    for (loop, name), taken in times.items():
        turns, _, instructions = LOOPS[loop]
        least = max(min(taken), 1e-9)
        speed = "" if name == "Lua 5.4" else f"{instructions(turns) / least / 1e6:>11.1f}"
        print(f"{loop:<10}{name:<10}{least:>8.2f}s{statistics.median(taken):>8.2f}s{speed}")


def ask(words, rounds):
    for loop, what in ASKED.items():
        taken = []
        for _ in range(rounds):
            none, _ = run(words, loop, 0)
            used, told = run(words, loop, TIMES)
            if told != "true":
                sys.exit(f"{loop}: {told}")
            taken.append((used - none) / TIMES * 1e9)
        print(f"resumed and suspended, asking for {what}: least {min(taken):.1f} ns, median {statistics.median(taken):.1f} ns")


def interpret(crate, loop, turns):
    done = subprocess.run(["rt", "try", "--", loop, str(turns)], cwd=crate, stdout=subprocess.PIPE, stderr=subprocess.STDOUT, text=True)
    told = done.stdout.strip().splitlines()
    print(f"{loop} {turns}: {told[0] if told else 'nothing'}, status {done.returncode}")


def main():
    tried = sys.argv[1:] == ["try"]
    rounds = 9 if tried or len(sys.argv) < 2 else int(sys.argv[1])
    with tempfile.TemporaryDirectory() as name:
        folder = pathlib.Path(name)
        if tried:
            crate = write(folder)
            for loop, (_, turns, _) in LOOPS.items():
                interpret(crate, loop, turns)
            for loop in ASKED:
                interpret(crate, loop, 10)
            return
        programs = build(folder)
        compare(programs, rounds)
        ask(programs["machine"], rounds)


main()

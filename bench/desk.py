#!/usr/bin/env python3
"""Times the hand-overs of the turn of a desk, beside std's Mutex of Rust and pthread mutexes, and prints a table.

Builds a small proved program over copies of crates/cc_desk and crates/desk_tests in a temporary folder, by `rt run`; its main
function is bench/desk_main.txt. bench/desk_mutex.rs and bench/desk_mutex.c do the same with a mutex. In each there are
4,000,000 holds that change nothing, by 1, 2 and 4 threads together. The three programs run by turns, and the table has the
median of so many rounds, in hand-overs a second.

    bench/desk.py [ROUNDS]
"""

import pathlib
import re
import shutil
import statistics
import subprocess
import sys
import tempfile

HERE = pathlib.Path(__file__).resolve().parent
CRATES = HERE.parent / "crates"
HOLDS = 4_000_000


def build(folder):
    """The proved program, built over copies of the crates."""
    for crate in ("cc_desk", "desk_tests"):
        shutil.copytree(CRATES / crate, folder / "crates" / crate)
    source = folder / "crates" / "bench" / "src"
    source.mkdir(parents=True)
    shutil.copyfile(HERE / "desk_main.txt", source / "main.rt")
    shutil.copyfile(HERE.parent / "HANDLES", folder / "HANDLES")
    (folder / "crates.txt").write_text("cc_desk: atomic_table\ndesk_tests: cc_desk\nbench: cc_desk desk_tests anyhow\n")
    done = subprocess.run(["rt", "run", "--jobs", "2"], cwd=source.parent, stdout=subprocess.PIPE, text=True)
    if done.returncode != 0:
        sys.exit(done.stdout + "the program is not built")
    return source.parent / "out" / "bench"


def rounds_of(programs, count):
    """For each program and each number of threads the microseconds of each round."""
    took = {name: {1: [], 2: [], 4: []} for name in programs}
    for _ in range(count):
        for name, program in programs.items():
            told = subprocess.run([str(program)], stdout=subprocess.PIPE, text=True, check=True).stdout
            for workers, micros in re.findall(r"^(\d+) (\d+)$", told, re.M):
                took[name][int(workers)].append(int(micros))
    return took


def main():
    count = int(sys.argv[1]) if len(sys.argv) > 1 else 5
    with tempfile.TemporaryDirectory() as name:
        folder = pathlib.Path(name)
        programs = {"desk": build(folder), "Mutex": folder / "mutex", "pthread": folder / "pthread"}
        subprocess.run(["rustc", "-O", "-o", programs["Mutex"], HERE / "desk_mutex.rs"], check=True)
        subprocess.run(["cc", "-O2", "-pthread", "-o", programs["pthread"], HERE / "desk_mutex.c"], check=True)
        took = rounds_of(programs, count)
    print(f"{'':<10}" + "".join(f"{workers:>9} seats" for workers in (1, 2, 4)))
    for name, times in took.items():
        rates = (HOLDS / (statistics.median(micros) / 1e6) for micros in times.values())
        print(f"{name:<10}" + "".join(f"{rate:>15,.0f}" for rate in rates))


main()

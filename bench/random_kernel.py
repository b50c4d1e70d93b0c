#!/usr/bin/env python3
"""Runs random programs of up to six processes on one worker, and gives each journal to the machine over plain lists, which must
take every event of it, and then print and stand as the run did; and as many that may wait, on a kernel that is told random moments.

The tests bench/random_kernel_test.txt and bench/random_timed_test.txt are put beside those of kernel_tests, in copies of the crates in
a temporary folder, and are run by `rt try --test`, without a proof.

    bench/random_kernel.py [PROGRAMS]
"""

import pathlib
import re
import shutil
import subprocess
import sys
import tempfile

HERE = pathlib.Path(__file__).resolve().parent
CRATES = HERE.parent / "crates"
BELOW = {
    "cc_base": "",
    "cc_world": "cc_base",
    "cc_rules": "cc_base",
    "cc_plain": "cc_base cc_rules",
    "cc_queue": "cc_base slab",
    "cc_timer": "cc_base",
    "cc_kernel": "cc_base cc_queue cc_rules cc_timer",
    "cc_pool": "cc_base cc_world cc_rules cc_kernel",
    "kernel_tests": "cc_base cc_world cc_rules cc_plain cc_kernel cc_pool",
}


def build(folder, programs):
    for crate in BELOW:
        shutil.copytree(CRATES / crate, folder / "crates" / crate, ignore=shutil.ignore_patterns("out", "must-fail"))
    tests = folder / "crates" / "kernel_tests"
    library = tests / "src" / "lib.rt"
    for module, name in (("random", "random_kernel_test.txt"), ("random_timed", "random_timed_test.txt")):
        test = (HERE / name).read_text().replace("COUNT", str(programs))
        (tests / "src" / f"{module}.rt").write_text(test)
        library.write_text(library.read_text() + f"#[cfg(test)]\nmod {module};\n")
    (folder / "crates.txt").write_text("".join(f"{crate}: {below}\n" for crate, below in BELOW.items()))
    return tests


def main():
    programs = int(sys.argv[1]) if len(sys.argv) > 1 else 2_000
    with tempfile.TemporaryDirectory() as folder:
        tests = build(pathlib.Path(folder), programs)
        done = subprocess.run(["rt", "try", "--test"], cwd=tests, stdout=subprocess.PIPE, stderr=subprocess.STDOUT, text=True)
    if done.returncode != 0:
        sys.exit(done.stdout)
    print("\n".join(re.findall(r"[0-9]+ (?:events|programs): .*|test random.*", done.stdout)))


main()

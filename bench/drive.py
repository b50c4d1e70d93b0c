#!/usr/bin/env python3
"""Times runs of two processes of which one calls the other again and again, and prints a table.

Runs bench/drive_main.txt over copies of the crates below cc_pool in a temporary folder, by `rt try`, which interprets it:
the seconds tell how the cost grows, and not how fast the proved program is. The first rows have processes that know what
they ask next, and so show the kernel's own cost; the last rows have a program of as many statements, whose evaluator
starts afresh from its grants at each request.

    bench/drive.py
"""

import pathlib
import re
import shutil
import subprocess
import sys
import tempfile

HERE = pathlib.Path(__file__).resolve().parent
CRATES = HERE.parent / "crates"
BELOW = {
    "cc_base": "",
    "cc_world": "cc_base",
    "cc_rules": "cc_base",
    "cc_typed": "cc_base sqlite_items",
    "cc_source": "cc_base cc_typed sqlite_items",
    "cc_queue": "cc_base slab",
    "cc_timer": "cc_base",
    "cc_kernel": "cc_base cc_queue cc_rules cc_timer",
    "cc_pool": "cc_base cc_world cc_rules cc_kernel",
}
CASES = [("calls", 2_500), ("calls", 25_000), ("calls", 100_000), ("calls", 250_000)]
CASES += [("program", 125), ("program", 250), ("program", 500)]


def build(folder):
    for crate in BELOW:
        shutil.copytree(CRATES / crate, folder / "crates" / crate, ignore=shutil.ignore_patterns("out", "must-fail"))
    source = folder / "crates" / "bench" / "src"
    source.mkdir(parents=True)
    shutil.copyfile(HERE / "drive_main.txt", source / "main.rt")
    lines = [f"{crate}: {below}" for crate, below in BELOW.items()]
    lines.append(f"bench: {' '.join(BELOW)} sqlite_items anyhow")
    (folder / "crates.txt").write_text("\n".join(lines) + "\n")
    return source.parent


def measure(crate, what, count):
    words = ["rt", "try", "--", what, str(count)]
    done = subprocess.run(words, cwd=crate, stdout=subprocess.PIPE, stderr=subprocess.STDOUT, text=True)
    found = [re.search(pattern, done.stdout, re.M) for pattern in (r"^turns (\d+)$", r"^took (\d+)$", r"^VmHWM:\s*(\d+) kB")]
    if not all(found):
        sys.exit(done.stdout + f"{what} {count} did not run")
    turns, micros, peak = (int(match.group(1)) for match in found)
    print(f"{what:<10}{count:>10,}{turns:>12,}{micros / 1e6:>10.3f}{turns / micros * 1e6:>16,.0f}{peak / 1024:>10.1f}")


def main():
    with tempfile.TemporaryDirectory() as folder:
        crate = build(pathlib.Path(folder))
        print(f"{'what':<10}{'calls':>10}{'turns':>12}{'seconds':>10}{'turns/second':>16}{'MiB':>10}")
        for what, count in CASES:
            measure(crate, what, count)


main()

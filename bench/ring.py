#!/usr/bin/env python3
"""Times rings of 16, 256 and 4,000 processes, of which each waits for a call of the one before it, answers it and calls the next, and
prints a table: turns a second of a processor's time, and the memory of a turn; both are what a run of more turns takes beyond one of
fewer.

Runs bench/ring_main.txt over copies of the crates below kernel_tests in a temporary folder. The program is proved and run by `rt run`;
with the word `try` it is interpreted by `rt try`, with fewer turns, which tells how the cost grows and not how fast it is.

    bench/ring.py [try]
"""

import pathlib
import re
import shutil
import subprocess
import sys
import tempfile

HERE = pathlib.Path(__file__).resolve().parent
CRATES = HERE.parent / "crates"
BELOW = {
    "cc_base": "",
    "cc_world": "cc_base",
    "cc_rules": "cc_base",
    "cc_plain": "cc_base cc_rules",
    "cc_queue": "cc_base slab",
    "cc_timer": "cc_base",
    "cc_kernel": "cc_base cc_queue cc_rules cc_timer",
    "cc_pool": "cc_base cc_world cc_rules cc_kernel",
    "kernel_tests": "cc_base cc_world cc_rules cc_plain cc_kernel cc_pool",
}
SIZES = [16, 256, 4_000]


def build(folder):
    for crate in BELOW:
        shutil.copytree(CRATES / crate, folder / "crates" / crate, ignore=shutil.ignore_patterns("out", "must-fail"))
    source = folder / "crates" / "bench" / "src"
    source.mkdir(parents=True)
    shutil.copyfile(HERE / "ring_main.txt", source / "main.rt")
    lines = [f"{crate}: {below}" for crate, below in BELOW.items()]
    lines.append("bench: cc_base cc_world cc_rules cc_kernel cc_pool kernel_tests anyhow")
    (folder / "crates.txt").write_text("\n".join(lines) + "\n")
    return source.parent


def run(crate, command, size, turns):
    words = ["rt", command, "--", str(size - 1), str(turns)]
    done = subprocess.run(words, cwd=crate, stdout=subprocess.PIPE, stderr=subprocess.STDOUT, text=True)
    patterns = (r"^turns (\d+)$", r"^before (\d+) ", r"^after (\d+) ", r"^VmHWM:\s*(\d+) kB")
    found = [re.search(pattern, done.stdout, re.M) for pattern in patterns]
    if not all(found):
        sys.exit(done.stdout + f"a ring of {size} did not run")
    turns, before, after, peak = (int(match.group(1)) for match in found)
    return turns, after - before, peak


def main():
    interpreted = sys.argv[1:] == ["try"]
    command, few, many = ("try", 20_000, 60_000) if interpreted else ("run", 1_000_000, 4_000_000)
    with tempfile.TemporaryDirectory() as folder:
        crate = build(pathlib.Path(folder))
        print(f"{'processes':>10}{'turns':>12}{'seconds':>10}{'turns/second':>16}{'bytes/turn':>12}")
        for size in SIZES:
            first = run(crate, command, size, few)
            turns, nanos, peak = run(crate, command, size, many)
            more = (turns - first[0]) / max(nanos - first[1], 1) * 1e9
            taken = (peak - first[2]) * 1024 / max(turns - first[0], 1)
            print(f"{size:>10,}{turns:>12,}{nanos / 1e9:>10.3f}{more:>16,.0f}{taken:>12.1f}")


main()

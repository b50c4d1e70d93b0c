#!/usr/bin/env python3
"""Times 16, 256 and 4,000 processes that are at a `delay` again and again, and as many that wait while one calls another again and again
until a moment and is answered in time, and prints a table: turns a second of a processor's time, of what a run of more rounds takes
beyond one of fewer.

Runs bench/waiting_main.txt over copies of the crates below kernel_tests in a temporary folder. The program is proved and run by `rt run`;
with the word `try` it is interpreted by `rt try`, with fewer rounds, which tells how the cost grows and not how fast it is.

    bench/waiting.py [try]
"""

import pathlib
import re
import shutil
import subprocess
import sys
import tempfile

HERE = pathlib.Path(__file__).resolve().parent
CRATES = HERE.parent / "crates"
BELOW = {
    "cc_base": "",
    "cc_world": "cc_base",
    "cc_rules": "cc_base",
    "cc_plain": "cc_base cc_rules",
    "cc_queue": "cc_base slab",
    "cc_timer": "cc_base",
    "cc_kernel": "cc_base cc_queue cc_rules cc_timer",
    "cc_pool": "cc_base cc_world cc_rules cc_kernel",
    "kernel_tests": "cc_base cc_world cc_rules cc_plain cc_kernel cc_pool",
}
SIZES = [16, 256, 4_000]


def build(folder):
    for crate in BELOW:
        shutil.copytree(CRATES / crate, folder / "crates" / crate, ignore=shutil.ignore_patterns("out", "must-fail"))
    source = folder / "crates" / "bench" / "src"
    source.mkdir(parents=True)
    shutil.copyfile(HERE / "waiting_main.txt", source / "main.rt")
    lines = [f"{crate}: {below}" for crate, below in BELOW.items()]
    lines.append("bench: cc_base cc_world cc_rules cc_kernel cc_pool kernel_tests anyhow")
    (folder / "crates.txt").write_text("\n".join(lines) + "\n")
    return source.parent


def run(crate, command, what, size, rounds):
    words = ["rt", command, "--", what, str(size), str(rounds)]
    done = subprocess.run(words, cwd=crate, stdout=subprocess.PIPE, stderr=subprocess.STDOUT, text=True)
    patterns = (r"^turns (\d+)$", r"^late 0$", r"^before (\d+) ", r"^after (\d+) ")
    found = [re.search(pattern, done.stdout, re.M) for pattern in patterns]
    if not all(found):
        sys.exit(done.stdout + f"{size} processes with {what} did not run")
    return int(found[0].group(1)), int(found[3].group(1)) - int(found[2].group(1))


def main():
    interpreted = sys.argv[1:] == ["try"]
    command, rounds = ("try", 16_000) if interpreted else ("run", 400_000)
    with tempfile.TemporaryDirectory() as folder:
        crate = build(pathlib.Path(folder))
        print(f"{'what':>8}{'processes':>11}{'turns':>12}{'seconds':>10}{'turns/second':>14}")
        for what in ("delays", "calls"):
            for size in SIZES:
                few = max(rounds // size, 1)
                first = run(crate, command, what, size, few)
                turns, nanos = run(crate, command, what, size, 4 * few)
                more = (turns - first[0]) / max(nanos - first[1], 1) * 1e9
                print(f"{what:>8}{size:>11,}{turns:>12,}{nanos / 1e9:>10.3f}{more:>14,.0f}")


main()

#!/usr/bin/env python3
"""Compares pending calls and deadlines with plain lists over 10,000 random steps each, and prints what their calls take.

Runs bench/queue_main.txt over copies of crates/cc_base, cc_timer, cc_queue and queue_tests in a temporary folder. The steps
are compared by `rt try`, without a proof; with the word `compare` that is all. The times are those of the proved program,
by `rt run`. Its pending calls stand at 4,096 targets, of 16 transactions each, so that a chain has one call in the mean at
most, and in the last row of one transaction, so that it has 16. Sixteen calls are removed and then sixteen added, so there
are up to sixteen fewer than the number says. Of fifty groups of 8,000 calls the table has the median.

    bench/queue.py [compare]
"""

import pathlib
import re
import shutil
import statistics
import subprocess
import sys
import tempfile

HERE = pathlib.Path(__file__).resolve().parent
CRATES = HERE.parent / "crates"
BELOW = {
    "cc_base": "",
    "cc_timer": "cc_base",
    "cc_queue": "cc_base slab",
    "queue_tests": "cc_base cc_queue cc_timer",
}
CALLS_OF_A_GROUP = 8_000


def build(folder):
    for crate in BELOW:
        shutil.copytree(CRATES / crate, folder / "crates" / crate, ignore=shutil.ignore_patterns("out", "must-fail"))
    source = folder / "crates" / "bench" / "src"
    source.mkdir(parents=True)
    shutil.copyfile(HERE / "queue_main.txt", source / "main.rt")
    lines = [f"{crate}: {below}" for crate, below in BELOW.items()]
    lines.append("bench: cc_base cc_timer queue_tests anyhow")
    (folder / "crates.txt").write_text("\n".join(lines) + "\n")
    return source.parent


def compare(crate):
    done = subprocess.run(["rt", "try"], cwd=crate, stdout=subprocess.PIPE, stderr=subprocess.STDOUT, text=True)
    alike = re.findall(r"^([a-z ]+: [0-9]+ steps alike)$", done.stdout, re.M)
    if done.returncode != 0 or len(alike) != 2:
        sys.exit(done.stdout + "the program did not run, or an answer differs")
    print("\n".join(alike))


def show(told, what, heads):
    groups = {}
    for count, kinds, *times in re.findall(rf"^{what} (\d+) (\d+) (\d+) (\d+) (\d+)$", told, re.M):
        groups.setdefault((int(count), int(kinds)), []).append([int(time) for time in times])
    print(f"{what:<10}{'transactions' if what == 'calls' else '':>13}" + "".join(f"{head:>12}" for head in heads))
    for (count, kinds), times in groups.items():
        medians = (statistics.median(column) / CALLS_OF_A_GROUP for column in zip(*times))
        print(f"{count:<10,}{kinds or '':>13}" + "".join(f"{median:>12.1f}" for median in medians))


def measure(crate):
    done = subprocess.run(["rt", "run", "--jobs", "2", "--", "time"], cwd=crate, stdout=subprocess.PIPE, text=True)
    if done.returncode != 0:
        sys.exit(done.stdout + "the program is not built")
    print("nanoseconds a call:")
    show(done.stdout, "calls", ("best", "remove", "add"))
    show(done.stdout, "deadlines", ("first_due", "remove", "add"))


def counted(program, folder, words):
    """Instructions, misses of the first cache and of the last, of one run."""
    told = folder / "counts"
    command = ["valgrind", "--tool=cachegrind", "--cache-sim=yes", "--I1=32768,8,64", "--D1=32768,8,64", "--LL=8388608,16,64",
               f"--cachegrind-out-file={told}", program, "once", *words]
    subprocess.run(command, stdout=subprocess.DEVNULL, stderr=subprocess.DEVNULL, check=True)
    text = told.read_text()
    events = re.search(r"^events: (.*)$", text, re.M).group(1).split()
    sums = dict(zip(events, map(int, re.search(r"^summary: (.*)$", text, re.M).group(1).split())))
    return [sums["Ir"], sums["D1mr"] + sums["D1mw"], sums["DLmr"] + sums["DLmw"]]


def count_instructions(crate, folder):
    done = subprocess.run(["rt", "run", "--jobs", "2", "--", "once", "calls", "16", "16", "0"], cwd=crate, stdout=subprocess.PIPE, text=True)
    if done.returncode != 0:
        sys.exit(done.stdout + "the program is not built")
    print("of one look, one removal and one addition together:")
    print(f"{'':<10}{'pending':>10}{'transactions':>14}{'instructions':>14}{'first cache':>14}{'last cache':>14}")
    cases = [("calls", count, kinds) for count, kinds in ((16, 16), (256, 16), (4_096, 16), (65_536, 16), (65_536, 1))]
    cases += [("deadlines", count, 0) for count in (16, 256, 4_096, 65_536)]
    for kind, count, kinds in cases:
        words = [kind, str(count), str(kinds)]
        none, two = (counted(crate / "out" / "bench", folder, [*words, groups]) for groups in ("0", "2"))
        calls = 2 * CALLS_OF_A_GROUP
        per_call = ((more - less) / calls for more, less in zip(two, none))
        print(f"{kind:<10}{count:>10,}{kinds or '':>14}" + "".join(f"{number:>14.1f}" for number in per_call))


def main():
    with tempfile.TemporaryDirectory() as name:
        folder = pathlib.Path(name)
        crate = build(folder)
        if sys.argv[1:] == ["instructions"]:
            return count_instructions(crate, folder)
        compare(crate)
        if sys.argv[1:] != ["compare"]:
            measure(crate)


main()

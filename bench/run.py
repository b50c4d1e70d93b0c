#!/usr/bin/env python3
"""Times whole commands of the proved program and prints a table.

Each command runs several times, and the table has the median of its seconds, its turns per second and the largest
peak memory. The program is the one that `rt run` or `rt ci` left, or the one that CCRUN names.

    bench/run.py [RUNS]
"""

import os
import pathlib
import statistics
import subprocess
import sys
import tempfile
import time

TOP = pathlib.Path(__file__).resolve().parent.parent
PROGRAM = os.environ.get("CCRUN", str(TOP / "crates" / "ccrun" / "out" / "ccrun"))


def text_of(count):
    """A text of so many `putchar` statements."""
    return "main(){" + "putchar(255);" * count + "}"


def run_once(words):
    """Seconds, peak memory in MiB and exit status of one run."""
    with tempfile.TemporaryFile() as out:
        start = time.perf_counter()
        process = subprocess.Popen([PROGRAM, *words], stdin=subprocess.DEVNULL, stdout=out, stderr=subprocess.DEVNULL)
        _, status, usage = os.wait4(process.pid, 0)
        seconds = time.perf_counter() - start
        process.returncode = os.waitstatus_to_exitcode(status)
        return seconds, usage.ru_maxrss / 1024, process.returncode, os.fstat(out.fileno()).st_size


def measure(name, words, turns, printed, runs):
    results = [run_once(words) for _ in range(runs)]
    for _, _, status, size in results:
        if status != 0 or size != printed:
            sys.exit(f"{name}: ended with status {status} after {size} bytes")
    seconds = statistics.median(result[0] for result in results)
    memory = max(result[1] for result in results)
    rate = f"{turns / seconds:14,.0f}" if turns > 100 else " " * 14
    print(f"{name:<34}{turns:>10,}{seconds:>10.4f}{rate}{memory:>10.1f}")


def main():
    runs = int(sys.argv[1]) if len(sys.argv) > 1 else 9
    if not os.access(PROGRAM, os.X_OK):
        sys.exit(f"{PROGRAM} is not built: run `./ccrun` or `rt ci` first")
    print(f"{'command':<34}{'turns':>10}{'seconds':>10}{'turns/second':>14}{'MiB':>10}")
    with tempfile.TemporaryDirectory() as folder:
        measure("start-up: run examples/hi.cc", ["run", str(TOP / "examples" / "hi.cc")], 3, 2, runs)
        for count in (1_000, 2_000, 4_000):
            path = pathlib.Path(folder) / f"prints{count}.cc"
            path.write_text(text_of(count))
            measure(f"run {count:,} statements", ["run", str(path)], count + 1, count, runs)


main()

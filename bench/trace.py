#!/usr/bin/env python3
"""Times the writing and reading of a journal of 8,000,001 events as text, and prints a table.

Builds a small proved program over copies of crates/cc_base, crates/cc_rules and crates/cc_trace in a temporary folder, by
`rt run`; its main function is bench/trace_main.txt. The journal has 4,000,000 turns of 4,096 processes: each request is
followed by an accept, and the last event is the end. Of five times, in processor time, the table has the median. The bytes
an event are the memory of the process at its peak without the text, by the end of the writing and by that of the reading.

    bench/trace.py
"""

import pathlib
import re
import shutil
import statistics
import subprocess
import sys
import tempfile

HERE = pathlib.Path(__file__).resolve().parent
CRATES = HERE.parent / "crates"


def build(folder):
    """What the proved program prints, built over copies of the crates and run once."""
    for crate in ("cc_base", "cc_rules", "cc_trace"):
        shutil.copytree(CRATES / crate, folder / "crates" / crate)
    source = folder / "crates" / "bench" / "src"
    source.mkdir(parents=True)
    shutil.copyfile(HERE / "trace_main.txt", source / "main.rt")
    lines = ["cc_base:", "cc_rules: cc_base", "cc_trace: cc_base cc_rules itoa thiserror"]
    (folder / "crates.txt").write_text("\n".join(lines) + "\nbench: cc_base cc_rules cc_trace anyhow\n")
    done = subprocess.run(["rt", "run", "--jobs", "2"], cwd=source.parent, stdout=subprocess.PIPE, text=True)
    if done.returncode != 0:
        sys.exit(done.stdout + "the program is not built")
    return source.parent / "out" / "bench"


def number(name, told):
    return int(re.search(rf"^{name} (\d+)$", told, re.M).group(1))


def kibibytes(field, told):
    return int(re.search(rf"^{field}:\s*(\d+) kB", told, re.M).group(1))


def rate(name, told, size):
    seconds = statistics.median(int(took) for took in re.findall(rf"^{name} (\d+)$", told, re.M)) / 1e6
    return f"{seconds:>10.4f}{size / seconds / 1e6:>8.1f}"


def main():
    with tempfile.TemporaryDirectory() as name:
        program = build(pathlib.Path(name))
        told = subprocess.run([str(program)], stdout=subprocess.PIPE, text=True, check=True).stdout
    events, size = number("events", told), number("bytes", told)
    print(f"{events:,} events, {size:,} bytes of text")
    print(f"{'':<8}{'seconds':>10}{'MB/s':>8}{'peak MiB':>10}{'bytes/event':>15}")
    for label, stage in (("write", "after writing"), ("read", "after reading")):
        peak = kibibytes("VmHWM", told.split(f"\n{stage}\n")[1])
        print(f"{label:<8}{rate(label, told, size)}{peak / 1024:>10.1f}{(peak * 1024 - size) / events:>15.1f}")


main()

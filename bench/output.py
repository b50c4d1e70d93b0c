#!/usr/bin/env python3
"""What a system call for each byte costs: a million bytes to a file and to a pipe, written one by one, through C's stdio, and by Lua.

    bench/output.py [COUNT]        needs gcc; Lua's line is left out where lua5.4 is missing
"""
import pathlib
import shutil
import subprocess
import sys
import tempfile
import time

COUNT = int(sys.argv[1]) if len(sys.argv) > 1 else 1_000_000
HERE = pathlib.Path(__file__).resolve().parent


def seconds(words, target):
    """The least of three runs with standard output to a file or to a reader of a pipe."""
    least = None
    for _ in range(3):
        begin = time.monotonic()
        if target == "file":
            with tempfile.TemporaryFile() as out:
                subprocess.run(words, stdout=out, check=True)
        else:
            writer = subprocess.Popen(words, stdout=subprocess.PIPE)
            reader = subprocess.Popen(["cat"], stdin=writer.stdout, stdout=subprocess.DEVNULL)
            writer.stdout.close()
            if writer.wait() != 0 or reader.wait() != 0:
                sys.exit("a run failed")
        took = time.monotonic() - begin
        least = took if least is None else min(least, took)
    return least


with tempfile.TemporaryDirectory() as folder:
    program = f"{folder}/output"
    subprocess.run(["gcc", "-O2", "-o", program, str(HERE / "output.c")], check=True)
    runs = [("a write a byte", [program, "each", str(COUNT)]), ("C's stdio", [program, "stdio", str(COUNT)])]
    if shutil.which("lua5.4"):
        runs.append(("Lua's io.write", ["lua5.4", "-e", f"for i = 1, {COUNT} do io.write('x') end"]))
    for name, words in runs:
        for target in ("file", "pipe"):
            took = seconds(words, target)
            print(f"{name:16} to a {target}: {took:6.3f} s, {took / COUNT * 1e9:7.0f} ns a byte")

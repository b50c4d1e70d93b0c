#!/usr/bin/env python3
"""Times the making of the trees of large texts, and prints a table.

Builds a small proved program over copies of cc_parse and of the crates below it in a temporary folder, by `rt run`; its main
function is bench/parse_main.txt. The program cuts and parses each text once, to see the memory, and then twenty times by the
clock, giving all back each time; the table has the median. The peak is that of the whole process, and the bytes a byte are
what the peak is above the memory before, when the text was there already, for each byte of the text.

Long texts of one shape come in two lengths, so that the seconds show whether time grows with the length. Texts of programs
are those of GENERATOR, a gen_text.py that writes them in the language, in C and in Lua; without one the one beside this file
is taken, and where that is missing, too, these rows are left out. tcc and luac read the same functions in C and in Lua: their
rows are of whole runs, the start of the process within, with code made. A row is left out where its program is missing.

    bench/parse.py [GENERATOR]
"""

import pathlib
import re
import shutil
import statistics
import subprocess
import sys
import tempfile
import time

HERE = pathlib.Path(__file__).resolve().parent
CRATES = HERE.parent / "crates"
COPIED = {
    "cc_base": "",
    "cc_lex": "cc_base thiserror",
    "cc_grammar": "cc_lex cc_base sqlite_items thiserror",
    "cc_expressions": "cc_grammar cc_lex cc_base sqlite_items",
    "cc_parse": "cc_expressions cc_grammar cc_lex cc_base sqlite_items",
}
RUNS = 11

# a name, a front, a part, how often at most, a back, what is answered
SHAPES = [
    ("items", "", "f(){}", 100_000, "", "a tree"),
    ("operands of +", "f(){1", "+1", 200_000, ";}", "a tree"),
    ("operands of ||", "f(){a", "||a", 200_000, ";}", "a tree"),
    ("parts .b", "f(){a", ".b", 100_000, ";}", "a tree"),
    ("parts [b]", "f(){a", "[b]", 100_000, ";}", "a tree"),
    ("else if", "f(){", "if(a);else ", 65_000, ";}", "too deep"),
]


def build(folder, first_text):
    """The proved program, built over copies of the crates."""
    for crate in COPIED:
        shutil.copytree(CRATES / crate, folder / "crates" / crate)
    source = folder / "crates" / "bench" / "src"
    source.mkdir(parents=True)
    shutil.copyfile(HERE / "parse_main.txt", source / "main.rt")
    lines = [f"{crate}: {below}".rstrip() for crate, below in COPIED.items()]
    (folder / "crates.txt").write_text("\n".join(lines) + "\nbench: cc_parse cc_lex anyhow cc_grammar cc_base\n")
    words = ["rt", "run", "--jobs", "2", "--", str(first_text)]
    done = subprocess.run(words, cwd=source.parent, stdout=subprocess.PIPE, stderr=subprocess.STDOUT, text=True)
    if done.returncode != 0:
        sys.exit(done.stdout + "the program is not built")
    return source.parent / "out" / "bench"


def written(path, text):
    path.write_bytes(text)
    return path


def shapes(folder):
    """Each shape in half its greatest length and in all of it: a name, the file, and what is answered."""
    for name, front, part, most, back, answer in SHAPES:
        for count in (most // 2, most):
            path = folder / f"{len(part)}_{ord(part[0])}_{count}.cc"
            yield f"{count:,} {name}", written(path, (front + part * count + back).encode()), answer


def generated(generator, folder, dialect, style):
    words = [sys.executable, str(generator), dialect, style]
    text = subprocess.run(words, stdout=subprocess.PIPE, stderr=subprocess.DEVNULL, check=True).stdout
    return written(folder / f"{style}.{dialect}", text)


def kibibytes(field, status):
    return int(re.search(rf"^{field}:\s*(\d+) kB", status, re.M).group(1))


def show(name, size, seconds, peak="", stack="", each=""):
    print(f"{name:<24}{size:>10,}{seconds:>10.4f}{size / seconds / 1e6:>8.1f}{peak:>10}{stack:>11}{each:>14}")


def measure(program, name, path, answer):
    size = path.stat().st_size
    told = subprocess.run([str(program), str(path)], stdout=subprocess.PIPE, text=True, check=True).stdout
    answered = re.search(r"^answer (.*)$", told, re.M).group(1)
    if answered != answer:
        sys.exit(f"{name}: {answered}, where {answer} is right")
    before, after = told.split("\nbefore\n")[1].split("\nafter\n")
    seconds = statistics.median(int(took) for took in re.findall(r"^took (\d+)", told, re.M)) / 1e6
    peak = kibibytes("VmHWM", after)
    each = (peak - kibibytes("VmRSS", before)) * 1024 / size
    show(name, size, seconds, f"{peak / 1024:.1f}", f"{kibibytes('VmStk', after)}", f"{each:.1f}")


def measure_other(name, words, path):
    if shutil.which(words[0]) is None:
        print(f"{name:<24} is not there")
        return
    took = []
    for _ in range(RUNS):
        start = time.perf_counter()
        subprocess.run([*words, str(path)], check=True, cwd=path.parent, stderr=subprocess.DEVNULL)
        took.append(time.perf_counter() - start)
    show(name, path.stat().st_size, statistics.median(took))


def measure_programs(program, generator, folder):
    measure(program, "lex and parse", generated(generator, folder, "cc", "dense"), "a tree")
    measure(program, "1 MiB", generated(generator, folder, "cc", "big"), "a tree")
    measure_other("tcc", ["tcc", "-w", "-c", "-o", "dense.o"], generated(generator, folder, "c", "dense"))
    luac = next((word for word in ("luac5.4", "luac") if shutil.which(word)), "luac")
    measure_other("luac", [luac, "-o", "dense.out"], generated(generator, folder, "lua", "dense"))


def main():
    generator = pathlib.Path(sys.argv[1]) if len(sys.argv) > 1 else HERE / "gen_text.py"
    with tempfile.TemporaryDirectory() as name:
        folder = pathlib.Path(name)
        program = build(folder, written(folder / "first.cc", b"main() { }\n"))
        print(f"{'text':<24}{'bytes':>10}{'seconds':>10}{'MB/s':>8}{'peak MiB':>10}{'stack KiB':>11}{'bytes a byte':>14}")
        for shape in shapes(folder):
            measure(program, *shape)
        if generator.is_file():
            measure_programs(program, generator, folder)
        else:
            print(f"{generator} is not there: no texts of programs")


main()

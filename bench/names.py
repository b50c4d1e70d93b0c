#!/usr/bin/env python3
"""Times the numbering of names and the declarations of large texts, and prints a table.

Builds a small proved program over copies of cc_declared, cc_names and of the crates below them in a temporary folder, by
`rt run`; its main function is bench/names_main.txt. Each text comes in two lengths, so that the seconds show whether time
grows with the length. The text is cut and parsed before the clock runs; the seconds are the medians of ten runs.

    bench/names.py
"""

import pathlib
import re
import shutil
import statistics
import string
import subprocess
import sys
import tempfile

HERE = pathlib.Path(__file__).resolve().parent
CRATES = HERE.parent / "crates"
COPIED = {
    "cc_base": "",
    "cc_lex": "cc_base thiserror",
    "cc_grammar": "cc_lex cc_base sqlite_items thiserror",
    "cc_expressions": "cc_grammar cc_lex cc_base sqlite_items",
    "cc_parse": "cc_expressions cc_grammar cc_lex cc_base sqlite_items",
    "cc_typed": "cc_base sqlite_items",
    "cc_faults": "cc_base cc_typed sqlite_items",
    "cc_names": "cc_base cc_lex cc_grammar cc_typed cc_faults indexmap sqlite_items",
    "cc_declared": "cc_base cc_typed cc_faults indexmap sqlite_items",
}
LETTERS = string.ascii_uppercase
SIGNS = string.ascii_letters + string.digits


def name(number):
    """A name of three characters of its own for each number below 99,944, and no reserved word."""
    high, low = divmod(number, len(SIGNS))
    first, middle = divmod(high, len(SIGNS))
    return LETTERS[first] + SIGNS[middle] + SIGNS[low]


def functions(count):
    return "".join(f"int {name(at)}(int x){{}}" for at in range(count))


def constants(count):
    return "enum{" + ",".join(name(at) for at in range(count)) + "};"


def parameters(count):
    return "f(" + ",".join(f"int {name(at)}" for at in range(count)) + "){}"


def nested(count):
    """Structures, each of which has the one before as its field."""
    deeper = (f"struct {name(at)}{{struct {name(at - 1)} x;}};" for at in range(1, count))
    return f"struct {name(0)}{{int x;}};" + "".join(deeper)


def fields(count):
    return "struct s{" + "".join(f"int {name(at)};" for at in range(count)) + "};"


# what a text is made of, how many of it at most, and whether its declarations have a fault
SHAPES = [
    ("functions", functions, 20_000, False),
    ("constants", constants, 20_000, False),
    ("parameters", parameters, 20_000, True),
    ("nested structures", nested, 40_000, False),
    ("fields of one structure", fields, 65_536, False),
]


def build(folder, first_text):
    """The proved program, built over copies of the crates."""
    for crate in COPIED:
        shutil.copytree(CRATES / crate, folder / "crates" / crate)
    source = folder / "crates" / "bench" / "src"
    source.mkdir(parents=True)
    shutil.copyfile(HERE / "names_main.txt", source / "main.rt")
    lines = [f"{crate}: {below}".rstrip() for crate, below in COPIED.items()]
    own = "bench: cc_declared cc_names cc_parse cc_grammar cc_lex cc_faults cc_base anyhow sqlite_items"
    (folder / "crates.txt").write_text("\n".join([*lines, own]) + "\n")
    words = ["rt", "run", "--jobs", "2", "--", str(first_text)]
    done = subprocess.run(words, cwd=source.parent, stdout=subprocess.PIPE, stderr=subprocess.STDOUT, text=True)
    if done.returncode != 0:
        sys.exit(done.stdout + "the program is not built")
    return source.parent / "out" / "bench"


def kibibytes(field, status):
    return int(re.search(rf"^{field}:\s*(\d+) kB", status, re.M).group(1))


def median(word, told):
    return statistics.median(int(took) for took in re.findall(rf"^{word} (\d+)", told, re.M)) / 1e6


def measure(program, title, path, faulty):
    told = subprocess.run([str(program), str(path)], stdout=subprocess.PIPE, text=True, check=True).stdout
    answered = re.search(r"^faulty (.*)$", told, re.M).group(1)
    if answered != str(faulty).lower():
        sys.exit(f"{title}: whether it is faulty is {answered}, where {faulty} is right")
    before, after = told.split("\nbefore\n")[1].split("\nafter\n")
    size = path.stat().st_size
    each = (kibibytes("VmHWM", after) - kibibytes("VmRSS", before)) * 1024 / size
    print(f"{title:<32}{size:>10,}{median('numbered', told):>10.4f}{median('declared', told):>10.4f}{each:>14.1f}")


def main():
    with tempfile.TemporaryDirectory() as own:
        folder = pathlib.Path(own)
        first = folder / "first.cc"
        first.write_text("main() { }\n")
        program = build(folder, first)
        print(f"{'text':<32}{'bytes':>10}{'numbered':>10}{'declared':>10}{'bytes a byte':>14}")
        for title, text, most, faulty in SHAPES:
            for count in (most // 2, most):
                path = folder / "text.cc"
                path.write_text(text(count))
                measure(program, f"{count:,} {title}", path, faulty)


main()

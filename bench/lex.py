#!/usr/bin/env python3
"""Times the cutting of large texts into tokens, and prints a table.

Builds a small proved program over copies of crates/cc_base and crates/cc_lex in a temporary folder, by `rt run`; its
main function is bench/lex_main.txt. The program cuts each text once, to see the memory, and then twenty times by the
clock, giving the tokens back each time; the table has the median. The peak is that of the whole process, and the bytes
a token are what the peak is above the memory before the cut, when the text was there already. GENERATOR is a
gen_text.py that writes texts of the language; without one the one beside this file is taken.

    bench/lex.py [GENERATOR]
"""

import pathlib
import re
import shutil
import statistics
import subprocess
import sys
import tempfile

HERE = pathlib.Path(__file__).resolve().parent
CRATES = HERE.parent / "crates"
MOST_BYTES = 1_048_576


def make_texts(generator, folder):
    """Code alone of 170 kB, 1 MiB of code alone, and the first of them again and again up to the line that fits."""

    def generated(style):
        words = [sys.executable, str(generator), "cc", style]
        return subprocess.run(words, stdout=subprocess.PIPE, stderr=subprocess.DEVNULL, check=True).stdout

    dense = generated("dense")
    repeated = (dense * (MOST_BYTES // len(dense) + 1))[:MOST_BYTES]
    texts = {"dense": dense, "big": generated("big"), "dense repeated": repeated[: repeated.rindex(b"\n") + 1]}
    for name, text in texts.items():
        path = folder / (name.replace(" ", "_") + ".cc")
        path.write_bytes(text)
        yield name, path, len(text)


def build(folder, first_text):
    """The proved program, built over copies of the crates."""
    for crate in ("cc_base", "cc_lex"):
        shutil.copytree(CRATES / crate, folder / "crates" / crate)
    source = folder / "crates" / "bench" / "src"
    source.mkdir(parents=True)
    shutil.copyfile(HERE / "lex_main.txt", source / "main.rt")
    (folder / "crates.txt").write_text("cc_base:\ncc_lex: cc_base thiserror\nbench: cc_lex cc_base anyhow\n")
    words = ["rt", "run", "--jobs", "2", "--", str(first_text)]
    done = subprocess.run(words, cwd=source.parent, stdout=subprocess.PIPE, stderr=subprocess.STDOUT, text=True)
    if done.returncode != 0:
        sys.exit(done.stdout + "the program is not built")
    return source.parent / "out" / "bench"


def kibibytes(field, status):
    return int(re.search(rf"^{field}:\s*(\d+) kB", status, re.M).group(1))


def measure(program, name, path, size):
    told = subprocess.run([str(program), str(path)], stdout=subprocess.PIPE, text=True, check=True).stdout
    tokens = int(re.search(r"^tokens (\d+)$", told, re.M).group(1))
    before, after = told.split("\nbefore\n")[1].split("\nafter\n")
    seconds = statistics.median(int(took) for took in re.findall(r"^took (\d+)$", told, re.M)) / 1e6
    peak = kibibytes("VmHWM", after)
    each = (peak - kibibytes("VmRSS", before)) * 1024 / tokens
    print(
        f"{name:<16}{size:>10,}{tokens:>10,}{seconds:>10.4f}{size / seconds / 1e6:>8.1f}{tokens / seconds:>14,.0f}"
        f"{peak / 1024:>10.1f}{each:>15.1f}"
    )


def main():
    generator = pathlib.Path(sys.argv[1]) if len(sys.argv) > 1 else HERE / "gen_text.py"
    if not generator.is_file():
        sys.exit(f"{generator} is not there: name a gen_text.py")
    with tempfile.TemporaryDirectory() as name:
        folder = pathlib.Path(name)
        texts = list(make_texts(generator, folder))
        program = build(folder, texts[0][1])
        heads = f"{'text':<16}{'bytes':>10}{'tokens':>10}{'seconds':>10}{'MB/s':>8}{'tokens/s':>14}{'peak MiB':>10}"
        print(heads + f"{'bytes/token':>15}")
        for text in texts:
            measure(program, *text)


main()

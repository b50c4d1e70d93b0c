#!/usr/bin/env python3
"""Compares docs/CODE.md with the instructions: their names and how many operands each has, with crates/cc_code/src/instr.rt, in
order, and with the lines of the listing that crates/code_tests expects. Prints what differs, and ends with status 1 if anything does.

    bench/code_docs.py
"""

import pathlib
import re
import sys

ROOT = pathlib.Path(__file__).resolve().parent.parent


def documented():
    """The number of operands of each instruction that the page names, in its order. Each of several forms in one row has its own."""
    operands = {}
    for line in (ROOT / "docs" / "CODE.md").read_text().splitlines():
        if not line.startswith("| ") or line.startswith("| instruction") or line.startswith("| number"):
            continue
        for form in line.split("|")[1].replace("\u2020", "").split(","):
            words = form.split()
            if words and words[0][0].isupper():
                operands[words[0]] = len(words) - 1
    return operands


def declared():
    """The number of operands of each variant of the enumeration, in its order."""
    text = (ROOT / "crates" / "cc_code" / "src" / "instr.rt").read_text()
    body = text[text.index("pub enum Instr {"):]
    operands = {}
    for name, tuple_, fields in re.findall(r"^    ([A-Z]\w*)(?:\(([^)]*)\)| \{([^}]*)\})?,$", body, re.M):
        operands[name] = len(tuple_.split(",")) if tuple_ else len(re.findall(r"\w+:", fields))
    return operands


def listed():
    """The numbers of operands of the lines that the test of the listing expects."""
    text = (ROOT / "crates" / "code_tests" / "src" / "names.rt").read_text()
    operands = {}
    for lines in re.findall(r'const \w+: &str =\s*"([^"]*)"', text):
        for line in lines.split("\\n"):
            words = line.split()
            if words:
                operands.setdefault(words[1], len(words) - 2)
    return operands


def main():
    page, code, lines = documented(), declared(), listed()
    wrong = 0
    for name in sorted(set(page) | set(code) | set(lines)):
        counts = (page.get(name), code.get(name), lines.get(name))
        if len(set(counts)) != 1:
            print(f"{name}: docs/CODE.md {counts[0]}, instr.rt {counts[1]}, listing {counts[2]}")
            wrong = 1
    if list(page) != list(code):
        print("docs/CODE.md has another order than instr.rt")
        wrong = 1
    print(f"{len(code)} instructions compared")
    sys.exit(wrong)


main()

#!/usr/bin/env python3
"""Tries the proved program against the edges of the real system.

Run it from anywhere, after `./ccrun` has built the program once: `tests/edges.py [PROGRAM]`. PROGRAM is crates/ccrun/out/ccrun
where none is named. Each case looks at the exit status, at standard output and error, and at the files of the folder that the
program runs in, none of which it may touch. Its last line is `N passed, N failed`, and its own status is 1 where a case failed.
"""

import os
import stat
import subprocess
import sys
import tempfile
import threading
import time

TOP = os.path.dirname(os.path.dirname(os.path.abspath(__file__)))
PROGRAM = os.path.join(TOP, "crates", "ccrun", "out", "ccrun")
USAGE = b"usage: ccrun ACTION FILE [options]\n"
HI = b"main() { putchar(72); putchar(105); }"
LONGEST = 1_048_576
SECONDS = 600


def puts(data):
    """The shortest text that prints these bytes."""
    return b"main(){" + b"".join(b"putchar(%d);" % byte for byte in data) + b"}"


def state(folder):
    """What lies in a folder: names, kinds, sizes, times of change and what files hold."""
    found = {}
    for name in sorted(os.listdir(folder)):
        path = os.path.join(folder, name)
        seen = os.lstat(path)
        held = b""
        if stat.S_ISREG(seen.st_mode) and os.access(path, os.R_OK):
            with open(path, "rb") as file:
                held = file.read()
        found[name] = (seen.st_mode, seen.st_size, seen.st_mtime_ns, held)
    return found


class Place:
    """A folder of its own for a case."""

    def __init__(self, program):
        self.program = program
        self.folder = tempfile.mkdtemp(prefix="edges-")
        os.chmod(self.folder, 0o755)

    def file(self, name, text, mode=0o644):
        path = os.path.join(self.folder, name)
        with open(path, "wb") as file:
            file.write(text)
        os.chmod(path, mode)
        return path

    def run(self, words, **options):
        """Runs the program here, and gives its status and both streams. Files that change are a failure."""
        before = state(self.folder)
        settings = {"stdin": subprocess.DEVNULL, "stdout": subprocess.PIPE, "stderr": subprocess.PIPE, "timeout": SECONDS}
        settings.update(options)
        done = subprocess.run([self.program, *words], cwd=self.folder, check=False, **settings)
        assert state(self.folder) == before, "a file was touched"
        return done.returncode, done.stdout, done.stderr

    def shell(self, command):
        """The same by a shell, in which $ccrun is the program."""
        before = state(self.folder)
        given = dict(os.environ, ccrun=self.program)
        done = subprocess.run(["sh", "-c", command], cwd=self.folder, env=given, check=False, capture_output=True, timeout=SECONDS)
        assert state(self.folder) == before, "a file was touched"
        return done.returncode, done.stdout, done.stderr

    def remove(self):
        for name in os.listdir(self.folder):
            path = os.path.join(self.folder, name)
            if os.path.isdir(path):
                os.rmdir(path)
            else:
                os.unlink(path)
        os.rmdir(self.folder)


def same(found, wanted):
    assert found == wanted, f"{shown(found)} where {shown(wanted)} was wanted"


def shown(found):
    return repr(found) if len(repr(found)) < 300 else repr(found)[:300] + " .."


# ---- words


def runs(place):
    place.file("a", HI)
    same(place.run(["run", "a"]), (0, b"Hi", b""))


def no_words(place):
    same(place.run([]), (1, b"", USAGE))


def other_action(place):
    place.file("a", HI)
    same(place.run(["ran", "a"]), (1, b"", USAGE))


def empty_action(place):
    place.file("a", HI)
    same(place.run(["", "a"]), (1, b"", USAGE))


def empty_file_name(place):
    same(place.run(["run", ""]), (6, b"", b"shelf\n"))


def word_that_is_no_text(place):
    place.file("a", HI)
    same(place.run(["run", b"\xff\xfe"]), (1, b"", USAGE))


def many_words(place):
    place.file("a", HI)
    same(place.run(["run", "a"] * 1000), (1, b"", USAGE))


# ---- files


def missing_file(place):
    same(place.run(["run", "a"]), (6, b"", b"shelf\n"))


def folder_as_file(place):
    os.mkdir(os.path.join(place.folder, "a"))
    same(place.run(["run", "a"]), (6, b"", b"shelf\n"))


def file_without_permission(place):
    place.file("a", HI, mode=0)
    options = {"user": 65534, "group": 65534} if os.geteuid() == 0 else {}
    same(place.run(["run", "a"], **options), (6, b"", b"shelf\n"))


def standard_input_as_file(place):
    same(place.run(["run", "/dev/stdin"], stdin=None, input=HI), (0, b"Hi", b""))


def fifo_as_file(place):
    path = os.path.join(place.folder, "a")
    os.mkfifo(path)

    def write():
        with open(path, "wb") as fifo:
            for byte in HI:
                fifo.write(bytes([byte]))
                fifo.flush()

    writer = threading.Thread(target=write)
    writer.start()
    found = subprocess.run([place.program, "run", path], capture_output=True, check=False, timeout=SECONDS)
    writer.join()
    same((found.returncode, found.stdout, found.stderr), (0, b"Hi", b""))


def empty_file(place):
    place.file("a", b"")
    same(place.run(["run", "a"]), (2, b"", b"1:1: Unbuilt\n"))


def sized(size):
    def case(place):
        place.file("a", puts(b"Hi").ljust(size))
        same(place.run(["run", "a"]), (0, b"Hi", b""))

    case.__name__ = f"text_of_{size}_bytes"
    return case


def text_too_long(place):
    place.file("a", puts(b"Hi").ljust(LONGEST + 1))
    same(place.run(["run", "a"]), (2, b"", b"1:1: TextTooLong\n"))


def fault_behind_the_first_4096_bytes(place):
    place.file("a", HI + b"\n" * 5000 + b" @")
    same(place.run(["run", "a"]), (2, b"", b"5001:2: NoToken\n"))


# ---- faults of texts


def refuses(text, report):
    def case(place):
        place.file("a", text)
        same(place.run(["run", "a"]), (2, b"", report))

    case.__name__ = "refuses_" + report.decode().split()[-1]
    return case


# ---- streams


def full_output(place):
    place.file("a", HI)
    with open("/dev/full", "wb") as full:
        status, _, reported = place.run(["run", "a"], stdout=full)
    same((status, reported), (8, b"write\n"))


def full_error(place):
    place.file("a", b"")
    with open("/dev/full", "wb") as full:
        status, printed, _ = place.run(["run", "a"], stderr=full)
    same((status, printed), (2, b""))


def closed_output(place):
    place.file("a", HI)
    same(place.shell('"$ccrun" run a >&-'), (8, b"", b"write\n"))


def closed_input(place):
    place.file("a", HI)
    same(place.shell('"$ccrun" run a <&-'), (0, b"Hi", b""))


def closed_error(place):
    place.file("a", b"main(")
    same(place.shell('"$ccrun" run a 2>&-'), (2, b"", b""))


def closed_streams(place):
    place.file("a", b"main() {}")
    same(place.shell('"$ccrun" run a <&- >&- 2>&-'), (0, b"", b""))


def reader_that_went(place):
    place.file("a", HI)
    reader, writer = os.pipe()
    os.close(reader)
    try:
        status, _, reported = place.run(["run", "a"], stdout=writer)
    finally:
        os.close(writer)
    same((status, reported), (8, b"write\n"))


def slow_reader(place):
    data = bytes(range(256)) * 8
    place.file("a", puts(data))
    before = state(place.folder)
    with subprocess.Popen([place.program, "run", "a"], cwd=place.folder, stdout=subprocess.PIPE, stderr=subprocess.PIPE) as running:
        printed = b""
        while piece := running.stdout.read(97):
            printed += piece
            time.sleep(0.005)
        reported = running.stderr.read()
        status = running.wait(SECONDS)
    same((status, printed, reported), (0, data, b""))
    same(state(place.folder), before)


def long_output(place):
    data = b"\x07" * 95_000
    place.file("a", puts(data))
    same(place.run(["run", "a"]), (0, data, b""))


def head_of_a_long_output(place):
    place.file("a", puts(b"\x07" * 95_000))
    status, printed, reported = place.shell('{ "$ccrun" run a; echo $? >&2; } | head -c 1')
    same((status, printed, reported), (0, b"\x07", b"write\n8\n"))


# ---- examples


def example(path):
    def case(place):
        with open(path[:-3] + ".out", "rb") as file:
            wanted = file.read()
        same(place.run(["run", path]), (0, wanted, b""))

    case.__name__ = "example_" + os.path.basename(path)
    return case


def examples():
    folder = os.path.join(TOP, "examples")
    paths = [os.path.join(folder, name) for name in sorted(os.listdir(folder)) if name.endswith(".cc")]
    return [example(path) for path in paths if os.path.exists(path[:-3] + ".out")]


CASES = [
    runs,
    no_words,
    other_action,
    empty_action,
    empty_file_name,
    word_that_is_no_text,
    many_words,
    missing_file,
    folder_as_file,
    file_without_permission,
    standard_input_as_file,
    fifo_as_file,
    empty_file,
    sized(4096),
    sized(4097),
    sized(LONGEST),
    text_too_long,
    fault_behind_the_first_4096_bytes,
    refuses(b"main() { @", b"1:10: NoToken\n"),
    refuses(b"main() {\n  putchar(08);\n}", b"2:11: BadNumber\n"),
    refuses(b"main() { putchar(9223372036854775808); }", b"1:18: NumberTooLarge\n"),
    refuses(b"main() { putchar(''); }", b"1:18: BadCharacter\n"),
    refuses(b'main() { printf("a); }', b"1:17: BadString\n"),
    refuses(b"main() { } /* x", b"1:12: OpenComment\n"),
    refuses(b"main() {\n\tputchar(72)\n}", b"3:1: Syntax\n"),
    refuses(b"main() " + b"{" * 202 + b"}" * 202, b"1:209: TooDeep\n"),
    refuses(b"main() { putchar(256); }", b"1:1: Unbuilt\n"),
    full_output,
    full_error,
    closed_output,
    closed_input,
    closed_error,
    closed_streams,
    reader_that_went,
    slow_reader,
    long_output,
    head_of_a_long_output,
]


def main():
    program = os.path.abspath(sys.argv[1]) if len(sys.argv) > 1 else PROGRAM
    if not os.access(program, os.X_OK):
        print(f"edges.py: there is no program {program}: run ./ccrun first", file=sys.stderr)
        return 70
    failed = 0
    cases = CASES + examples()
    for case in cases:
        place = Place(program)
        try:
            case(place)
            print(f"ok {case.__name__}", flush=True)
        except (AssertionError, subprocess.TimeoutExpired) as error:
            failed += 1
            print(f"FAILED {case.__name__}: {error}", flush=True)
        finally:
            place.remove()
    print(f"{len(cases) - failed} passed, {failed} failed")
    return 1 if failed else 0


if __name__ == "__main__":
    sys.exit(main())

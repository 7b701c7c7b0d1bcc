#!/usr/bin/env python3
"""Tests what no contract can say of the programs decide and sheet: that each reads all of its input and writes all of its lines, and that
where a read or a write fails it says so in one line on standard error and stops. Ends with 'N passed, M failed'."""
import os
import pathlib
import resource
import signal
import subprocess
import sys
import tempfile
import threading
import tty

from kit import ROOT, Stop, run_tests
from machine import OWN, before_program, compiler, is_installed, say_how

BIN = ROOT / "target" / "bin"
PROGRAMS = ("decide", "sheet")
SHAKY = ROOT / "tests" / "shaky.c"
READ, WRITE = "cannot read standard input: ", "cannot write standard output: "
LIMIT = 30_001  # bytes that a file may have, which end inside a line
MOST_SECONDS = 120


def run(program, given=subprocess.PIPE, output=subprocess.PIPE, library=None, **more):
    """A run of a program, with a library loaded before C's if one is named. It has this program's signals: SIGPIPE and SIGXFSZ are
    passed over, so that the write itself fails."""
    words = before_program()
    if library and OWN:
        more["env"] = dict(os.environ, LD_PRELOAD=str(library))
    elif library:
        words = [*words[:2], "--preload", str(library), *words[2:]]  # the emulator, and the loader with its options
    settings = {"stdin": given, "stdout": output, "stderr": subprocess.PIPE, "bufsize": 0, "restore_signals": False, **more}
    return subprocess.Popen([*words, BIN / program], **settings)


def ended(running, trace=None):
    """What a run printed, and what it said on standard error."""
    output, heard = running.communicate(trace, timeout=MOST_SECONDS)
    return output or b"", heard.decode()


class Check:
    """Holds runs of one program to what is right."""

    def __init__(self, tally, program):
        self.tally, self.program = tally, program

    def run(self, *words, **more):
        return run(self.program, *words, **more)

    def hold(self, name, why):
        self.tally.add(f"{self.program}: {name}", why)

    def __call__(self, name, run, said, right=b"", whole=False):
        """Holds a run's output to a beginning of the right lines, or to all of them, and standard error to the one line, or none."""
        output, heard = run
        said = said and f"{self.program}: {said}\n"
        why = None
        if not right.startswith(output) or (whole and output != right):
            why = f"it printed {len(output)} bytes that end in {output[-60:]!r}, which is not what is right"
        elif heard != said:
            why = f"it said {heard!r} and not {said!r}"
        self.hold(name, why)


def long_trace(events):
    """A trace of this many arrivals at depth 1 and capacity 1, and what each program prints of it: the first is sent, one waits, the rest
    find no room."""
    trace = b"SGQ" + bytes([1, 0, 1, 1, 1, 0]) + bytes(8) + (1).to_bytes(4, "little")
    trace += b"".join(bytes(2) + number.to_bytes(4, "little") + bytes(8) for number in range(events))
    lines = ["event answer", "1 W 0 0", "2 -", *(f"{number} X 8" for number in range(3, events + 1))]
    return trace, {"decide": "".join(line + "\n" for line in lines).encode(), "sheet": b"0 2 0 0 1 0 0 0 0 1 1\n"}


def test_good(check, folder, trace, right):
    path = folder / "trace"
    path.write_bytes(trace)
    with open(path, "rb") as file:
        check("a good trace", ended(check.run(file)), "", right, whole=True)
    check("a bad header", ended(check.run(), b"SGR"), "", b"trace refused 13\n", whole=True)
    check("a bad header before more than a buffer", ended(check.run(), b"R" + trace), "", b"trace refused 11\n", whole=True)
    check("no byte", ended(check.run(), b""), "", b"trace refused 13\n", whole=True)


# A write that fails.


def test_unwritable(check, trace):
    with open("/dev/full", "wb") as full:
        check("a full device", ended(check.run(output=full), trace), WRITE + "No space left on device")
    closed = check.run(output=None, preexec_fn=lambda: os.close(1))
    check("a closed output", ended(closed, trace), WRITE + "Bad file descriptor")
    output, heard, _ = closed_pipe(check, trace, 0)
    check("a pipe that is closed at once", (output, heard), WRITE + "Broken pipe")


def test_limited(check, folder, trace, right):
    """An output that ends within what is printed."""
    path = folder / "limited"
    with open(path, "wb") as output:
        _, heard = ended(check.run(output=output, preexec_fn=limit_files), trace)
    check("a file that may not grow", (path.read_bytes(), heard), WRITE + "File too large", right)
    check.hold("all that it takes is written", None if path.stat().st_size == LIMIT else f"it has {path.stat().st_size} bytes")


def limit_files():
    resource.setrlimit(resource.RLIMIT_FSIZE, (LIMIT, LIMIT))


def test_closed_pipe(check, trace, right):
    output, heard, _ = closed_pipe(check, trace, 1000)
    check("a pipe that is closed after 1,000 bytes", (output, heard), WRITE + "Broken pipe", right)
    output, heard, status = closed_pipe(check, trace, 1000, preexec_fn=take_signal)
    check("a closed pipe whose signal would end another program", (output, heard), WRITE + "Broken pipe", right)
    check.hold("its status", None if status == 0 else f"it is {status}")


def take_signal():
    signal.signal(signal.SIGPIPE, signal.SIG_DFL)


def closed_pipe(check, trace, first, **more):
    """A run whose reader takes the first bytes and goes away."""
    reads, writes = os.pipe()
    running = check.run(output=writes, **more)
    os.close(writes)
    feeder = threading.Thread(target=feed, args=(running.stdin, trace))
    output = b""
    if first == 0:
        os.close(reads)  # before it is handed a byte: a short run could write its line while the reader is still there
    feeder.start()
    if first:
        while len(output) < first:
            output += os.read(reads, first - len(output))
        os.close(reads)
    feeder.join(MOST_SECONDS)
    heard = running.stderr.read().decode()
    return output, heard, running.wait(MOST_SECONDS)


def feed(pipe, trace):
    try:
        pipe.write(trace)
        pipe.close()
    except BrokenPipeError:
        pass  # it ended early, as it must


# A read that fails.


def test_unreadable(check, folder):
    closed = check.run(None, preexec_fn=lambda: os.close(0))
    check("a closed input", ended(closed), READ + "Bad file descriptor")
    with open(folder / "only-written", "wb") as written:
        check("an input open for writing alone", ended(check.run(written)), READ + "Bad file descriptor")
    directory = os.open(folder, os.O_RDONLY)
    check("a directory as input", ended(check.run(directory)), READ + "Is a directory")
    os.close(directory)


def test_hung_up(check, trace, right, least):
    """An input that fails after its last byte, as the near end of a terminal does whose far end is closed; so many lines are there before."""
    near, far = os.openpty()
    tty.setraw(far)
    running = check.run(near)
    os.close(near)
    with open(far, "wb", buffering=0) as end:
        for at in range(0, len(trace), 1000):
            end.write(trace[at : at + 1000])
    output, heard = ended(running)
    check("an input that fails later", (output, heard), READ + "Input/output error", right)
    check.hold("what came before is answered", None if output.count(b"\n") >= least else f"only {len(output)} bytes are printed")


# Reads and writes that a signal cuts short, or that move few bytes.


def test_shaky(check, folder, trace, right, cut):
    """Also with a cut last event, where `cut` is printed."""
    name = next((name for name in ("cc", "gcc", "clang") if is_installed(name)), None)
    if name is None:
        raise Stop("there is no C compiler for x86-64: install gcc or clang")
    library = folder / "shaky.so"
    subprocess.run([*compiler(name), "-shared", "-fPIC", "-O1", "-Wall", "-Werror", "-o", library, SHAKY], check=True)
    check("signals, short reads and short writes", ended(check.run(library=library), trace), "", right, whole=True)
    check("the same with a cut last event", ended(check.run(library=library), trace[:-3]), "", cut, whole=True)


# What the proofs cannot see: std reads and writes for crates/port alone, and the count of what was read and written is only ever lent on.

CALLS = ("std::io", "std::fs", "stdin()", "stdout()", "reader()", "writer(", "print!", "println!")


def test_source(tally):
    above = {}
    for line in (ROOT / "crates.txt").read_text().splitlines():
        name, _, rest = line.split("#")[0].partition(":")
        above[name.strip()] = set(rest.split())
    wrong = [name for name, stands in above.items() if name != "port" and "tape" in stands]
    tally.add("only port stands on tape", f"{wrong} do too" if wrong else None)
    reading = {name for name, stands in above.items() if stands & {"port", "stream"}}
    wrong = {"stream", *PROGRAMS} - reading
    tally.add("both programs read and write by stream", f"not {wrong}" if wrong else None)
    for name in sorted(reading):
        wrong = above[name] & {"libc", "io", "os"}
        tally.add(f"{name} calls no C", f"it stands on {wrong}" if wrong else None)
        for path in sorted((ROOT / "crates" / name / "src").glob("*.rt")):
            code = "".join(line.split("//")[0] for line in path.read_text().splitlines(keepends=True))
            wrong = [word for word in CALLS if word in code]
            tally.add(f"{name}/src/{path.name} reads and writes by others alone", f"it has {wrong}" if wrong else None)
            tally.add(f"{name}/src/{path.name} only lends the count on", "it has '*log'" if "*log" in code else None)
            if name not in PROGRAMS:
                tally.add(f"{name}/src/{path.name} starts no count", "it has 'start()'" if "start()" in code else None)
    for name in PROGRAMS:
        main = (ROOT / "crates" / name / "src" / "main.rt").read_text()
        tally.add(f"{name} starts one count", None if main.count("start()") == 1 else "it does not")


def without_last(lines):
    """The lines of decide where the last event is cut short."""
    *before, last = lines.splitlines(keepends=True)
    return b"".join(before) + last.split()[0] + b" X 15\n"


def test_program(check, folder):
    """What holds of both programs. Of what is printed, decide has much and writes it as it reads; sheet has little and writes it at the end."""
    trace, right = long_trace(20_000)
    test_good(check, folder, trace, right[check.program])
    test_unwritable(check, trace)
    test_unreadable(check, folder)
    short, printed = long_trace(1_000)  # what decide prints of it fits into a pipe
    printed = printed[check.program]
    by_lines = check.program == "decide"
    test_hung_up(check, short, printed if by_lines else b"", 100 if by_lines else 0)
    test_shaky(check, folder, short, printed, without_last(printed) if by_lines else printed)
    if by_lines:
        test_limited(check, folder, trace, right[check.program])
        test_closed_pipe(check, trace, right[check.program])


def tests(tally):
    for program in PROGRAMS:
        if not (BIN / program).exists():
            raise Stop(f"there is no target/bin/{program}: ./sgq {program} proves and builds it")
    say_how()
    with tempfile.TemporaryDirectory() as name:
        for program in PROGRAMS:
            test_program(Check(tally, program), pathlib.Path(name))
    test_source(tally)


sys.exit(run_tests(tests))

#!/usr/bin/env python3
"""Tests the program of files/, by which the words up, back, salvage and judge of sgq work on a whole trace over the library:
what it writes and prints, beside the second program; and for each fault one line, the status, and that an existing file is
replaced by a whole result or not at all.

    python3 tests/files.py [FIRST | --fresh]     the random traces have the seeds from FIRST on, 1 where none is named, and fresh ones (kit.py);
                                                 or those alone, and nothing else is tried

The library is target/staticlib/libhost.a, which 'tools/build host' writes; the environment variable SGQ_LIB may name
another archive, as to try these tests on a wrong one. Ends with 'N passed, M failed'."""
import os
import pathlib
import random
import resource
import signal
import stat
import subprocess
import sys
import tempfile

from kit import LIBRARY, ROOT, SECOND, Seeds, Stop, build_second, need_library, random_trace, run_tests, sgqtext
from machine import OWN, before_linked, compiler, say_how

SOURCES = sorted((ROOT / "files").glob("*.c"))
WARNINGS = ["-Wall", "-Wextra", "-Wpedantic", "-Werror", "-Wshadow", "-Wconversion", "-Wcast-qual"]
KINDS = ["small", "small2", "header", "header2", "cut", "cut2", "garbage", "garbage2", "waits", "waits2"]
TORN = ["torn", "torn2", "garbage", "garbage2", "header", "header2", "ceiling", "ceiling2"]
SEEDS = 12
SALVAGED = 30  # seeds of each kind of torn trace
JUDGED = ["ties", "ties2", "small", "small2", "header", "header2", "cut", "cut2"]
NOBODY = 65534
MOST_SECONDS = 60

HEAD = "depth 4\ncapacity 8\nguest 0 reservation 100 limit 250 shares 1\n"
EVENTS = "arrival 0 1 at 5\ncompletion 0 1 at 6\ntick at 7\n"
ONE, TWO = (sgqtext.to_bytes(f"version {version}\n{HEAD}{EVENTS}") for version in (1, 2))
COSTLY = sgqtext.to_bytes(HEAD + EVENTS + "arrival 0 2 at 8 cost 3\n")
# A word, a trace, and what is said of it.
REFUSED = [
    ("up", b"", "it ends within its header (13)"),
    ("up", ONE[:20], "it ends within its header (13)"),
    ("back", TWO[:9], "it ends within its header (13)"),
    ("up", b"sgq" + ONE[3:], "it does not begin with the letters SGQ (11), so it is no trace, nor does it begin as a text does"),
    ("up", TWO, "it is of version 2, and up takes version 1 (12)"),
    ("back", ONE, "it is of version 1, and back takes version 2 (12)"),
    ("back", TWO[:3] + b"\x03\x02" + TWO[5:], "it is of version 515, and back takes version 2 (12)"),
    ("up", ONE[:5] + b"\0" + ONE[6:], "a setting in its header is out of range (1); samples/README.md has the ranges"),
    ("up", ONE[:-14] + b"\x03" + ONE[-13:], "event 3 is of no known kind, or has a guest, an id or a cost that its kind does not have (14)"),
    ("up", ONE[:-1], "it ends within event 3, its last one (15)"),
    ("back", COSTLY, "event 4 has a cost other than 1, which version 1 cannot say (19)"),
    ("back", TWO[:9] + b"\x02" + TWO[10:], "its rule is not 1 or a guest has credit, which version 1 cannot say (19)"),
    ("back", TWO[:22] + b"\x01" + TWO[23:], "its rule is not 1 or a guest has credit, which version 1 cannot say (19)"),
    ("salvage", b"", "it ends within its header (13)"),
    ("salvage", TWO[:23], "it ends within its header (13)"),
    ("salvage", b"sgq" + ONE[3:], "it does not begin with the letters SGQ (11), so it is no trace, nor does it begin as a text does"),
    ("salvage", ONE[:3] + b"\x03" + ONE[4:], "it is of version 3, and salvage takes versions 1 and 2 (12)"),
    ("salvage", TWO[:9] + b"\x03" + TWO[10:], "a setting in its header is out of range (1); samples/README.md has the ranges"),
]
# What a reason is called where events are dropped for it.
REASONS = {
    1: "no known kind, or a guest, an id or a cost that this kind does not have",
    2: "time above the ceiling",
    3: "time behind the last kept",
    4: "time more than 3,600 seconds ahead of the last kept",
    5: "cut short",
}


class House:
    """A folder with the program and a few traces."""

    def __init__(self, folder):
        self.folder, self.program = folder, folder / "files"
        words = [*compiler("cc"), "-std=c99", "-O2", *WARNINGS, f"-I{ROOT / 'include'}", *SOURCES, LIBRARY, "-o", self.program]
        made = subprocess.run([str(word) for word in words], capture_output=True, text=True)
        if made.returncode != 0:
            raise Stop(f"files/ was not built\n{made.stderr[-2000:]}")
        folder.chmod(0o755)  # one test looks at it as another user
        self.work = folder / "work"
        self.work.mkdir()

    def write(self, name, content):
        path = self.work / name
        path.write_bytes(content)
        return path

    def run(self, *words, **more):
        settings = {"cwd": self.work, "capture_output": True, "timeout": MOST_SECONDS, **more}
        return subprocess.run([*before_linked(), str(self.program), *map(str, words)], **settings)

    def names(self):
        return sorted(os.listdir(self.work))


def check(tally, name, ended, status, said="", output=b""):
    """Holds a run to its status, its output, and the one line that it says, or none."""
    line = f"sgq: {said}\n" if said else ""
    heard = ended.stderr.decode(errors="replace")
    good = (ended.returncode, ended.stdout, heard) == (status, output, line)
    tally.add(name, None if good else f"it ended with {ended}")


def hold(tally, name, good, why="it does not"):
    tally.add(name, None if good else why)


def test_words(tally, house):
    usage = "say 'up TRACE OUT', 'back TRACE OUT', 'salvage TRACE OUT' or 'judge TRACE LINES'"
    for words in ([], ["up"], ["up", "a"], ["down", "a", "b"], ["up", "a", "b", "c", "d", "e"], ["salvage", "a"], ["judge", "a"]):
        check(tally, f"the words {words}", house.run(*words), 2, usage)
    hold(tally, "nothing is made of them", house.names() == [], house.names())


def test_moves(tally, house):
    """New files, old ones, a file in its own place, standard output, names of any kind, links."""
    for word, given, result in (("up", ONE, TWO), ("back", TWO, ONE)):
        house.write("trace", given)
        check(tally, f"{word}", house.run(word, "trace", "out"), 0)
        hold(tally, f"what {word} writes", (house.work / "out").read_bytes() == result)
        check(tally, f"{word} to standard output", house.run(word, "trace", "-"), 0, output=result)
        check(tally, f"{word} in its place", house.run(word, "trace", "trace"), 0)
        hold(tally, f"what {word} writes there", (house.work / "trace").read_bytes() == result)
    house.write("trace", ONE)
    old = house.write("old", b"a longer file than the result will be " * 9)
    old.chmod(0o640)
    (house.work / "link").symlink_to("old")
    check(tally, "up over a link", house.run("up", "trace", "link"), 0)
    hold(tally, "the file is replaced", old.read_bytes() == TWO and (house.work / "link").is_symlink())
    hold(tally, "its mode stays", stat.S_IMODE(old.stat().st_mode) == 0o640, oct(old.stat().st_mode))
    check(tally, "a new file", house.run("up", "trace", "new", preexec_fn=lambda: os.umask(0o027)), 0)
    hold(tally, "its mode is that of any", stat.S_IMODE((house.work / "new").stat().st_mode) == 0o640)
    check(tally, "a name with a space", house.run("up", "trace", "new one"), 0)
    check(tally, "the longest name", house.run("up", "trace", "x" * 255), 0)
    (house.work / ("x" * 255)).unlink()
    check(tally, "a name with %s", house.run("up", "trace", "%s%n"), 0)
    many = house.write("many", ONE + ONE[-14:] * 300_000)
    check(tally, "a long trace", house.run("up", "many", "out"), 0)
    hold(tally, "what it becomes", (house.work / "out").read_bytes() == TWO + ONE[-14:] * 300_000)
    many.unlink()
    left = ["%s%n", "link", "new", "new one", "old", "out", "trace"]
    hold(tally, "nothing is left beside", house.names() == left, house.names())


def told(rows, events):
    """What is printed where these of so many events are dropped: a line for those in a row and for one reason."""
    lines, at = [], 0
    while at < len(rows):
        event, reason = rows[at]
        count = 1
        while at + count < len(rows) and rows[at + count] == (event + count, reason):
            count += 1
        which = f"event {event} is" if count == 1 else f"events {event} to {event + count - 1} are"
        lines.append(f"{which} dropped: {REASONS[reason]}\n")
        at += count
    return "".join([*lines, f"{events - len(rows)} of {events} events are kept\n"]).encode()


def test_salvage(tally, house):
    """The result and what is printed of it: of whole traces, of the torn sample, to a file and to standard output."""
    for name in house.names():
        (house.work / name).unlink()
    for name, trace in (("version 1", ONE), ("version 2", TWO), ("no events", ONE[: -3 * 14])):
        house.write("trace", trace)
        printed = told([], (len(trace) - len(sgqtext.to_bytes(HEAD))) // 14)
        check(tally, f"salvage of {name}", house.run("salvage", "trace", "out"), 0, output=printed)
        hold(tally, f"it is whole, {name}", (house.work / "out").read_bytes() == trace)
        ended = house.run("salvage", "trace", "-")
        good = (ended.returncode, ended.stdout, ended.stderr) == (0, trace, printed)
        hold(tally, f"to standard output, {name}", good, f"it ended with {ended}")
    samples = ROOT / "samples"
    torn, kept = (sgqtext.to_bytes((samples / f"{name}.txt").read_text()) for name in ("torn", "salvaged"))
    house.write("trace", torn)
    check(tally, "the torn sample", house.run("salvage", "trace", "trace"), 0, output=(samples / "torn.list").read_bytes())
    hold(tally, "what it becomes", (house.work / "trace").read_bytes() == kept)
    printed = told([], 9)
    check(tally, "a second pass", house.run("salvage", "trace", "trace"), 0, output=printed)
    hold(tally, "what that leaves", (house.work / "trace").read_bytes() == kept)
    shown = (samples / "torn.list").read_text()
    block = "".join(f"    {line}\n" for line in shown.splitlines())
    for page in (ROOT / "README.md", samples / "README.md"):
        hold(tally, f"{page.relative_to(ROOT)} shows it", block in page.read_text())
    many = ONE + (ONE[-14:] + bytes(14)) * 150_000
    house.write("many", many)
    rows = [(3 + 2 * at, 3) for at in range(1, 150_001)]
    check(tally, "a long torn trace", house.run("salvage", "many", "out"), 0, output=told(rows, 300_003))
    hold(tally, "what that becomes", (house.work / "out").read_bytes() == ONE + ONE[-14:] * 150_000)
    hold(tally, "nothing is left beside it", house.names() == ["many", "out", "trace"], house.names())
    unlisted(tally, house)


def unlisted(tally, house):
    """Where the list cannot be printed the result is there, and a line says both."""
    (house.work / "out").unlink()
    with open("/dev/full", "wb") as full:
        ended = house.run("salvage", "trace", "out", capture_output=False, stdout=full, stderr=subprocess.PIPE)
    said = b"sgq: the result is written, but the list could not be: No space left on device\n"
    good = (ended.returncode, ended.stderr) == (1, said) and (house.work / "out").exists()
    hold(tally, "a list that cannot be printed", good, f"it ended with {ended}")
    with open("/dev/full", "wb") as full:
        ended = house.run("salvage", "trace", "-", capture_output=False, stdout=full, stderr=subprocess.PIPE)
    said = b"sgq: standard output could not be written: No space left on device\n"
    hold(tally, "a result that cannot be", (ended.returncode, ended.stderr) == (1, said), f"it ended with {ended}")


def test_salvage_beside_second(tally, house, seeds):
    """Random torn traces: the same bytes and the same list as the second program's, or the same refusal."""
    for kind in TORN:
        for seed in seeds.of(SALVAGED):
            trace = random_trace(kind, seed)
            house.write("trace", trace)
            tally.add(f"salvage of {kind} seed {seed}", salvage_beside_second(house), trace)


def salvage_beside_second(house):
    second = subprocess.run([SECOND, "salvage", house.work / "trace", house.folder / "expected"], capture_output=True)
    (refusal, _, _), *rows = [tuple(map(int, line.split())) for line in second.stdout.splitlines()]
    ours = house.run("salvage", "trace", "-")
    heard = ours.stderr.decode()
    if refusal:
        good = (ours.returncode, ours.stdout) == (1, b"") and f"({refusal})" in heard and heard.count("\n") == 1
        return None if good else f"it said {heard!r}, and second {second.stdout}"
    kept = (house.folder / "expected").read_bytes()
    events = len(rows) + (len(kept) - sgqtext.header_length(kept)) // 14
    same = (ours.returncode, ours.stdout, ours.stderr) == (0, kept, told(rows, events))
    return None if same else f"it ended with {ours.returncode}, {heard!r}, and second printed {second.stdout}"


# Of the example: what becomes of its lines, and what is said.
LINES = (ROOT / "samples" / "example.out").read_bytes()
SENTENCES = [
    (LINES, "the lines is accepted: all its 11 lines are right for the trace"),
    (LINES.replace(b"7 R 0 4", b"7 -"), "line 8 of the lines is wrong: due was '7 R 0 4' or what ties with it, and it says '7 -'"),
    (LINES.replace(b"5 W", b"5 R"), "line 6 of the lines is wrong: due was '5 W 0 2' or what ties with it, and it says '5 R 0 2'"),
    (LINES.replace(b"3 -", b"3 W 0 2"), "line 4 of the lines is wrong: due was '3 -', and it says '3 W 0 2'"),
    (LINES.replace(b"8 X 6", b"8 X 5"), "line 9 of the lines is wrong: due was '8 X 6', and it says '8 X 5'"),
    (LINES.replace(b"\n", b"\r\n"), "line 1 of the lines is wrong: due was 'event answer', and it says 'event answer\\x0d'"),
    (LINES.replace(b"2 -", b"\t'\\\x7f\xc3\xa9\0 ~"), "line 3 of the lines is wrong: due was '2 -', and it says '\\x09\\'\\\\\\x7f\\xc3\\xa9\\x00 ~'"),
    (LINES.replace(b"2 -", b"x" * 80), f"line 3 of the lines is wrong: due was '2 -', and it says '{'x' * 80}'"),
    (LINES.replace(b"2 -", b"x" * 100_000), f"line 3 of the lines is wrong: due was '2 -', and it says '{'x' * 80}...'"),
    (LINES.replace(b"2 -\n", b"\n"), "line 3 of the lines is wrong: due was '2 -', and it says ''"),
    (LINES[:-1], "line 11 of the lines is wrong: due was '10 X 10', and it says '10 X 10' without the end of a line"),
    (LINES[: LINES.index(b"4 -")], "line 5 of the lines is missing: due was '4 -'"),
    (b"", "line 1 of the lines is missing: due was 'event answer'"),
    (LINES + b"11 -\n", "line 12 of the lines is surplus: no line was due any more, and it says '11 -'"),
    (LINES + b"1", "line 12 of the lines is surplus: no line was due any more, and it says '1' without the end of a line"),
]
# The same of a trace whose header is cut short.
REFUSED_SENTENCES = [
    (b"trace refused 13\n", "the lines is accepted: its one line is right for the trace"),
    (LINES, "line 1 of the lines is wrong: due was 'trace refused 13', and it says 'event answer'"),
    (b"trace refused 13\n\n", "line 2 of the lines is surplus: no line was due any more, and it says ''"),
]


def test_judge(tally, house):
    """Each sentence, the samples, and that nothing is written."""
    for name in house.names():
        (house.work / name).unlink()
    example = sgqtext.to_bytes((ROOT / "samples" / "example.txt").read_text())
    for trace, sentences in ((example, SENTENCES), (example[:20], REFUSED_SENTENCES)):
        house.write("trace", trace)
        for lines, said in sentences:
            house.write("lines", lines)
            ended = house.run("judge", "trace", "lines", "the trace", "the lines")
            check(tally, f"judge, {said[:60]}", ended, 0 if "accepted" in said else 1, output=f"{said}\n".encode())
    samples = ROOT / "samples"
    house.write("trace", sgqtext.to_bytes((samples / "other.txt").read_text()))
    for name, status in (("other.lines", 0), ("other.wrong", 1), ("other.out", 0)):
        ended = house.run("judge", "trace", samples / name, "samples/other.txt", f"samples/{name}")
        check(tally, f"judge of {name}", ended, status, output=ended.stdout)
        for page in (ROOT / "README.md", samples / "README.md") if name != "other.out" else ():
            hold(tally, f"{page.relative_to(ROOT)} shows it, {name}", f"    {ended.stdout.decode()}" in page.read_text())
    house.write("many", example + example[-14:] * 100_000)
    house.write("lines", LINES + b"".join(b"%d X 10\n" % event for event in range(11, 100_011)))
    said = b"lines is accepted: all its 100011 lines are right for many\n"
    check(tally, "judge of many lines", house.run("judge", "many", "lines"), 0, output=said)
    with open("/dev/full", "wb") as full:
        ended = house.run("judge", "trace", "lines", capture_output=False, stdout=full, stderr=subprocess.PIPE)
    said = b"sgq: standard output could not be written: No space left on device\n"
    hold(tally, "a sentence that cannot be printed", (ended.returncode, ended.stderr) == (1, said), f"it ended with {ended}")
    check(tally, "no lines", house.run("judge", "trace", "lost"), 1, "there is no file 'lost': name one that is there")
    check(tally, "a folder for lines", house.run("judge", "trace", "/"), 1, "/ is a folder: name a file in it")
    hold(tally, "nothing else is there", house.names() == ["lines", "many", "trace"], house.names())


def test_judge_beside_second(tally, house, seeds):
    """Random traces, each with the lines of the second program, and those damaged: the same number of the line, and what was due."""
    for kind in JUDGED:
        for seed in seeds.of(SEEDS):
            trace = random_trace(kind, seed)
            lines = subprocess.run([SECOND], input=trace, stdout=subprocess.PIPE, check=True).stdout
            house.write("trace", trace)
            for name, damaged in damages(random.Random(seed), lines):
                house.write("lines", damaged)
                tally.add(f"judge of {kind} seed {seed}, {name}", judge_beside_second(house), trace)


def damages(rng, lines):
    """Our lines, and the same with a byte, a line or its end changed."""
    parts = lines.splitlines(keepends=True)
    at, byte = rng.randrange(len(parts)), rng.randrange(len(lines))
    yield "whole", lines
    yield "a byte", lines[:byte] + bytes([lines[byte] ^ 1 << rng.randrange(8)]) + lines[byte + 1 :]
    yield "a line less", b"".join(parts[:at] + parts[at + 1 :])
    yield "a line more", b"".join(parts[:at] + parts[at : at + 1] + parts[at:])
    yield "cut", lines[:byte]


def judge_beside_second(house):
    second = subprocess.run([SECOND, "judge", house.work / "trace", house.work / "lines"], capture_output=True)
    line, kind, guest, number, refusal = map(int, second.stdout.split())
    ours = house.run("judge", "trace", "lines")
    heard = ours.stdout.decode()
    if line == 0:
        good = (ours.returncode, ours.stderr) == (0, b"") and heard.startswith("lines is accepted: ")
        return None if good else f"it said {heard!r}, and second accepts the lines"
    due = {0: "-", 1: f"R {guest} {number}' or what ties with it", 2: f"W {guest} {number}' or what ties with it", 3: f"X {refusal}"}
    first = f"trace refused {refusal}" if kind == 3 else "event answer"
    told = "no line was due any more" if kind == 4 else f"due was '{first if line == 1 else f'{line - 1} {due[kind]}'}"
    good = (ours.returncode, ours.stderr) == (1, b"") and heard.startswith(f"line {line} of lines is ") and f": {told}" in heard
    good = good and heard.count("\n") == 1 and heard.isascii()
    return None if good else f"it said {heard!r}, and second {second.stdout}"


def test_refused(tally, house):
    """What is refused is said with its meaning and its event, and leaves the file as it was, or none."""
    for name in house.names():
        (house.work / name).unlink()
    for word, trace, said in REFUSED:
        house.write("trace", trace)
        for out in ("old", "none"):
            house.write("old", b"old")
            ended = house.run(word, "trace", out, "the trace")
            check(tally, f"{word}, {said}", ended, 1, f"the trace is refused: {said}")
            same = (house.work / "old").read_bytes() == b"old" and house.names() == ["old", "trace"]
            hold(tally, f"it leaves all, {said}", same, house.names())
    check(tally, "refused to standard output", house.run("up", "trace", "-"), 1, "trace is refused: it is of version 2, and up takes version 1 (12)")


def test_beside_second(tally, house, seeds):
    """Random traces, damaged ones too: the same bytes as the second program's, or the same refusal."""
    for kind in KINDS:
        for seed in seeds.of(SEEDS):
            trace = random_trace(kind, seed)
            house.write("trace", trace)
            for word in ("up", "back"):
                tally.add(f"{word} of {kind} seed {seed}", beside_second(house, word, trace), trace)


def beside_second(house, word, trace):
    second = subprocess.run([SECOND, word], input=trace, capture_output=True)
    ours = house.run(word, "trace", "-")
    if second.returncode == 0:
        same = (ours.returncode, ours.stdout, ours.stderr) == (0, second.stdout, b"")
        return None if same else f"it ended with {ours.returncode}, {ours.stderr}, and second wrote {len(second.stdout)} bytes"
    number, event = second.stdout.split()[1:]
    heard = ours.stderr.decode()
    good = (ours.returncode, ours.stdout) == (1, b"") and f"({int(number)})" in heard and heard.count("\n") == 1
    good = good and (event == b"0" or f"event {int(event)}" in heard)
    return None if good else f"it said {heard!r}, and second {second.stdout}"


def test_faults(tally, house):
    """Names that lead nowhere, what cannot be read, and what cannot be written."""
    house.write("trace", ONE)
    (house.work / "folder").mkdir()
    os.mkfifo(house.work / "pipe")
    for name, words, said in (
        ("no trace", ["lost", "out"], "there is no file 'lost': name one that is there"),
        ("a folder for a trace", ["folder", "out"], "folder is a folder: name a file in it"),
        ("a device for a trace", ["/dev/null", "out"], "/dev/null is no plain file: name one"),
        ("a folder for a result", ["trace", "folder"], "folder is a folder: name a file in it"),
        ("no folder for a result", ["trace", "lost/out"], "there is no folder 'lost' for lost/out: make it first"),
        ("a file for a folder", ["trace", "trace/out"], "there is no folder 'trace' for trace/out: make it first"),
        ("a pipe for a result", ["trace", "pipe"], "pipe is no plain file, and would be replaced: name one, or - for standard output"),
        ("no name", ["trace", ""], "the result has no name: name a file"),
        ("a long name", ["trace", "x" * 300], f"{'x' * 300} could not be written and is as it was: File name too long"),
    ):
        check(tally, name, house.run("up", *words), 1, said)
    other = {"user": NOBODY, "group": NOBODY, "extra_groups": []} if os.geteuid() == 0 else {}
    if other:
        said = "out could not be written: Permission denied: look at its folder"
        check(tally, "a folder that cannot be written", house.run("up", "trace", "out", **other), 1, said)
    (house.work / "trace").chmod(0)
    check(tally, "a trace that cannot be read", house.run("up", "trace", "-", **other), 1, "trace cannot be read: Permission denied")
    (house.work / "trace").chmod(0o644)
    old = house.write("out", b"old")
    # The script's own process ignores the signal; the program is to do so too.
    limit = lambda: resource.setrlimit(resource.RLIMIT_FSIZE, (20, 20))
    said = "out could not be written and is as it was: File too large"
    check(tally, "a disc that is full", house.run("up", "trace", "out", preexec_fn=limit), 1, said)
    hold(tally, "the old file stays", old.read_bytes() == b"old")
    with open("/dev/full", "wb") as full:
        ended = house.run("up", "trace", "-", capture_output=False, stdout=full, stderr=subprocess.PIPE)
    heard = ended.stderr.decode()
    good = ended.returncode == 1 and heard == "sgq: standard output could not be written: No space left on device\n"
    tally.add("standard output that is full", None if good else f"it ended with {ended}")
    names = ["folder", "lines", "old", "out", "pipe", "trace"]
    hold(tally, "nothing is left beside", house.names() == names, house.names())


def test_full(tally, house):
    """A file system without room, where this user may make one."""
    place = house.work / "small"
    place.mkdir()
    made = subprocess.run(["mount", "-t", "tmpfs", "-o", "size=64k", "tmpfs", place], capture_output=True)
    if made.returncode != 0:
        print("no small file system could be mounted: a full disc was only tried as a limit of the file's length")
        return
    try:
        (place / "out").write_bytes(b"old")
        house.write("many", ONE + ONE[-14:] * 10_000)
        said = "small/out could not be written and is as it was: No space left on device"
        check(tally, "a file system that is full", house.run("up", "many", "small/out"), 1, said)
        hold(tally, "the old file stays there", os.listdir(place) == ["out"] and (place / "out").read_bytes() == b"old")
    finally:
        subprocess.run(["umount", place], check=True)


def loaded_before(house, source):
    """What runs the program with this C loaded before the C library."""
    library = house.folder / "before.so"
    (house.folder / "before.c").write_text(source)
    made = [*compiler("cc"), "-shared", "-fPIC", house.folder / "before.c", "-o", library]
    subprocess.run([str(word) for word in made], check=True)
    if OWN:
        return lambda *words: house.run(*words, env=dict(os.environ, LD_PRELOAD=str(library)))
    before = before_linked()
    words_before = [*before[:2], "--preload", str(library), *before[2:], str(house.program)]
    return lambda *words: subprocess.run([*words_before, *words], cwd=house.work, capture_output=True, timeout=MOST_SECONDS)


def test_stopped(tally, house):
    """A signal before the result is in its place leaves the old file and nothing beside it; a trace that becomes shorter
    while it is read is told."""
    house.write("trace", ONE)
    house.write("out", b"old")
    names = house.names()
    signalled = loaded_before(house, "#include <signal.h>\nint fsync(int file) { return file < 0 ? 0 : raise(SIGTERM); }\n")
    check(tally, "ended by a signal", signalled("up", "trace", "out"), 128 + signal.SIGTERM)
    same = (house.work / "out").read_bytes() == b"old" and house.names() == names
    hold(tally, "it leaves all", same, house.names())
    lines = ["#define _GNU_SOURCE", "#include <sys/syscall.h>", "#include <unistd.h>"]
    lines += ['int close(int file) { return truncate("trace", 0) != 0 ? -1 : (int)syscall(SYS_close, file); }', ""]
    shortened = loaded_before(house, "\n".join(lines))
    said = "the trace became shorter while it was read, so nothing was written: try again"
    check(tally, "a trace that becomes shorter", shortened("up", "trace", "out", "the trace"), 1, said)
    same = (house.work / "out").read_bytes() == b"old" and house.names() == names
    hold(tally, "that leaves all too", same, house.names())
    # The lines are mapped behind the trace, so theirs is the second to be closed.
    source = "\n".join(lines).replace("{ return truncate", "{ static int closed; return ++closed == 2 && truncate")
    shortened = loaded_before(house, source.replace('"trace"', '"lines"'))
    house.write("trace", ONE)
    house.write("lines", LINES)
    said = "the lines became shorter while it was read, so nothing was written: try again"
    check(tally, "lines that become shorter", shortened("judge", "trace", "lines", "the trace", "the lines"), 1, said)


def compare(tally, house, seeds):
    """All that is held to the second program on random traces."""
    test_beside_second(tally, house, seeds)
    test_salvage_beside_second(tally, house, seeds)
    test_judge_beside_second(tally, house, seeds)


def tests(tally):
    seeds = Seeds(tally, sys.argv[1:])
    need_library()
    build_second()
    say_how(linked=True)
    with tempfile.TemporaryDirectory() as name:
        house = House(pathlib.Path(name))
        if seeds.alone:
            compare(tally, house, seeds)
            return
        test_words(tally, house)
        test_moves(tally, house)
        test_salvage(tally, house)
        test_judge(tally, house)
        test_refused(tally, house)
        compare(tally, house, seeds)
        test_faults(tally, house)
        test_full(tally, house)
        test_stopped(tally, house)


sys.exit(run_tests(tests))

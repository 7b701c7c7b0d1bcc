#!/usr/bin/env python3
"""Tests the script sgq in a copy of its surroundings, where a stand-in for rt "builds" the programs from the second one,
counts how often it was called, and leaves behind what rt leaves; at the end with rt itself, on two small crates. Ends
with 'N passed, M failed'."""
import contextlib
import os
import pathlib
import re
import resource
import shutil
import signal
import subprocess
import sys
import tempfile
import time

from kit import ROOT, SECOND, Stop, build_second, run_tests, sgqtext

# What sgq and the stand-ins call.
COMMANDS = """sh cat chmod cp cut date dd dirname find flock grep head mkdir mktemp mv od readlink rm sed setsid sha256sum
sleep sort touch tr""".split()
CRATES = "lists:\nrules: lists io\nhost staticlib: rules\ndecide: rules log\nsheet: rules log\n"
# As rt does: it is called in a crate's folder, names each crate that it begins to prove, and says nothing of one that is
# unchanged; nothing is built where the stamp is that of the sources and of the program.
RT = """#!/bin/sh
case $1 in
version) echo 'stand-in kit 7' && exit ;;
doc) echo "$KIT/START-HERE.md" && exit ;;
esac
name=${PWD##*/} made=crates/${PWD##*/}/out/${PWD##*/}
cd ../..
echo called >>calls
echo $$ >pid
cat >/dev/null
[ "$1" != lib ] || made=crates/$name/out/lib$name.a
echo 'rt: chose --jobs 2 for rules'
[ ! -e slow ] || until [ -e go ]; do sleep 0.05; done
[ ! -e meddle ] || echo changed >>crates/rules.rt
if [ -e broken ]; then
    echo 'logic=not-proved' && echo 'rt: the library rules did not build, so nothing above it was checked'
    exit 1
fi
echo kept >crates/rules/out/stamp
echo 'logic=proved' && echo "rt: chose --jobs 2 for $name"
sum() { cat crates/*.rt $made 2>/dev/null | sha256sum; }
if [ "$(cat $made.stamp 2>/dev/null)" != "$(sum)" ]; then cp made.$name $made; fi
sum >$made.stamp
echo 'logic=proved'
"""
# In place of the C compiler: what it links is the program below, and how often it did is counted.
CC = """#!/bin/sh
echo "$*" >>"$HOUSE/links"
[ ! -e "$HOUSE/no-c" ] || { echo 'files.c: wrong' >&2 && exit 1; }
while [ $# -gt 0 ]; do
    case $1 in -o) made=$2 ;; esac
    shift
done
cp "$HOUSE/made.files" "$made"
"""
# In place of the program of files/, which tests/files.py tests: the second program moves the trace, salvages it, or judges
# lines.
FILES = """#!/bin/sh
said=$HOUSE/moved
case $1 in
judge) echo "$5 for $4: $("{second}" judge "$2" "$3")" && exec "{second}" judge "$2" "$3" >"$said" ;;
salvage) said=$HOUSE/list && "{second}" salvage "$2" "$HOUSE/moved" >"$said" ;;
*) "{second}" "$1" <"$2" >"$HOUSE/moved" ;;
esac || {{ echo "sgq: $4 is refused: $(cat "$said")" >&2 && exit 1; }}
case "$1 $3" in
*' -') cat "$HOUSE/moved" ;;
salvage*) cp "$HOUSE/moved" "$3" && cat "$said" ;;
*) cp "$HOUSE/moved" "$3" ;;
esac
"""
# What the program does where it cannot write, and writes to standard error in no other case.
UNWRITTEN = "#!/bin/sh\necho 'event answer'\necho 'decide: standard output could not be written' >&2\n"
HEAD = "depth 4\ncapacity 8\nguest 0 reservation 100 limit 250 shares 1\n"
GOOD = sgqtext.to_bytes(HEAD)
REFUSED = [
    (1, GOOD[:5] + b"\x00" + GOOD[6:], "a setting in its header is out of range (1)"),
    (11, b"X" + GOOD[1:], "it does not begin with the letters SGQ (11)"),
    (12, GOOD[:3] + b"\x07" + GOOD[4:], "its version is neither 1 nor 2 (12)"),
    (13, GOOD[:-1], "it ends within its header (13)"),
    (13, b"SG", "it ends within its header (13)"),
    (13, b"", "it ends within its header (13)"),
]
WHOLE = ["up", "back", "salvage"]  # the words that need a whole trace
MOST_SECONDS = 60  # to wait for what a run will do at once, where it does it at all
HANGS = 600  # seconds after which a run is taken to hang
NOBODY = 65534
LITTLE = 64 << 20  # bytes of memory for data


class House:
    """A folder with sgq, the samples and nothing proved."""

    def __init__(self, root):
        self.root = pathlib.Path(root)
        self.root.chmod(0o755)  # one test looks at it as another user
        shutil.copy(ROOT / "sgq", self.root)
        shutil.copytree(ROOT / "samples", self.root / "samples")
        (self.root / "tools").mkdir()
        shutil.copy(ROOT / "tools" / "sheettable.py", self.root / "tools")
        shutil.copy(SECOND, self.root / "made.decide")
        self.write("made.sheet", f"#!/bin/sh\nexec '{self.root}/made.decide' sheet\n", 0o755)
        for folder in ("files", "include", "lab"):
            shutil.copytree(ROOT / folder, self.root / folder, ignore=shutil.ignore_patterns("out", "__pycache__"))
        self.write("made.host", "a library\n")
        self.write("made.files", FILES.format(second=self.root / "made.decide"), 0o755)
        self.write("bin/cc", CC, 0o755)
        self.write("crates/rules.rt", "good\n")
        for name in ("decide", "sheet"):
            self.write(f"crates/{name}/src/main.rt", "")
        self.write("crates/host/src/lib.rt", "")
        self.write("crates.txt", CRATES)
        self.write(".ci/run", "#!/bin/sh\necho tested\nexit 7\n", 0o755)
        for command in COMMANDS:
            self.link(command)
        for command in ("bash", "cargo"):
            self.write(f"bin/{command}", "#!/bin/sh\n", 0o755)
        self.write("bin/uname", "#!/bin/sh\necho x86_64\n", 0o755)  # the stand-ins run on any machine
        self.environment = dict(os.environ, PATH=str(self.root / "bin"), KIT=str(self.root / "kit"), HOUSE=str(self.root))

    def link(self, command, path=None):
        (self.root / "bin").mkdir(exist_ok=True)
        (self.root / "bin" / command).symlink_to(path or shutil.which(command))

    def write(self, name, text, mode=0o644):
        path = self.root / name
        path.parent.mkdir(parents=True, exist_ok=True)
        if isinstance(text, str):
            text = text.encode()
        path.write_bytes(text)
        path.chmod(mode)
        return path

    def remove(self, *names):
        for name in names:
            (self.root / name).unlink(missing_ok=True)

    def calls(self):
        path = self.root / "calls"
        return path.read_text().count("called") if path.exists() else 0

    def sgq(self, *words, given=b"", script="sgq", **more):
        """A run that has ended."""
        settings = {"env": self.environment, "cwd": self.root, "capture_output": True, "input": given, **more}
        if "stdin" in settings:
            del settings["input"]
        return subprocess.run([self.root / script, *words], timeout=HANGS, **settings)

    @contextlib.contextmanager
    def begun(self, *words):
        """A run on its way, which is gone at the end; its attribute heard gives what it has said."""
        said = self.root / f"said.{time.monotonic_ns()}"
        with said.open("wb") as error:
            run = subprocess.Popen(
                [self.root / "sgq", *words],
                env=self.environment,
                cwd=self.root,
                stdin=subprocess.DEVNULL,
                stdout=subprocess.PIPE,
                stderr=error,
                start_new_session=True,
                preexec_fn=lambda: signal.signal(signal.SIGINT, signal.SIG_DFL),
            )
        run.heard = said.read_text
        try:
            yield run
        finally:
            self.write("go", "")  # for a stand-in that is left over
            with contextlib.suppress(subprocess.TimeoutExpired):
                run.communicate(timeout=MOST_SECONDS)
            run.kill()
            run.wait()
            self.remove("go", "slow")


def in_time(good):
    """Whether something becomes true."""
    end = time.monotonic() + MOST_SECONDS
    while not good():
        if time.monotonic() > end:
            return False
        time.sleep(0.02)
    return True


def check(tally, name, ended, status, output=b"", said=None, lines=None):
    """Holds a run to its status and output, what it must have said, and in how many lines."""
    heard = ended.stderr.decode()
    good = (ended.returncode, ended.stdout) == (status, output)
    good = good and (said or "") in heard and lines in (None, heard.count("\n"))
    tally.add(name, None if good else shortened(f"it ended with {ended}"))


def shortened(text):
    return text if len(text) < 2000 else f"{text[:1000]} ... {text[-1000:]}"


def hold(tally, name, good, why="it does not"):
    tally.add(name, None if good else why)


def expected(sample, end="out"):
    return (ROOT / "samples" / f"{sample}.{end}").read_bytes()


def test_words(tally, house):
    check(tally, "no word", house.sgq(), 2, said="./sgq decide [TRACE]")
    known = "there is no 'dcide': say decide, sheet, up, back, salvage, judge, picture, lab, test, soak, help or --version"
    check(tally, "unknown word", house.sgq("dcide"), 2, said=known, lines=1)
    helped = house.sgq("help")
    check(tally, "help", helped, 0, helped.stdout, lines=0)
    hold(tally, "help says test", b"./sgq test" in helped.stdout)
    for words in (["decide", "--help"], ["decide", "-h"], *([word, "--help"] for word in ("sheet", *WHOLE, "judge", "picture", "lab", "test", "soak"))):
        more = house.sgq(*words)
        check(tally, " ".join(words), more, 0, more.stdout, lines=0)
        hold(tally, f"{' '.join(words)} says more", more.stdout.startswith(f"./sgq {words[0]} ".encode()))
    check(tally, "no such file", house.sgq("decide", "lost.sgq"), 2, said="there is no file 'lost.sgq': name", lines=1)
    check(tally, "a folder", house.sgq("decide", "samples"), 2, said="samples is a folder: name a file", lines=1)
    check(tally, "two traces", house.sgq("decide", "a", "b"), 2, said="one trace, not 2", lines=1)
    check(tally, "unknown option", house.sgq("decide", "--all"), 2, said="decide has no '--all'", lines=1)
    check(tally, "unknown option of sheet", house.sgq("sheet", "--all"), 2, said="sheet has no '--all'", lines=1)
    for word in WHOLE:
        takes = f"{word} takes a trace and where the result goes"
        for names in ([], ["a"], ["a", "b", "c"]):
            ended = house.sgq(word, *names)
            check(tally, f"{word} of {len(names)} names", ended, 2, said=f"{takes}, not {len(names)} names", lines=1)
        check(tally, f"unknown option of {word}", house.sgq(word, "--all", "b"), 2, said=f"{word} has no '--all'", lines=1)
    for names in ([], ["a"], ["--"], ["a", "b", "c"]):
        count = len(names) - (names == ["--"])
        said = f"judge takes a trace and the lines of another gate, not {count} names"
        check(tally, f"judge of {names}", house.sgq("judge", *names), 2, said=said, lines=1)
    check(tally, "unknown option of judge", house.sgq("judge", "--all", "b"), 2, said="judge has no '--all'", lines=1)
    for names in ([], ["a"], ["a", "b", "c"]):
        said = f"picture takes a trace and where the page goes, not {len(names)} names"
        check(tally, f"picture of {names}", house.sgq("picture", *names), 2, said=said, lines=1)
    check(tally, "unknown option of picture", house.sgq("picture", "--all", "b"), 2, said="picture has no '--all'", lines=1)
    check(tally, "unknown option of lab", house.sgq("lab", "--all"), 2, said="lab has no '--all'", lines=1)
    for name in ("figure99", "../lab", "figure05.py", ""):
        check(tally, f"experiment '{name}'", house.sgq("lab", name), 2, said=f"there is no experiment '{name}'", lines=1)
    check(tally, "test with more words", house.sgq("test", "all"), 2, said="no more words", lines=1)
    for words in NO_MINUTES:
        said = "sgq: soak takes a number of minutes above 0: ./sgq soak 30\n"
        check(tally, f"soak of {words}", house.sgq("soak", *words), 2, said=said, lines=1)


def test_missing(tally, house):
    """Without rt and python3; then they are put there."""
    check(tally, "decide without rt", house.sgq("decide", "-"), 2, said="rt is missing: install", lines=None)
    check(tally, "test without rt", house.sgq("test"), 2, said="rt is missing: install", lines=1)
    version = house.sgq("--version").stdout.decode()
    hold(tally, "version without rt", "checker: rt is not on PATH\n" in version, version)
    house.write("bin/rt", RT, 0o755)
    text = house.sgq("decide", "samples/example.txt")
    check(tally, "text without python3", text, 2, said="python3 is missing: install", lines=1)
    house.link("python3", sys.executable)
    bad = house.sgq("decide", str(house.write("bad.txt", "depth 4\ncapacity 0\n")))
    check(tally, "a bad text before all proofs", bad, 2, said="bad.txt: line 2: capacity 0 is not from 1 to 1024", lines=1)
    hold(tally, "nothing proved so far", house.calls() == 0, "rt was called")


def test_version(tally, house):
    for words in (["--version"], ["version"], ["decide", "--version"]):
        ended = house.sgq(*words)
        check(tally, " ".join(words), ended, 0, ended.stdout, lines=0)
        shown = ended.stdout.decode()
        hold(tally, f"{' '.join(words)} has the checker", "\nchecker: stand-in kit 7\n" in shown, shown)
        hold(tally, f"{' '.join(words)} before all proofs", "\ndecide: not proved yet" in shown, shown)


def test_decide(tally, house):
    check(tally, "lot 214 at first", house.sgq("decide"), 0, expected("lot214"), "the first time this takes minutes")
    again = house.sgq("decide", "samples/example.txt")
    check(tally, "a text", again, 0, expected("example"), lines=0)
    trace = sgqtext.to_bytes((ROOT / "samples" / "example.txt").read_text())
    house.write("example.sgq", trace)
    check(tally, "a trace", house.sgq("decide", "example.sgq"), 0, expected("example"), lines=0)
    check(tally, "standard input", house.sgq("decide", "-", given=trace), 0, expected("example"), lines=0)
    for name in ("-x", "--help"):
        house.write(name, trace)
        check(tally, f"-- {name}", house.sgq("decide", "--", name), 0, expected("example"), lines=0)
    check(tally, "-- -", house.sgq("decide", "--", "-", given=trace), 0, expected("example"), lines=0)
    with (house.root / "example.sgq").open("rb") as file:
        check(tally, "a file as standard input", house.sgq("decide", "-", stdin=file), 0, expected("example"), lines=0)
    with house.write("behind", b"gone" + trace).open("rb", buffering=0) as file:
        file.read(4)
        check(tally, "a file that was read from", house.sgq("decide", "-", stdin=file), 0, expected("example"), lines=0)
    os.mkfifo(house.root / "pipe")
    with subprocess.Popen(["sh", "-c", "cat example.sgq >pipe"], cwd=house.root):
        check(tally, "a named pipe", house.sgq("decide", "pipe"), 0, expected("example"), lines=0)
    long = GOOD + sgqtext.to_bytes(HEAD + "tick at 5\n")[len(GOOD) :] * 9000  # more than a pipe holds
    answers = b"event answer\n" + b"".join(b"%d -\n" % event for event in range(1, 9001))
    check(tally, "much on standard input", house.sgq("decide", "-", given=long), 0, answers, lines=0)
    hold(tally, "proved once", house.calls() == 1, f"rt was called {house.calls()} times")
    proved = house.sgq("--version").stdout.decode()
    hold(tally, "version after it", "\ndecide: proved from these sources by stand-in kit 7\n" in proved, proved)
    hold(tally, "version of the other", "\nsheet: not proved yet" in proved, proved)


def test_sheet(tally, house):
    """Sheet as the program prints it, and as a table, which has the same figures, one row for each guest."""
    proving = "proving sheet and the crates it stands on"
    check(tally, "sheet of lot 214 at first", house.sgq("sheet"), 0, expected("lot214", "sheet"), proving)
    check(tally, "sheet of a text", house.sgq("sheet", "samples/example.txt"), 0, expected("example", "sheet"), lines=0)
    trace = (house.root / "example.sgq").read_bytes()
    check(tally, "sheet of standard input", house.sgq("sheet", "-", given=trace), 0, expected("example", "sheet"), lines=0)
    table = house.sgq("sheet", "--table", "samples/lot214.txt")
    heading, *rows = table.stdout.decode().splitlines()
    check(tally, "sheet --table", table, 0, table.stdout, lines=0)
    hold(tally, "its heading", heading.split()[:3] == ["guest", "arrivals", "completed"], heading)
    hold(tally, "its columns", len({len(row) for row in [heading, *rows]}) == 1, table.stdout.decode())
    first = [line.split()[:6] for line in expected("lot214", "sheet").decode().splitlines()]
    hold(tally, "its figures", [row.split()[:6] for row in rows] == first, table.stdout.decode())
    for number, refused, said in REFUSED:
        output = b"trace refused %d\n" % number
        for words in (["sheet", "-"], ["sheet", "--table", "-"]):
            name = f"{' '.join(words)}, refusal {number} of {len(refused)} bytes"
            check(tally, name, house.sgq(*words, given=refused), 1, output, f"standard input is refused: {said}", lines=1)
    closed = house.sgq("sheet", "--table", "example.sgq", preexec_fn=lambda: os.close(1))
    check(tally, "sheet --table, standard output closed", closed, 1, said="standard output is closed", lines=1)


def test_moves(tally, house):
    """Up and back: what is linked and when, from where the trace comes, and where the result goes."""
    one = (house.root / "example.sgq").read_bytes()
    two = sgqtext.to_bytes("version 2\n" + (ROOT / "samples" / "example.txt").read_text())
    house.write("two.sgq", two)
    house.write("out", "old")

    def moved(name, words, expected, said=None, lines=0, status=0, **more):
        """Runs it, and holds what is then in the file out to the bytes expected."""
        house.write("out", "old")
        check(tally, name, house.sgq(*words, **more), status, said=said, lines=lines)
        found = (house.root / "out").read_bytes()
        hold(tally, f"the result of {name}", found == expected, f"it is {found}")

    moved("up at first", ["up", "example.sgq", "out"], two, "proving host and the crates it stands on", None)
    moved("up", ["up", "example.sgq", "out"], two)
    moved("back", ["back", "two.sgq", "out"], one)
    moved("up of a text", ["up", "samples/example.txt", "out"], two)
    moved("up of standard input", ["up", "-", "out"], two, given=one)
    moved("up of a text there", ["up", "-", "out"], two, given=(ROOT / "samples" / "example.txt").read_bytes())
    with (house.root / "example.sgq").open("rb") as file:
        moved("up of a file there", ["up", "-", "out"], two, stdin=file)
    with subprocess.Popen(["sh", "-c", "cat example.sgq >pipe"], cwd=house.root):
        moved("up of a named pipe", ["up", "pipe", "out"], two)
    moved("up of -x", ["up", "--", "-x", "out"], two)
    moved("up with standard output closed", ["up", "example.sgq", "out"], two, preexec_fn=lambda: os.close(1))
    check(tally, "up to standard output", house.sgq("up", "example.sgq", "-"), 0, two, lines=0)
    check(tally, "back of a day that cannot", house.sgq("back", "samples/telephone.txt", "-"), 1, said="refused 19 0", lines=1)
    moved("a refused trace", ["up", "two.sgq", "out"], b"old", "two.sgq is refused: refused 12 0", 1, 1)
    moved("a refused stream", ["up", "-", "out"], b"old", "standard input is refused: refused 12 0", 1, 1, given=two)
    hold(tally, "linked once", linked(house) == 1, f"it was linked {linked(house)} times")
    check_no_move(tally, house)
    check_links(tally, house, one, two)


def test_salvage(tally, house):
    """Salvage prints what it drops, and else is as the moves are."""
    torn, kept = (sgqtext.to_bytes((ROOT / "samples" / f"{name}.txt").read_text()) for name in ("torn", "salvaged"))
    printed = f"0 {len(kept)} 7\n6 3\n7 3\n8 3\n10 4\n12 1\n13 2\n16 5\n".encode()
    house.write("torn.sgq", torn)
    late = HEAD + "tick at 5\n" * 90_000 + "tick at once\n"
    for name, words, given in (
        ("a torn trace", ["torn.sgq", "out"], b""),
        ("a text", ["samples/torn.txt", "out"], b""),
        ("standard input", ["-", "out"], torn),
        ("--", ["--", "torn.sgq", "out"], b""),
    ):
        house.write("out", "old")
        check(tally, f"salvage of {name}", house.sgq("salvage", *words, given=given), 0, printed, lines=0)
        hold(tally, f"what is kept of {name}", (house.root / "out").read_bytes() == kept)
    check(tally, "salvage to standard output", house.sgq("salvage", "torn.sgq", "-"), 0, kept, lines=0)
    for name, words, status, said in (
        ("a refused trace", ["-", "out"], 1, "standard input is refused: 11 0 0"),
        ("a mistake in a text", ["bad.txt", "out"], 2, "bad.txt: line 2: capacity 0 is not from 1 to 1024"),
        ("a mistake late in a text", ["late.txt", "out"], 2, "late.txt: line 90004: time 'once' is not a number"),
        ("no folder", ["torn.sgq", "lost/out"], 2, "there is no folder 'lost' for lost/out: make it"),
    ):
        house.write("late.txt", late)
        house.write("out", "old")
        ended = house.sgq("salvage", *words, given=b"sgq" + torn[3:])
        check(tally, f"salvage, {name}", ended, status, said=said, lines=1)
        hold(tally, f"nothing is said of what is written, {name}", b"are written" not in ended.stderr, ended.stderr)
        hold(tally, f"salvage, {name}, leaves all", (house.root / "out").read_text() == "old")
    for out in ("out", "-"):
        closed = house.sgq("salvage", "torn.sgq", out, preexec_fn=lambda: os.close(1))
        check(tally, f"salvage to {out}, standard output closed", closed, 1, said="standard output is closed", lines=1)
    hold(tally, "which leaves all", (house.root / "out").read_text() == "old")
    words = ["sh", "-c", "{ ./sgq salvage torn.sgq out; echo $? >ended; } | head -n 1"]
    with standing_in_place(house, "files", "#!/bin/sh\nexec cat samples/*.txt samples/*.txt samples/*.txt samples/*.txt\n"):
        subprocess.run(words, env=house.environment, cwd=house.root, capture_output=True)
        status = (house.root / "ended").read_text()
        hold(tally, "nobody reads the list to its end", status == "141\n", f"the status was {status}")


def test_judge(tally, house):
    """Where the trace and the lines come from, and what is said where they do not."""
    trace, lines = (house.root / "example.sgq").read_bytes(), expected("example")
    house.write("lines", lines)
    house.write("-l", lines)
    house.write("wrong", lines.replace(b"7 R 0 4", b"7 -"))
    right, wrong = b"0 0 0 0 0\n", b"8 1 0 4 0\n"
    for name, words, given, status, output in (
        ("lines", ["example.sgq", "lines"], b"", 0, b"lines for example.sgq: " + right),
        ("wrong lines", ["example.sgq", "wrong"], b"", 1, b"wrong for example.sgq: " + wrong),
        ("a text", ["samples/example.txt", "lines"], b"", 0, b"lines for samples/example.txt: " + right),
        ("a trace there", ["-", "lines"], trace, 0, b"lines for standard input: " + right),
        ("a text there", ["-", "wrong"], (ROOT / "samples" / "example.txt").read_bytes(), 1, b"wrong for standard input: " + wrong),
        ("lines there", ["example.sgq", "-"], lines, 0, b"standard input for example.sgq: " + right),
        ("no lines there", ["example.sgq", "-"], b"", 1, b"standard input for example.sgq: 1 0 0 0 0\n"),
        ("lines there of a text", ["samples/example.txt", "-"], lines, 0, b"standard input for samples/example.txt: " + right),
        ("--", ["--", "-x", "-l"], b"", 0, b"-l for -x: " + right),
    ):
        check(tally, f"judge of {name}", house.sgq("judge", *words, given=given), status, output, lines=0)
    for words, piped in ((["pipe", "-"], "example.sgq"), (["-", "pipe"], "lines"), (["example.sgq", "pipe"], "lines")):
        given = lines if words[1] == "-" else trace
        with subprocess.Popen(["sh", "-c", f"cat {piped} >pipe"], cwd=house.root):
            ended = house.sgq("judge", *words, given=given)
        check(tally, f"judge of {words}", ended, 0, ended.stdout, lines=0)
        hold(tally, f"what it says of {words}", ended.stdout.endswith(right), ended.stdout)
    check_no_judge(tally, house)


def check_no_judge(tally, house):
    late = HEAD + "tick at 5\n" * 90_000 + "tick at once\n"
    house.write("late.txt", late)
    with tempfile.TemporaryDirectory() as temporary:
        there = dict(house.environment, TMPDIR=temporary)
        for name, words, said in (
            ("both there", ["-", "-"], "trace and lines cannot both be standard input"),
            ("a lost trace", ["lost.sgq", "lines"], "there is no file 'lost.sgq': name"),
            ("lost lines", ["example.sgq", "lost"], "there is no file 'lost': name the lines of another gate"),
            ("a folder for lines", ["example.sgq", "samples"], "samples is a folder: name a file in it"),
            ("a bad text", ["bad.txt", "-"], "bad.txt: line 2: capacity 0 is not from 1 to 1024"),
            ("a mistake late in a text", ["late.txt", "-"], "late.txt: line 90004: time 'once' is not a number"),
        ):
            ended = house.sgq("judge", *words, given=b"event answer\n", env=there)
            check(tally, f"judge, {name}", ended, 2, said=said, lines=1)
            hold(tally, f"nothing is said of what is written, {name}", b"are written" not in ended.stderr, ended.stderr)
        check(tally, "judge of a stream", house.sgq("judge", "example.sgq", "-", given=b"1", env=there), 1,
              b"standard input for example.sgq: 1 0 0 0 0\n", lines=0)
        hold(tally, "no temporary file of judge is left", os.listdir(temporary) == [], os.listdir(temporary))
    lost = dict(house.environment, TMPDIR="lost", aside="samples")
    ended = house.sgq("judge", "example.sgq", "-", env=lost)
    check(tally, "no temporary folder for lines", ended, 1, said="there is no room in lost for the bytes of standard input", lines=1)
    hold(tally, "a folder of that name stays", (house.root / "samples" / "example.txt").exists())
    closed = house.sgq("judge", "example.sgq", "lines", preexec_fn=lambda: os.close(1))
    check(tally, "judge, standard output closed", closed, 1, said="standard output is closed", lines=1)
    closed = subprocess.run(["sh", "-c", "exec ./sgq judge example.sgq - <&-"], env=house.environment, cwd=house.root, capture_output=True)
    check(tally, "judge, standard input closed", closed, 1, said="standard input is closed", lines=1)
    folder = os.open(house.root, os.O_RDONLY)
    ended = house.sgq("judge", "example.sgq", "-", stdin=folder)
    os.close(folder)
    check(tally, "judge, lines that cannot be read", ended, 1, said="standard input could not be read to its end", lines=1)


def linked(house):
    return len((house.root / "links").read_text().splitlines())


def check_no_move(tally, house):
    """What is wrong with the names, or with a text, is said at once, and nothing is left behind."""
    late = HEAD + "tick at 5\n" * 90_000 + "tick at once\n"
    before = sorted(os.listdir(house.root))
    with tempfile.TemporaryDirectory() as temporary:
        there = dict(house.environment, TMPDIR=temporary)
        for name, words, status, said in (
            ("a lost trace", ["lost.sgq", "out"], 2, "there is no file 'lost.sgq': name"),
            ("a folder for a trace", ["samples", "out"], 2, "samples is a folder: name a file"),
            ("a folder for a result", ["example.sgq", "samples"], 2, "samples is a folder: name a file in it"),
            ("no folder for a result", ["example.sgq", "lost/out"], 2, "there is no folder 'lost' for lost/out: make it"),
            ("a pipe for a result", ["example.sgq", "pipe"], 2, "pipe is no plain file, and would be replaced"),
            ("no name for a result", ["example.sgq", ""], 2, "the result has no name"),
            ("a bad text", ["bad.txt", "out"], 2, "bad.txt: line 2: capacity 0 is not from 1 to 1024"),
            ("a mistake late in a text", ["-", "out"], 2, "line 90004: time 'once' is not a number"),
        ):
            house.write("out", "old")
            ended = house.sgq("up", *words, given=late.encode(), env=there)
            check(tally, f"up, {name}", ended, status, said=said, lines=1)
            hold(tally, f"nothing is said of what is written, {name}", b"are written" not in ended.stderr, ended.stderr)
            hold(tally, f"up, {name}, leaves all", (house.root / "out").read_text() == "old")
        hold(tally, "no temporary file is left", os.listdir(temporary) == [], os.listdir(temporary))
        check(tally, "no temporary folder", house.sgq("up", "samples/example.txt", "out", env=dict(there, TMPDIR="lost")), 1,
              said="there is no room in lost for the bytes of samples/example.txt", lines=1)
        closed = house.sgq("up", "example.sgq", "-", preexec_fn=lambda: os.close(1))
        check(tally, "up, standard output closed", closed, 1, said="standard output is closed", lines=1)
    hold(tally, "nothing else is left", sorted(os.listdir(house.root)) == before, sorted(os.listdir(house.root)))


def check_links(tally, house, one, two):
    """A change of files/ or of the program itself links it anew; what does not compile, or where nothing does, is said."""
    links = linked(house)
    (house.root / "target" / "sgq" / "files").write_text("changed\n")
    check(tally, "a program of files/ that was changed", house.sgq("up", "example.sgq", "-"), 0, two, lines=0)
    house.write("files/whole.h", "changed\n")
    check(tally, "a change of files/", house.sgq("back", "two.sgq", "-"), 0, one, lines=0)
    hold(tally, "linked for each", linked(house) == links + 2, f"it was linked {linked(house) - links} times")
    house.write("files/whole.h", "wrong\n")
    house.write("no-c", "")
    wrong = house.sgq("up", "example.sgq", "out")
    check(tally, "what does not compile", wrong, 2, said="could not be compiled by cc; see target/sgq/files.log", lines=1)
    house.remove("no-c")
    (house.root / "bin" / "cc").rename(house.root / "put-aside")
    check(tally, "no compiler", house.sgq("up", "example.sgq", "out"), 2, said="cc is missing: install a C compiler", lines=1)
    (house.root / "put-aside").rename(house.root / "bin" / "cc")
    calls = house.calls()
    (house.root / "target" / "staticlib" / "libhost.a").write_text("another\n")
    ended = house.sgq("up", "example.sgq", "-")
    check(tally, "a library that was changed", ended, 0, two, "target/staticlib/libhost.a was gone, or not", lines=1)
    hold(tally, "it is put back", house.calls() == calls, "rt was called")
    with standing_in_place(house, "files", "#!/bin/sh\nkill -KILL $$\n"):
        check(tally, "a move that is killed", house.sgq("up", "example.sgq", "out"), 1, said="up ended with status 137", lines=1)


@contextlib.contextmanager
def standing_in_place(house, name, program):
    """Another program in the place of the linked one; then the old one again."""
    kept = (house.root / f"made.{name}").read_bytes()
    house.write(f"made.{name}", program, 0o755)
    house.write("files/whole.h", f"for {program}")
    yield
    house.write(f"made.{name}", kept, 0o755)
    house.write("files/whole.h", "good\n")


# In place of lab/lab.py, which tests/lab.py tests: what it was called with, and its status.
LAB = """import sys
print(*sys.argv[1:])
sys.exit(int(sys.argv[-1] == "figure06"))
"""


def test_picture(tally, house):
    """Where the trace comes from and where the page goes, and what is said where it does not."""
    trace = (house.root / "example.sgq").read_bytes()
    for name, words, given, out in (
        ("a trace", ["example.sgq", "day.html"], b"", "day.html"),
        ("a text", ["samples/example.txt", "day.html"], b"", "day.html"),
        ("a trace there", ["-", "day.html"], trace, "day.html"),
        ("a text there", ["-", "day.html"], (ROOT / "samples" / "example.txt").read_bytes(), "day.html"),
        ("--", ["--", "-x", "day.html"], b"", "day.html"),
        ("a drawing", ["example.sgq", "day.svg"], b"", "day.svg"),
    ):
        house.remove(out)
        check(tally, f"picture of {name}", house.sgq("picture", *words, given=given), 0, lines=0)
        drawn = (house.root / out).read_text() if (house.root / out).exists() else ""
        hold(tally, f"the picture of {name}", drawn.startswith("<svg" if out.endswith("svg") else "<!doctype html>") and drawn.count("<title>guest 0, id ") == 4, drawn[:200])
    ended = house.sgq("picture", "example.sgq", "-")
    check(tally, "picture to standard output", ended, 0, ended.stdout, lines=0)
    hold(tally, "it is a page", ended.stdout.startswith(b"<!doctype html>"))
    check_no_picture(tally, house)


def check_no_picture(tally, house):
    house.write("day.html", "as it was")
    with tempfile.TemporaryDirectory() as temporary:
        there = dict(house.environment, TMPDIR=temporary)
        for number, trace, said in REFUSED:
            ended = house.sgq("picture", "-", "day.html", given=trace, env=there)
            check(tally, f"picture, {number}, {len(trace)} bytes", ended, 1, said=f"standard input is refused: {said}", lines=1)
        for name, words, said in (
            ("a lost trace", ["lost.sgq", "day.html"], "there is no file 'lost.sgq': name"),
            ("a folder", ["example.sgq", "samples"], "samples is a folder: name a file in it"),
            ("no folder", ["example.sgq", "lost/day.html"], "there is no folder"),
            ("a bad text", ["bad.txt", "day.html"], "bad.txt: line 2: capacity 0 is not from 1 to 1024"),
        ):
            check(tally, f"picture, {name}", house.sgq("picture", *words, env=there), 2, said=said, lines=1)
        hold(tally, "no temporary file of picture is left", os.listdir(temporary) == [], os.listdir(temporary))
    hold(tally, "what was there stays", (house.root / "day.html").read_text() == "as it was")
    many = HEAD + "".join(f"arrival 0 {id} at {id}0ms\ncompletion 0 {id} at {id}1ms\n" for id in range(1, 800))
    ended = house.sgq("picture", "-", "many.svg", given=many.encode())
    check(tally, "one drawing of many", ended, 1, said="standard input has more than 700 requests, so there is no one drawing of it", lines=1)
    check(tally, "a page of many", house.sgq("picture", "-", "many.html", given=many.encode()), 0, lines=0)


def test_lab(tally, house):
    """All is made ready, and the lab is called with it."""
    house.write("lab/lab.py", LAB)
    own, made = house.root / "target" / "sgq", house.root / "target" / "bin"
    words = f"--sim {own}/lab --decide {made}/decide --sheet {made}/sheet --files {own}/files"
    for given, told, status in ((["figure05"], "--short 1 {} figure05", 0), (["--short"], "--short 6 {}", 0), (["figure05", "figure06"], "--short 1 {} figure05 figure06", 1)):
        ended = house.sgq("lab", *given)
        check(tally, f"lab {' '.join(given)}", ended, status, f"{told.format(words)}\n".encode())
    hold(tally, "the simulator is linked", (own / "lab").exists() and (own / "lab.linked").exists())
    links = (house.root / "links").read_text().count("\n")
    house.sgq("lab")
    hold(tally, "it is linked once", (house.root / "links").read_text().count("\n") == links)
    house.write("no-c", "")
    house.write("lab/sim/run.h", "another\n")
    check(tally, "a simulator that does not compile", house.sgq("lab"), 2, said="lab/sim/ could not be compiled by cc; see target/sgq/lab.log", lines=1)
    house.remove("no-c")


NO_MINUTES = ([], ["1", "2"], [""], ["0"], ["0.0"], ["-1"], ["x"], ["1m"], ["1.2.3"], [".5"], ["5."], ["1e3"], ["--all"])
# In place of tests/soak, whose own test is below.
SOAK = """import sys
print(*sys.argv[1:])
sys.exit(int(sys.argv[1] == "7"))
"""


def test_soak(tally, house):
    """What it stands on is proved, and the soak is called with its minutes and gives the status."""
    house.write("tests/soak", SOAK)
    for minutes, status in (("30", 0), ("0.5", 0), ("7", 1)):
        check(tally, f"soak {minutes}", house.sgq("soak", minutes), status, f"{minutes}\n".encode())
    for command in ("cargo", "cc"):
        (house.root / "bin" / command).rename(house.root / "bin" / "aside")
        check(tally, f"soak without {command}", house.sgq("soak", "1"), 2, said=f"sgq: {command} is missing: install", lines=1)
        (house.root / "bin" / "aside").rename(house.root / "bin" / command)
    source = house.root / "crates" / "rules.rt"
    good = source.read_text()
    source.write_text("worse\n")
    house.write("broken", "")
    check(tally, "soak of what is not proved", house.sgq("soak", "1"), 2, said="rules is not proved (rt ended with status 1), so soak is not run")
    house.remove("broken")
    source.write_text(good)


# In place of a comparison that tests/soak makes: it notes the seed, and then does the one or the other. Minutes would make this test wait, or
# depend on how fast the machine is; so the rounds are ended by a comparison that can be made twice only.
COMPARISON = """import os, sys
with open(os.environ["HOUSE"] + "/seeds", "a+") as seeds:
    print(os.environ["SGQ_SEED"], *sys.argv[1:], file=seeds, flush=True)
    seeds.seek(0)
    made = len(seeds.readlines())
"""
PASSES = COMPARISON + "print('3 passed, 0 failed')\n"
FAILS = COMPARISON + "print('seed')\nprint('FAILED small seed', os.environ['SGQ_SEED'])\nprint('2 passed, 1 failed')\nsys.exit(1)\n"
STUCK = COMPARISON + "print('FAILED to go on: it is missing')\nprint('0 passed, 1 failed')\nsys.exit(1)\n"
SILENT = COMPARISON + "print('Traceback')\nsys.exit(3)\n"
TWICE = COMPARISON + "print('3 passed, 0 failed' if made < 15 else '0 passed, 1 failed')\nsys.exit(made >= 15)\n"
COMPARED = ["tests/run", "tests/host/run", "tests/files.py", "tests/lab.py", "tests/text.py"]
# What the last comparison does, the minutes, the status, and what is then printed; N is a number.
SOAKS = {
    "passes": (PASSES, "0.0001", 0, ["round 1, seed 77: 15 passed, 0 failed in N s", "15 passed, 0 failed"]),
    "fails": (FAILS, "0.0001", 1, ["  FAILED small seed 77", "  2 passed, 1 failed", "round 1, seed 77: 14 passed, 1 failed in N s", "14 passed, 1 failed"]),
    "cannot be made": (STUCK, "600", 1, ["  FAILED to go on: it is missing", "  0 passed, 1 failed", "round 1, seed 77: 12 passed, 1 failed in N s"]),
    "gives no verdict": (SILENT, "600", 1, ["  Traceback", "  it gave no verdict, and ended with status 3", "round 1, seed 77: 12 passed, 1 failed in N s"]),
}
NO_FURTHER = ["no further round: nothing passed in tests/text.py", "12 passed, 1 failed"]


def soaked(house, *words, seed="77"):
    """A run of tests/soak over the stand-ins."""
    environment = dict(house.environment, SGQ_SEED=seed)
    return subprocess.run([sys.executable, house.root / "tests" / "soak", *words], env=environment, capture_output=True, timeout=HANGS)


def test_rounds(tally, house):
    """tests/soak itself: its rounds and their seeds, and what it prints where a comparison fails or cannot be made."""
    for name in ("soak", "kit.py", "machine.py"):
        shutil.copy(ROOT / "tests" / name, house.write(f"tests/{name}", ""))
    for name in COMPARED:
        house.write(name, PASSES)
    said = "tests/soak takes a number of minutes above 0, as tests/soak 30\n"
    for words in NO_MINUTES:
        check(tally, f"tests/soak of {words}", soaked(house, *words), 2, said=said, lines=1)
    check(tally, "tests/soak of no seed", soaked(house, "1", seed="x"), 2, said="SGQ_SEED is 'x', and has to be", lines=1)
    hold(tally, "nothing is compared for it", not (house.root / "seeds").exists())
    for name, (does, minutes, status, told) in SOAKS.items():
        house.write(COMPARED[-1], does)
        ended = soaked(house, minutes)
        told = ([f"SGQ_SEED=77 python3 {COMPARED[-1]} --fresh"] if status else []) + told + (NO_FURTHER if minutes == "600" else [])
        printed = re.sub(r"in \d+ s$", "in N s", ended.stdout.decode(), flags=re.MULTILINE).splitlines()
        hold(tally, f"a comparison that {name}", (ended.returncode, printed) == (status, told), f"it ended with {ended}")
    house.write(COMPARED[-1], TWICE)
    house.remove("seeds")
    ended = soaked(house, "600")
    rounds = re.findall(r"^round (\d+), seed (\d+): (\d+) passed, (\d+) failed in \d+ s$", ended.stdout.decode(), re.MULTILINE)
    seeds = [seed for _, seed, _, _ in rounds]
    counts = [(number, passed, failed) for number, _, passed, failed in rounds]
    hold(tally, "the rounds of a soak", counts == [("1", "15", "0"), ("2", "15", "0"), ("3", "12", "1")], f"it ended with {ended}")
    hold(tally, "all of them are counted", ended.stdout.endswith(b"\n42 passed, 1 failed\n"), f"it ended with {ended}")
    hold(tally, "each has a seed", seeds[:1] == ["77"] and len(set(seeds)) == 3, seeds)
    noted = (house.root / "seeds").read_text().splitlines()
    hold(tally, "each comparison has it", noted == [f"{seed} --fresh" for seed in seeds for _ in COMPARED], noted)


def test_texts(tally, house):
    """A text is told by its first bytes, wherever it comes from, and a trace too."""
    text = (ROOT / "samples" / "example.txt").read_bytes()
    house.write("example", text)
    check(tally, "a text under another name", house.sgq("decide", "example"), 0, expected("example"), lines=0)
    check(tally, "a text on standard input", house.sgq("decide", "-", given=text), 0, expected("example"), lines=0)
    with (house.root / "example").open("rb") as file:
        check(tally, "a file of text there", house.sgq("decide", "-", stdin=file), 0, expected("example"), lines=0)
    for begin in (b"\xef\xbb\xbf", b"\r\n \t\n", b"#*\n"):
        given = begin + b"\n" + HEAD.encode()
        check(tally, f"a text after {begin}", house.sgq("decide", "-", given=given), 0, b"event answer\n", lines=0)
    house.write("trace.txt", (house.root / "example.sgq").read_bytes())
    check(tally, "a trace that ends in .txt", house.sgq("decide", "trace.txt"), 0, expected("example"), lines=0)
    no_room = dict(house.environment, TMPDIR=str(house.root / "lost"))
    check(tally, "no temporary folder", house.sgq("decide", "example", env=no_room), 0, expected("example"), lines=0)
    many = HEAD + ("# " + "x" * 1000 + "\n") * 64_000 + "tick at 0\n"
    limit = {"preexec_fn": lambda: resource.setrlimit(resource.RLIMIT_DATA, (LITTLE, LITTLE))}
    little = house.sgq("decide", "-", given=many.encode(), **limit)
    check(tally, "64 MB of text in little memory", little, 0, b"event answer\n1 -\n", lines=0)


def test_bad_texts(tally, house):
    check(tally, "a bad text", house.sgq("decide", "bad.txt"), 2, said="line 2: capacity 0 is not from 1", lines=1)
    early = HEAD + "tick at 5\n" * 60_000 + "tick at once\n"
    said = "standard input: line 60004: time 'once' is not a number"
    check(tally, "a mistake in a short text", house.sgq("decide", "-", given=early.encode()), 2, said=said, lines=1)
    late = HEAD + "tick at 5\n" * 90_000 + "tick at once\n" + "tick at 5\n" * 9
    # What stands before the mistake is answered, and a cut event says that there was more.
    answers = b"event answer\n" + b"".join(b"%d -\n" % event for event in range(1, 90_001)) + b"90001 X 15\n"
    for name, given in (("late.txt", b""), ("-", late.encode())):
        house.write("late.txt", late)
        said = "line 90004: time 'once' is not a number"
        check(tally, f"a mistake late in {name}", house.sgq("decide", name, given=given), 2, answers, said, lines=1)
    house.write("samples/sgqtext.py", f"import os\nos.write(1, {GOOD})\nos.kill(os.getpid(), 9)\n")
    killed = house.sgq("decide", "bad.txt")
    check(tally, "a converter that is killed", killed, 1, b"event answer\n", "it was ended by signal 9", lines=1)
    shutil.copy(ROOT / "samples" / "sgqtext.py", house.root / "samples")


def test_refusals(tally, house):
    """What the number means is said, the program's line stays, and the status is 1."""
    for number, trace, said in REFUSED:
        output = b"trace refused %d\n" % number
        house.write("refused.sgq", trace)
        name = f"refusal {number} of {len(trace)} bytes"
        check(tally, name, house.sgq("decide", "refused.sgq"), 1, output, f"refused.sgq is refused: {said}", lines=1)
        given = house.sgq("decide", "-", given=trace)
        check(tally, f"{name} on standard input", given, 1, output, f"standard input is refused: {said}", lines=1)
        text = sgqtext.to_text(trace, raw=True).encode()
        given = house.sgq("decide", "-", given=text)
        check(tally, f"{name} as text", given, 1, output, f"standard input is refused: {said}", lines=1)
    given = house.sgq("decide", "-", given=b"hello, is this a trace?\n")
    check(tally, "neither trace nor text", given, 1, b"trace refused 11\n", "standard input is refused: it does", lines=1)
    long = GOOD[:3] + b"\x07" + GOOD[4:] + bytes(1_000_000)
    given = house.sgq("decide", "-", given=long)
    check(tally, "a long refused trace", given, 1, b"trace refused 12\n", "its version is neither 1 nor 2 (12)", lines=1)


def test_failures(tally, house):
    """The program says what it could not read or write; a reader that has enough is no failure to speak of."""
    folder = os.open(house.root, os.O_RDONLY)
    check(tally, "a read that fails", house.sgq("decide", "-", stdin=folder), 1, said="standard input could", lines=1)
    os.close(folder)
    closed = house.sgq("decide", "example.sgq", preexec_fn=lambda: os.close(1))
    check(tally, "standard output closed", closed, 1, said="standard output is closed", lines=1)
    given = (house.root / "example.sgq").read_bytes()
    closed = house.sgq("decide", "-", given=given, preexec_fn=lambda: os.close(2))
    check(tally, "standard error closed", closed, 0, expected("example"), lines=0)
    for name in ("example.sgq", "-", "example"):
        with standing_in(house, UNWRITTEN):
            trace = (house.root / "example.sgq").read_bytes()
            ended = house.sgq("decide", name, given=trace)
            said = "sgq: decide: standard output could not be written\n"
            check(tally, f"a write that fails, {name}", ended, 1, b"event answer\n", said, lines=1)
    with standing_in(house, "#!/bin/sh\nkill -KILL $$\n"):
        check(tally, "a program that is killed", house.sgq("decide", "example.sgq"), 1, said="status 137", lines=1)
    house.write("long.sgq", GOOD + bytes(1 << 20))
    house.write("long.txt", HEAD + "tick at 5\n" * 100_000)
    with standing_in(house, "#!/bin/sh\necho 'event answer'\nexec cat\n"):
        for trace in ("long.sgq", "-", "long.txt"):
            words = ["sh", "-c", '{ cat long.sgq | ./sgq decide "$1"; echo $? >ended; } | head -n 1', "sh", trace]
            ended = subprocess.run(words, env=house.environment, cwd=house.root, capture_output=True)
            check(tally, f"a closed pipe, {trace}", ended, 0, b"event answer\n", lines=0)
            status = (house.root / "ended").read_text()
            hold(tally, f"its status, {trace}", status == "141\n", f"the status was {status}")


@contextlib.contextmanager
def standing_in(house, program):
    """Another program in the place of decide, proved as far as sgq can tell; then the old one again."""
    kept = (house.root / "made.decide").read_bytes()
    house.write("made.decide", program, 0o755)
    house.write("crates/rules.rt", f"for {program}")
    house.sgq("decide", "example.sgq")
    yield
    house.write("made.decide", kept, 0o755)
    house.write("crates/rules.rt", "good\n")
    house.sgq("decide", "example.sgq")


def test_changes(tally, house):
    calls = house.calls()
    house.write("crates/rules.rt", "changed\n")
    house.write("broken", "")
    unproved = "rules is not proved (rt ended with status 1), so decide is not run"
    check(tally, "a change that is not proved", house.sgq("decide", "-"), 2, said=unproved, lines=2)
    house.remove("broken")
    # The stand-in reads all that it is handed, and must not be handed the trace.
    changed = house.sgq("decide", "-", given=(house.root / "example.sgq").read_bytes())
    check(tally, "a change that is proved", changed, 0, expected("example"), "all 3 crates are proved")
    hold(tally, "proved for each change", house.calls() == calls + 2, f"rt was called {house.calls() - calls} times")
    check(tally, "no change", house.sgq("decide", "example.sgq"), 0, expected("example"), lines=0)
    os.utime(house.write("crates/rules.rt", "restored\n"), (0, 0))
    check(tally, "a change of an old date", house.sgq("decide", "example.sgq"), 0, expected("example"))
    hold(tally, "it is proved", house.calls() == calls + 3, f"rt was called {house.calls() - calls} times")
    house.write("crates/rules.rt", "again\n")
    house.write("meddle", "")
    check(tally, "a change meanwhile", house.sgq("decide", "-"), 2, said="changed while they were being proved", lines=2)
    house.remove("meddle")
    check(tally, "and none", house.sgq("decide", "example.sgq"), 0, expected("example"))
    check(tally, "test", house.sgq("test"), 7, b"tested\n", "from nothing", lines=1)


def test_gone(tally, house):
    """A program that is gone, or was changed, is put back; where that cannot be, rt builds it, and nothing else."""
    calls, program = house.calls(), house.root / "target" / "bin" / "decide"
    program.unlink()
    ended = house.sgq("decide", "example.sgq")
    check(tally, "a program that is gone", ended, 0, expected("example"), "it is put back", lines=1)
    hold(tally, "it is there", program.exists())
    program.write_text("#!/bin/sh\necho wrong\n")
    ended = house.sgq("decide", "example.sgq")
    check(tally, "a program that was changed", ended, 0, expected("example"), "it is put back", lines=1)
    hold(tally, "nothing was proved", house.calls() == calls, "rt was called")
    house.remove("target/bin/decide", "target/sgq/decide", "target/sgq/decide.proved")
    check(tally, "a program that is gone for good", house.sgq("decide", "example.sgq"), 0, expected("example"))
    kept = (house.root / "crates" / "rules" / "out" / "stamp").exists()
    hold(tally, "it is built by rt", kept and house.calls() == calls + 1, f"rt was called {house.calls() - calls} times")


@contextlib.contextmanager
def unwritable(house):
    """What a run needs so that target/ cannot be written: to be another user where we are root."""
    house.write("calls", "called\n" * house.calls(), 0o666)
    if os.geteuid() == 0:
        yield {"user": NOBODY, "group": NOBODY, "extra_groups": []}
        return
    folders = [house.root / "target", *(path for path in (house.root / "target").rglob("*") if path.is_dir())]
    files = [path for path in (house.root / "target").rglob("*") if path.is_file()]
    for path in files + folders:
        path.chmod(path.stat().st_mode & ~0o222)
    yield {}
    for path in folders + files:
        path.chmod(path.stat().st_mode | 0o200)


def test_room(tally, house):
    """Where target/ cannot be written a proved program runs, and a change stops sgq before anything is proved."""
    calls = house.calls()
    with unwritable(house) as other:
        ended = house.sgq("decide", "example.sgq", **other)
        check(tally, "proved, in a folder of another", ended, 0, expected("example"), lines=0)
        house.write("crates/rules.rt", "broken\n")
        house.write("broken", "")
        ended = house.sgq("decide", "example.sgq", **other)
        check(tally, "not proved, in a folder of another", ended, 2, said="cannot be written, so nothing was", lines=1)
        hold(tally, "nothing is proved there", house.calls() == calls, "rt was called")
    house.remove("broken")
    for name in ("staticlib", "bin"):  # a part of it suffices
        (house.root / "target").rename(house.root / "put-aside")
        house.write(f"target/{name}", "in the way")
        ended = house.sgq("decide", "example.sgq")
        check(tally, f"a file for target/{name}", ended, 2, said="cannot be written, so nothing was", lines=1)
        shutil.rmtree(house.root / "target")
        (house.root / "put-aside").rename(house.root / "target")
    (house.root / "target").rename(house.root / "put-aside")
    house.write("target", "in the way")
    ended = house.sgq("decide", "example.sgq")
    check(tally, "a file for target", ended, 2, said="cannot be written, so nothing was", lines=1)
    hold(tally, "nothing is proved then", house.calls() == calls, "rt was called")
    house.remove("target")
    (house.root / "put-aside").rename(house.root / "target")
    house.write("crates/rules.rt", "good\n")
    check(tally, "room again", house.sgq("decide", "example.sgq"), 0, expected("example"))


def test_link(tally, house):
    (house.root / "far").mkdir()
    (house.root / "far" / "near").symlink_to("../sgq")
    (house.root / "far" / "gate").symlink_to(house.root / "far" / "near")
    linked = house.sgq("decide", "../example.sgq", script="far/gate", cwd=house.root / "far")
    check(tally, "a symbolic link to sgq", linked, 0, expected("example"), lines=0)


def test_two(tally, house):
    """Two runs at once prove once, and the second says what it waits for."""
    calls = house.calls()
    house.write("crates/rules.rt", "for two\n")
    house.write("slow", "")
    with house.begun("decide", "example.sgq") as one:
        hold(tally, "the first run proves", in_time(lambda: house.calls() == calls + 1))
        with house.begun("decide", "example.sgq") as two:
            in_time(lambda: two.heard().count("\n"))
            waits = f"sgq: another run of sgq is proving here (process {one.pid}, since "
            hold(tally, "the second run waits", two.heard().startswith(waits), two.heard())
            house.write("go", "")
            for name, run in (("first", one), ("second", two)):
                ended = (run.communicate(timeout=MOST_SECONDS)[0], run.returncode)
                hold(tally, f"the {name} of two runs", ended == (expected("example"), 0), f"it ended with {ended}")
            hold(tally, "the second says no more", two.heard().count("\n") == 1, two.heard())
    hold(tally, "two runs prove once", house.calls() == calls + 1, f"rt was called {house.calls() - calls} times")


def test_progress(tally, house):
    """Which crate is being proved, how many of how many, how long; nothing of those that are unchanged."""
    house.write("crates/rules.rt", "slowly\n")
    house.write("slow", "")
    with house.begun("decide", "example.sgq") as run:
        hold(tally, "what is being proved", in_time(lambda: "sgq: proving rules, 1 of 3 are done, " in run.heard()))
        said = run.heard()
        hold(tally, "how long so far", said.endswith(" s so far\n") and said.count("\n") == 2, said)
        house.write("go", "")
        ended = (run.communicate(timeout=MOST_SECONDS)[0], run.returncode)
        hold(tally, "proved slowly", ended == (expected("example"), 0), f"it ended with {ended}")
        hold(tally, "the unchanged are not named", "lists" not in run.heard(), run.heard())


def test_terminal(tally, house):
    """On a terminal the time goes on in the same line."""
    house.write("crates/rules.rt", "slowly, at a terminal\n")
    house.write("slow", "")
    ours, theirs = os.openpty()
    words = [house.root / "sgq", "decide", "example.sgq"]
    run = subprocess.Popen(words, env=house.environment, cwd=house.root, stdout=subprocess.PIPE, stderr=theirs)
    os.close(theirs)
    os.set_blocking(ours, False)
    seen = bytearray()

    def ticks():
        with contextlib.suppress(OSError):  # nothing to read
            seen.extend(os.read(ours, 4096))
        return seen.count(b"\rsgq: proving rules, 1 of 3 are done, ") > 1

    hold(tally, "the time on a terminal", in_time(ticks), bytes(seen))
    house.write("go", "")
    run.communicate(timeout=MOST_SECONDS)
    house.remove("go", "slow")
    os.close(ours)
    hold(tally, "what it says there", seen.count(b"\n") == 1, bytes(seen))


def test_stopped(tally, house):
    """After Ctrl-C nothing goes on behind the person's back, and what to expect is said."""
    for number, text in ((signal.SIGINT, "Ctrl-C\n"), (signal.SIGTERM, "ended\n")):
        house.write("crates/rules.rt", text)
        house.write("slow", "")
        house.remove("pid")
        with house.begun("decide", "example.sgq") as run:
            in_time(lambda: (house.root / "pid").exists() and (house.root / "pid").read_text().endswith("\n"))
            os.killpg(run.pid, number)
            with contextlib.suppress(subprocess.TimeoutExpired):
                run.communicate(timeout=MOST_SECONDS)
            name = signal.Signals(number).name
            hold(tally, f"the status after {name}", run.returncode == 128 + number, f"it was {run.returncode}")
            heard = run.heard().splitlines()
            said = "sgq: stopped; what is proved so far is kept, and the next run goes on from here"
            hold(tally, f"what is said after {name}", len(heard) >= 2 and heard[-1] == said, run.heard())
            hold(tally, f"nothing goes on after {name}", not lives(int((house.root / "pid").read_text())))
        check(tally, f"the run after {name}", house.sgq("decide", "example.sgq"), 0, expected("example"))


def lives(process):
    try:
        os.kill(process, 0)
    except ProcessLookupError:
        return False
    return True


def test_machine(tally, house):
    """On a machine other than x86-64 the toolchain's emulator runs the program, or a line says that there is none."""
    house.write("bin/uname", "#!/bin/sh\necho other\n", 0o755)
    ended = house.sgq("decide", "example.sgq")
    check(tally, "no emulator", ended, 2, said="decide is for x86-64, this machine is other, and the", lines=1)
    tools = house.root / "kit" / "on" / "other" / "toolchain"
    emulator = f'#!/bin/sh\n[ "$1 $2 $3" = "{tools}/lib/ld-linux-x86-64.so.2 --library-path {tools}/lib" ] && exec "$4"\n'
    house.write("kit/on/other/toolchain/bin/qemu-x86_64", emulator, 0o755)
    check(tally, "an emulator", house.sgq("decide", "example.sgq"), 0, expected("example"), lines=0)
    lacks = "x86_64-linux-gnu-gcc is missing: install a C compiler for x86-64 (Debian: gcc-x86-64-linux-gnu)"
    check(tally, "no compiler for it", house.sgq("up", "example.sgq", "-"), 2, said=lacks, lines=1)
    (house.root / "bin" / "x86_64-linux-gnu-gcc").symlink_to("cc")
    house.write("kit/on/other/toolchain/bin/qemu-x86_64", '#!/bin/sh\nexec "$@"\n', 0o755)
    two = (house.root / "two.sgq").read_bytes()
    check(tally, "up by an emulator", house.sgq("up", "example.sgq", "-"), 0, two)
    hold(tally, "linked for it", "-static" in (house.root / "links").read_text().splitlines()[-1])
    house.write("bin/uname", "#!/bin/sh\necho x86_64\n", 0o755)


# With rt itself.

# With a line that no other run has: rt takes what it has proved of the same crate in another folder of this machine.
FIRST = f"// Crate of the run {time.time_ns()}.\n" + "#![tactic(auto)]\nghost use Rattle.std.specs.Prelude.{◌≡◌};\n\npub fn seven() -> usize\n    ensures { result ≡ 7 }\n{\n    7\n}\n"


def test_rt(tally, house):
    """What is assumed of rt: its verdict, what it says, that it proves only what changed, and where the programs are that it builds."""
    house.environment = dict(os.environ)
    shutil.rmtree(house.root / "crates")
    shutil.rmtree(house.root / "target")
    house.write("crates.txt", "first:\ndecide: first\n")
    house.write("crates/first/src/lib.rt", FIRST)
    house.write("crates/decide/src/main.rt", "#![tactic(auto)]\nfn main() {}\n")
    check(tally, "rt proves", house.sgq("decide", "example.sgq"), 0, said="all 2 crates are proved")
    log = house.root / "target" / "sgq" / "log"
    hold(tally, "rt's words", log.read_text().count("\nlogic=proved ") == 2, log.read_text())
    named = re.findall(r"^rt: chose --jobs \d+ for (\w+)$", log.read_text(), re.M)
    house.remove("target/bin/decide", "target/sgq/decide", "crates/decide/out/decide")
    check(tally, "rt builds again", house.sgq("decide", "example.sgq"), 0, said="all 2 crates are proved")
    hold(tally, "rt proves no other", " for first\n" not in log.read_text(), log.read_text())
    hold(tally, "rt's logs", named == ["first", "decide"], f"it named {named}")
    house.write("crates/first/src/lib.rt", FIRST.replace("    7\n", "    8\n"))
    with unwritable(house) as other:
        ended = house.sgq("decide", "example.sgq", **other)
        check(tally, "rt cannot write", ended, 2, said="cannot be written, so nothing was proved", lines=1)
    unproved = "first is not proved (rt ended with status 1), so decide is not run"
    check(tally, "rt refuses", house.sgq("decide", "example.sgq"), 2, said=unproved)


def tests(tally):
    build_second()
    if not shutil.which("rt"):
        raise Stop("rt is missing: install the Rattle toolchain")
    with tempfile.TemporaryDirectory(prefix="a house, ") as folder:
        house = House(folder)
        for test in (
            test_words,
            test_missing,
            test_version,
            test_decide,
            test_sheet,
            test_moves,
            test_salvage,
            test_judge,
            test_picture,
            test_lab,
            test_soak,
            test_rounds,
            test_texts,
            test_bad_texts,
            test_refusals,
            test_failures,
            test_changes,
            test_room,
            test_gone,
            test_link,
            test_two,
            test_progress,
            test_terminal,
            test_stopped,
            test_machine,
            test_rt,
        ):
            test(tally, house)


sys.exit(run_tests(tests))

#!/usr/bin/env python3
"""Tests samples/sgqtext.py: from bytes to text and back over random traces, refusals with the line's number, times, the
command itself, and that a text of any length goes through it in little memory.

    python3 tests/text.py [FIRST | --fresh]     the random traces have the seeds from FIRST on, 1 where none is named, and fresh ones (kit.py);
                                                or those alone, and nothing else is tried

Ends with 'N passed, M failed'."""
import concurrent.futures
import os
import re
import resource
import select
import subprocess
import sys

from kit import CORES, ROOT, SECOND, Seeds, build_second, random_trace, run_tests, sgqtext

KINDS = ["small", "ceiling", "jumps", "header", "cut", "garbage"]
KINDS += [f"{kind}2" for kind in KINDS]  # of version 2
SEEDS, LARGE = 40, 2  # random traces of each kind, and large ones
HEAD = "depth 4\ncapacity 8\nguest 0 reservation 1 limit 2 shares 3\n"
HEAD_BYTES = bytes.fromhex("53475101000401080001000000 0200000003000000")
# The same in version 2, and an arrival of cost 64.
HEAD_2 = "version 2\ndepth 4\ncapacity 8\nrule 2\nguest 0 reservation 1 limit 2 shares 3 credit 256\n"
HEAD_2_BYTES = bytes.fromhex("53475102000401080002 01000000 02000000 03000000 0001")
COSTLY = bytes.fromhex("fc 01 07000000 0500000000000000")
TOOL = [sys.executable, ROOT / "samples" / "sgqtext.py"]
TICK = bytes.fromhex("02 00 00000000 0500000000000000")
MOST_SECONDS = 60  # to wait for what comes at once, where it comes at all
LITTLE = 64 << 20  # bytes of memory for data

# A bad text, the line that is wrong, and words of what is said.
REFUSED = [
    ("", 1, "the header has no line 'depth DEPTH'"),
    ("\n\n# nothing\n", 3, "the header has no line 'depth DEPTH'"),
    ("depth 4\n", 1, "the header has no line 'capacity CAPACITY'"),
    ("depth 4\ncapacity 8\ntick at 0\n", 3, "the header has no line 'guest"),
    ("capacity 8\ntick at 0\n", 2, "the header has no line 'depth DEPTH'"),
    ("depth 4\nraw 00\n", 2, "the header has no line 'capacity CAPACITY'"),
    ("depth 0\n", 1, "depth 0 is not from 1 to 64"),
    ("depth 65\n", 1, "depth 65 is not from 1 to 64"),
    ("depth 4\ncapacity 1025\n", 2, "capacity 1025 is not from 1 to 1024"),
    ("depth 4\n\ndepth 4\n", 3, "a second line 'depth'"),
    ("depth\n", 1, "not of the form 'depth DEPTH'"),
    ("depth 4 5\n", 1, "not of the form 'depth DEPTH'"),
    ("depth -4\n", 1, "depth '-4' is not a whole number"),
    ("depth 4.0\n", 1, "depth '4.0' is not a whole number"),
    ("depth \u0664\n", 1, "is not a whole number"),
    ("Depth 4\n", 1, "no line begins with 'Depth'"),
    ("guest 1 reservation 0 limit 0 shares 1\n", 1, "guest 1 stands where guest 0 is expected"),
    ("guest 0 reservation 0 limit 0 shares 0\n", 1, "shares 0 is not from 1 to 1000000"),
    ("guest 0 reservation 0 limit 0 shares 1000001\n", 1, "shares 1000001"),
    ("guest 0 reservation 1000001 limit 0 shares 1\n", 1, "reservation 1000001"),
    ("guest 0 reservation 0 limit 1000001 shares 1\n", 1, "limit 1000001"),
    ("guest 0 reservation 4 limit 3 shares 1\n", 1, "reservation 4 is above limit 3"),
    ("guest 0 limit 3 reservation 3 shares 1\n", 1, "not of the form 'guest NUMBER"),
    ("version 3\n", 1, "version 3 is not from 1 to 2"),
    ("version 1\nversion 1\n", 2, "a second line 'version'"),
    ("depth 4\nversion 2\n", 2, "'version' stands before all other lines"),
    ("rule 0\n", 1, "rule 0 is not from 1 to 2"),
    ("rule 1\nrule 1\n", 2, "a second line 'rule'"),
    ("version 2\n", 1, "the header has no line 'depth DEPTH'"),
    ("rule 2\nraw 00\n", 2, "the header has no line 'depth DEPTH'"),
    ("version 1\nrule 2\n", 2, "rule 2 cannot be said in a trace of version 1, where it is 1"),
    (
        "version 1\nguest 0 reservation 0 limit 0 shares 1 credit 30\n",
        2,
        "credit 30 cannot be said in a trace of version 1, where it is 0",
    ),
    ("version 1\n" + HEAD + "arrival 0 1 at 0 cost 2\n", 5, "cost 2 cannot be said in a trace of version 1, where it is 1"),
    (HEAD + "arrival 0 1 at 0 cost 0\n", 4, "cost 0 is not from 1 to 64"),
    (HEAD + "arrival 0 1 at 0 cost 65\n", 4, "cost 65 is not from 1 to 64"),
    (HEAD + "arrival 0 1 at 0 cost\n", 4, "not of the form 'arrival GUEST ID at TIME [cost COST]'"),
    (HEAD + "completion 0 1 at 0 cost 1\n", 4, "not of the form 'completion GUEST ID at TIME'"),
    (HEAD + "tick at 0 cost 1\n", 4, "not of the form 'tick at TIME'"),
    (HEAD + "tick at 0\nrule 2\n", 5, "'rule' belongs to the header"),
    ("guest 0 reservation 0 limit 0 shares 1 credit 257\n", 1, "credit 257 is not from 0 to 256"),
    ("guest 0 reservation 0 limit 0 shares 1 credit\n", 1, "not of the form 'guest NUMBER"),
    ("guest credit 0\n", 1, "not of the form 'guest NUMBER"),
    ("".join(f"guest {g} reservation 0 limit 0 shares 1\n" for g in range(65)), 65, "number 64 is not from 0 to 63"),
    (HEAD + "tick at 0\ndepth 4\n", 5, "'depth' belongs to the header"),
    (HEAD + "raw 00\nguest 1 reservation 0 limit 0 shares 1\n", 5, "'guest' belongs to the header"),
    (HEAD + "arrival 0 1\n", 4, "not of the form 'arrival GUEST ID at TIME [cost COST]'"),
    (HEAD + "arrival 0 1 in 5ms\n", 4, "not of the form 'arrival GUEST ID at TIME [cost COST]'"),
    (HEAD + "arrival 256 1 at 0\n", 4, "guest 256 is not from 0 to 255"),
    (HEAD + "completion 0 4294967296 at 0\n", 4, "id 4294967296 is not from 0 to 4294967295"),
    (HEAD + "tick 0 0 at 5ms\n", 4, "not of the form 'tick at TIME'"),
    (HEAD + "tick at 18446744073709551616\n", 4, "time 18446744073709551616 is not from 0"),
    (HEAD + "tick at 18446744074s\n", 4, "time 18446744074s is not from 0"),
    (HEAD + "tick at 5min\n", 4, "time '5min' is not a number"),
    (HEAD + "tick at 5 ms\n", 4, "not of the form 'tick at TIME'"),
    (HEAD + "tick at -5ms\n", 4, "time '-5ms' is not a number"),
    (HEAD + "tick at .5ms\n", 4, "time '.5ms' is not a number"),
    (HEAD + "tick at 0.5\n", 4, "time 0.5 is not a whole number of nanoseconds"),
    (HEAD + "tick at 0.0005us\n", 4, "is not a whole number of nanoseconds"),
    (HEAD + f"tick at {'9' * 5000}\n", 4, "has more than 40 digits"),
    (HEAD + "raw 0\n", 4, "two hexadecimal digits"),
    (HEAD + "raw 0g\n", 4, "two hexadecimal digits"),
    (HEAD + "raw 0x00\n", 4, "two hexadecimal digits"),
    (HEAD + "wait 0 1 at 0\n", 4, "no line begins with 'wait'"),
    (HEAD + "x" * 500 + "\n", 4, "no line begins with 'xxx"),
]

# A time as it may be written, its nanoseconds, and how it comes back.
TIMES = [
    ("0", 0, "0"),
    ("0s", 0, "0"),
    ("7", 7, "7ns"),
    ("7ns", 7, "7ns"),
    ("007us", 7000, "7us"),
    ("4ms", 4_000_000, "4ms"),
    ("4.5ms", 4_500_000, "4500us"),
    ("1.000000001s", 1_000_000_001, "1000000001ns"),
    ("7200.250s", 7_200_250_000_000, "7200250ms"),
    ("21600s", 21_600_000_000_000, "21600s"),
    ("0.001us", 1, "1ns"),
    ("4611686018427387904", 2**62, "4611686018427387904ns"),
    ("18446744073709551615ns", 2**64 - 1, "18446744073709551615ns"),
]

# Words, input, status, output, and words of what is said.
COMMANDS = [
    ([], b"", 2, b"", "say 'bytes', 'text' or 'text --raw'"),
    (["byte"], b"", 2, b"", "say 'bytes', 'text' or 'text --raw'"),
    (["bytes"], HEAD.encode(), 0, HEAD_BYTES, ""),
    (["bytes"], HEAD.replace("\n", "\r\n").encode(), 0, HEAD_BYTES, ""),
    (["bytes"], b"version 1\nrule 1\n" + HEAD.replace("shares 3", "shares 3 credit 0").encode(), 0, HEAD_BYTES, ""),
    (["bytes"], HEAD_2.encode() + b"arrival 1 7 at 5 cost 64\n", 0, HEAD_2_BYTES + COSTLY, ""),
    (["bytes"], b"\xef\xbb\xbf" + HEAD.encode(), 0, HEAD_BYTES, ""),
    (["bytes"], b"raw 01 02\nraw\nraw a0FF\n", 0, b"\x01\x02\xa0\xff", ""),
    (["bytes"], HEAD.encode() + b"tick at now\n", 1, b"", "line 4: time 'now'"),
    (["bytes"], b"depth 4\n\xff\n", 1, b"", "line 2: this is not text"),
    (["bytes"], b"depth 4\n#" + b"x" * (1 << 20) + b"\n", 1, b"", "line 2: it has more than 1048576 bytes"),
    (["bytes"], HEAD.encode() + b"tick at 5", 0, HEAD_BYTES + TICK, ""),
    (["text"], HEAD_BYTES, 0, HEAD.encode(), ""),
    (["text"], HEAD_2_BYTES + COSTLY, 0, HEAD_2.encode() + b"arrival 1 7 at 5ns cost 64  # 1\n", ""),
    (["text"], HEAD_2_BYTES[:9], 1, b"", "the header is cut short: 9 bytes of 10 (13)"),
    (["text"], HEAD_2_BYTES[:-1], 1, b"", "the guest records are cut short: 23 bytes of 24 (13)"),
    (["text"], HEAD_2_BYTES[:-2] + b"\x01\x01", 1, b"", "guest 0: credit 257 is not from 0 to 256 (1)"),
    (["text"], HEAD_2_BYTES[:9] + b"\x03" + HEAD_2_BYTES[10:], 1, b"", "rule 3 is not from 1 to 2 (1)"),
    (["text"], HEAD_BYTES[:3] + b"\x03" + HEAD_BYTES[4:], 1, b"", "version 3 is neither 1 nor 2 (12)"),
    (["text"], HEAD_2_BYTES + b"\x06" + TICK[1:], 1, b"", "event 1: a tick with 1 above its kind"),
    (["text"], HEAD_2_BYTES + b"\xff" + TICK[1:], 1, b"", "event 1: kind 3 is above 2 (14)"),
    (["text"], HEAD_BYTES[:8], 1, b"", "the header is cut short: 8 bytes of 9 (13)"),
    (["text"], HEAD_BYTES + b"\x02", 1, b"", "event 1: cut short, 1 bytes of 14 (15)"),
    (["text", "--raw"], HEAD_BYTES + b"\x02", 0, HEAD.encode() + b"raw 02  # 1: cut short, 1 bytes of 14 (15)\n", ""),
    (["text", "--raw"], b"", 0, b"raw\n", ""),
]


def refusal(work):
    """What the tool says against a work, or None where it is content."""
    try:
        work()
    except sgqtext.Bad as why:
        return str(why)
    return None


def program_refusal(trace):
    """The number for which the second program calls a trace ill-formed, or None."""
    printed = subprocess.run([SECOND], input=trace, stdout=subprocess.PIPE, check=True).stdout
    found = re.match(rb"trace refused (\d+)\n", printed) or re.search(rb"^\d+ X (14|15)$", printed, re.MULTILINE)
    return int(found.group(1)) if found else None


def round_trip(kind, seed):
    """Any trace goes through raw text; one that the program finds well-formed goes through text without raw lines."""
    name, trace = f"{kind} seed {seed}", random_trace(kind, seed)
    if sgqtext.to_bytes(sgqtext.to_text(trace, raw=True)) != trace:
        return name, "raw text does not give the bytes back", trace
    why, number = refusal(lambda: sgqtext.to_text(trace)), program_refusal(trace)
    if number is not None:
        good = why is not None and why.endswith(f"({number})")
        return name, None if good else f"the program says {number}, the tool: {why}", trace
    if why is not None:
        return name, f"the program finds nothing, the tool: {why}", trace
    text = sgqtext.to_text(trace)
    if "raw" in text or sgqtext.to_bytes(text) != trace:
        return name, "text does not give the bytes back", trace
    return name, None, trace


def test_round_trips(tally, seeds):
    cases = [(kind, seed) for kind in KINDS for seed in seeds.of(SEEDS)] + [("large", seed) for seed in seeds.of(LARGE)]
    print(f"round trips: {len(cases)}", flush=True)
    with concurrent.futures.ThreadPoolExecutor(CORES) as pool:
        for result in pool.map(lambda case: round_trip(*case), cases):
            tally.add(*result)


def test_files(tally):
    """Every text of the repository goes to bytes, and those to a text of the same bytes."""
    for path in sorted(ROOT.glob("samples/*.txt")) + sorted(ROOT.glob("tests/readings/*.txt")):
        trace = sgqtext.to_bytes(path.read_text())
        same = sgqtext.to_bytes(sgqtext.to_text(trace, raw=True)) == trace
        tally.add(f"{path.name} and back", None if same else "the bytes are not the same")


def test_refusals(tally):
    for text, line, words in REFUSED:
        why = refusal(lambda: sgqtext.to_bytes(text))
        good = why is not None and why.startswith(f"line {line}: ") and words in why and len(why) < 250
        tally.add(f"refusal of {text[-60:]!r}", None if good else f"said: {why}")


def test_times(tally):
    for word, nanoseconds, back in TIMES:
        trace = sgqtext.to_bytes(HEAD + f"tick at {word}\n")
        expected = HEAD_BYTES + b"\x02" + bytes(5) + nanoseconds.to_bytes(8, "little")
        good = trace == expected and sgqtext.to_text(trace) == HEAD + f"tick at {back}  # 1\n"
        tally.add(f"time {word}", None if good else f"became {sgqtext.to_text(trace)!r}")


def test_versions(tally):
    """Which words make a trace one of version 2, wherever they stand, and that nothing else of it changes."""
    events = "arrival 0 1 at 5\ntick at 6\n"
    plain = sgqtext.to_bytes(HEAD + events)
    moved = plain[:3] + b"\x02" + plain[4:9] + b"\x01" + plain[9:21] + bytes(2) + plain[21:]
    costly = moved[:-28] + b"\x1c" + moved[-27:]
    for name, text, expected in (
        ("no word", HEAD + events, plain),
        ("version 1", "version 1\n" + HEAD + events, plain),
        ("version 1 and its own numbers", "version 1\nrule 1\n" + HEAD + events.replace("at 5", "at 5 cost 1"), plain),
        ("version 2", "version 2\n" + HEAD + events, moved),
        ("rule 1", HEAD + "rule 1\n" + events, moved),
        ("rule 2", "rule 2\n" + HEAD + events, moved[:9] + b"\x02" + moved[10:]),
        ("credit 0", HEAD.replace("shares 3", "shares 3 credit 0") + events, moved),
        ("credit 30", HEAD.replace("shares 3", "shares 3 credit 30") + events, moved[:22] + b"\x1e" + moved[23:]),
        ("cost 1", HEAD + events.replace("at 5", "at 5 cost 1"), moved),
        ("cost 8", HEAD + events.replace("at 5", "at 5 cost 8"), costly),
        ("cost 8 behind other events", HEAD + events + events.replace("at 5", "at 5 cost 8"), moved + costly[-28:]),
    ):
        found = sgqtext.to_bytes(text)
        tally.add(f"the version of {name}", None if found == expected else f"it became {found.hex(' ')}")


def test_commands(tally):
    for words, given, status, output, said in COMMANDS:
        ended = subprocess.run([*TOOL, *words], input=given, capture_output=True)
        heard = ended.stderr.decode()
        good = (ended.returncode, ended.stdout) == (status, output) and said in heard
        good = good and heard.count("\n") == (1 if status else 0)
        tally.add(f"command {' '.join(words)} {given[-20:]!r}", None if good else f"it ended with {ended}")


# A text is converted as it comes.


def test_stream(tally):
    """Bytes come before the text ends, and a reader that has enough is no failure."""
    with subprocess.Popen([*TOOL, "bytes"], stdin=subprocess.PIPE, stdout=subprocess.PIPE) as tool:
        tool.stdin.write(HEAD.encode() + b"tick at 5\n" * 76_000)  # a little more than is held back
        tool.stdin.flush()
        came = select.select([tool.stdout], [], [], MOST_SECONDS)[0] and os.read(tool.stdout.fileno(), len(HEAD_BYTES))
        tally.add("bytes before the text ends", None if came == HEAD_BYTES else f"there came {came}")
        tool.communicate()
    tool = subprocess.Popen([*TOOL, "bytes"], stdin=subprocess.PIPE, stdout=subprocess.PIPE, stderr=subprocess.PIPE)
    tool.stdout.close()
    try:
        tool.stdin.write(HEAD.encode() + b"tick at 5\n" * 200_000)
        tool.stdin.close()
    except BrokenPipeError:
        pass  # it has ended
    said = tool.stderr.read()
    good = tool.wait() == -13 and said == b""
    tally.add("nobody reads", None if good else f"it ended with {tool.returncode} and said {said}")


def test_memory(tally):
    text = HEAD.encode() + (b"# " + b"x" * 1000 + b"\n") * 64_000 + b"tick at 5\n"
    limit = lambda: resource.setrlimit(resource.RLIMIT_DATA, (LITTLE, LITTLE))
    ended = subprocess.run([*TOOL, "bytes"], input=text, capture_output=True, preexec_fn=limit)
    good = (ended.returncode, ended.stdout, ended.stderr) == (0, HEAD_BYTES + TICK, b"")
    tally.add("64 MB of text in little memory", None if good else f"it ended with {ended}")


def test_mistakes(tally):
    """A mistake among the first events leaves nothing behind; a later one a trace that ends in a cut event."""
    early = HEAD.encode() + b"tick at 5\n" * 74_000 + b"tock\n"
    late = HEAD.encode() + b"tick at 5\n" * 76_000
    costly = b"arrival 0 1 at 5 cost 2\n"
    for name, text, output, said in (
        ("early", early, b"", "line 74004: no line begins with 'tock'"),
        ("late", late + b"tock\n", HEAD_BYTES + TICK * 76_000 + b"\0", "line 76004: no line begins with 'tock'"),
        ("late, behind a cut", late + b"raw 02\ntock\n", HEAD_BYTES + TICK * 76_000 + b"\2", "line 76005: no line"),
        ("a cost too late", late + costly, HEAD_BYTES + TICK * 76_000 + b"\0", "'cost' comes too late: begin the text"),
        ("late, in version 2", HEAD_2.encode() + late[len(HEAD) :] + b"tock\n", HEAD_2_BYTES + TICK * 76_000 + b"\0", "no line"),
        ("late, of raw lines", b"\n".join(raw_lines(76_000)) + b"\ntock\n", HEAD_BYTES + TICK * 76_000 + b"\0", "no line"),
    ):
        ended = subprocess.run([*TOOL, "bytes"], input=text, capture_output=True)
        good = (ended.returncode, ended.stdout) == (1, output) and said in ended.stderr.decode()
        good = good and ended.stderr.count(b"\n") == 1
        why = f"it ended with {ended.returncode}, {len(ended.stdout)} bytes and {ended.stderr}"
        tally.add(f"a mistake: {name}", None if good else why)


def raw_lines(ticks):
    return [b"raw " + HEAD_BYTES.hex().encode()] + [b"raw " + TICK.hex().encode()] * ticks


def test_failures(tally):
    """What cannot be read or written is said in a line."""
    for name, words, more in (
        ("nothing to read", "exec 0<&-", "Bad file descriptor"),
        ("nowhere to write", "exec >/dev/full", "No space left on device"),
    ):
        script = ["sh", "-c", f'{words}; exec "$@"', "sh", *TOOL, "bytes"]
        ended = subprocess.run(script, input=HEAD.encode(), capture_output=True)
        good = ended.returncode == 3 and ended.stderr.decode() == f"sgqtext.py: input or output failed: {more}\n"
        tally.add(name, None if good else f"it ended with {ended}")


def test_page(tally):
    """The bytes that samples/README.md shows are those of the example, in both versions."""
    page = (ROOT / "samples" / "README.md").read_text()
    shown = re.findall(r"^    ((?:[0-9a-f]{2} )+) +[a-z]", page, re.MULTILINE)
    text = (ROOT / "samples" / "example.txt").read_text()
    for version, lines in ((1, shown[:3]), (2, shown[3:])):
        trace = sgqtext.to_bytes(f"version {version}\n{text}")
        good = len(lines) == 3 and trace.startswith(bytes.fromhex("".join(lines)))
        tally.add(f"the bytes on the page, version {version}", None if good else f"the page has {lines}")


def tests(tally):
    seeds = Seeds(tally, sys.argv[1:])
    build_second()
    test_round_trips(tally, seeds)
    if seeds.alone:
        return
    test_page(tally)
    test_stream(tally)
    test_memory(tally)
    test_mistakes(tally)
    test_failures(tally)
    test_files(tally)
    test_refusals(tally)
    test_times(tally)
    test_versions(tally)
    test_commands(tally)


sys.exit(run_tests(tests))

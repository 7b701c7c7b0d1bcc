#!/usr/bin/env python3
"""Tests the lab and the pictures: the experiments on short runs, each run of one array recorded and held to decide, sheet and judge byte for byte; that
the checks notice what is wrong; docs/BEHAVIOUR.md; the page in a browser; and pictures of traces.

    python3 tests/lab.py [--mend | --fresh]     --mend writes the figures into docs/BEHAVIOUR.md, and docs/lot214.svg; --fresh plays random traces
                                                and a run on fresh seeds alone (kit.py), and nothing else

The browser is headless Chromium, where it is installed. The library is target/staticlib/libhost.a, which 'tools/build host' writes, and decide and sheet
stand in target/bin; the environment variable SGQ_LIB may name another archive. Ends with 'N passed, M failed'.
"""
import dataclasses
import pathlib
import re
import shutil
import subprocess
import sys
import tempfile

from kit import LIBRARY, ROOT, Seeds, Stop, build_second, need_library, random_trace, run_tests, sgqtext
from machine import before_linked, before_program, compiler, is_installed, say_how

LAB = ROOT / "lab"
sys.path[:0] = [str(LAB), str(LAB / "experiments")]
import check  # noqa: E402  (they stand in lab/)
import describe  # noqa: E402
import lab  # noqa: E402
import lanes  # noqa: E402
import ledger  # noqa: E402
import picture  # noqa: E402
import play  # noqa: E402
import sums  # noqa: E402

BIN = ROOT / "target" / "bin"
PAGE = ROOT / "docs" / "BEHAVIOUR.md"
DRAWN = ROOT / "docs" / "lot214.svg"
DAY = ROOT / "samples" / "lot214.txt"
WARNINGS = ["-Wall", "-Wextra", "-Wpedantic", "-Werror", "-Wshadow", "-Wconversion", "-Wcast-qual"]
SHORTER = 6
BROWSERS = ["chromium", "chromium-browser", "google-chrome"]
MOST_SECONDS = 900  # after which a browser is taken to hang
QUOTED = re.compile(
    r"(?<=^Figures of \[lab/experiments/)(\w+)(\.py\]\(\.\./lab/experiments/\w+\.py\), )([^\n]*\n\n)((?:\|[^\n]*\n)+)", re.M
)
KINDS = ["small", "small2", "waits", "waits2", "ties", "ties2", "cut2", "garbage2", "ceiling2", "jumps2"]
SEEDS = 12
# Paper's equation (1) for its example, by total; RD, OLTP and DM.
EXAMPLE = [
    (400, [200, 200, 0]),
    (500, [250, 250, 0]),
    (875, [250, 250, 375]),
    (1200, [250, 380, 570]),
    (1500, [250, 500, 750]),
    (2000, [1000 / 3, 2000 / 3, 1000]),
]
EXAMPLE += [(2500, [500, 1000, 1000])]
# What the simulator says of a text that is none.
WRONG = {
    "guest 1 2\n": "'guest 1 2' is no line of a run",
    "gate nobody\nuntil 5\nevery 5\nguest 0 0 1 0 1 1000\n": "there is no gate 'nobody'",
    "until 5\nevery 5\n": "a run without a length, an interval or guests",
    "until 5\nevery 5\nguest 9 8 1 0 1 1000\n": "the gate does not open: a setting is out of range",
    "until 5\nevery 5\nguest 0 0 1 0 1 1000\nclosed 0 1 0 5 2\n": "a load of no array",
    "until 5000000\nevery 5000000\nguest 0 0 1 0 1 1000\nclosed 0 1 0 5000000 1\n": "array 0 has no speed",
    "arrays 2\ntrace nowhere/x\nuntil 5\nevery 5\nguest 0 0 1 0 1 1000\n": "nowhere/x cannot be written",
}


def hold(tally, name, good, why="it does not"):
    tally.add(name, None if good else why)


def build(folder):
    """The simulator by each compiler, and the program of files/."""
    made = {}
    for name, sources in (("gcc", "lab/sim"), ("clang", "lab/sim"), ("files", "files")):
        by = name if name != "files" else "cc"
        if not is_installed(by):
            continue
        made[name] = folder / f"{name}.made"
        words = [
            *compiler(by),
            "-std=c99",
            "-O2",
            *WARNINGS,
            f"-I{ROOT / 'include'}",
            *sorted((ROOT / sources).glob("*.c")),
            LIBRARY,
            "-o",
            made[name],
        ]
        ended = subprocess.run([str(word) for word in words], capture_output=True, text=True)
        if ended.returncode != 0:
            raise Stop(f"{sources}/ was not built by {by}\n{ended.stderr[-2000:]}")
    return made


def programs_from(made):
    for program in ("decide", "sheet"):
        if not (BIN / program).is_file():
            raise Stop(f"there is no target/bin/{program}: 'tools/build {program}' writes it")
    linked = before_linked()
    first = made.get("gcc") or made.get("clang")
    return play.Programs(
        [*linked, str(first)],
        [*before_program(), str(BIN / "decide")],
        [*before_program(), str(BIN / "sheet")],
        [*linked, str(made["files"])],
    )


# The simulator.


def test_wrong_runs(tally, programs):
    for given, said in WRONG.items():
        ended = subprocess.run(programs.sim, input=given, capture_output=True, text=True)
        good = ended.returncode == 1 and ended.stderr.startswith(f"lab: {said}") and ended.stderr.count("\n") == 1
        hold(tally, f"a run that is none: {said}", good, f"it ended with {ended}")


def test_compilers(tally, programs, made):
    """Two compilers give the same figures."""
    if len([name for name in ("gcc", "clang") if name in made]) < 2:
        print("clang or gcc is not installed: the simulator was not compared between them")
        return
    run = lab.experiments(["figure07"])[0].runs[0]
    text = play.text_of(run, "library", SHORTER).encode()
    printed = [play.run_program([*before_linked(), str(made[name])], text) for name in ("gcc", "clang")]
    hold(tally, "gcc and clang", printed[0] == printed[1], "their figures differ")


def test_loads(tally, programs):
    """A guest that changes its rate, pauses and comes back; one that keeps some under way; bursts; and what the array does in a second."""
    rate, seconds, more = (describe.assumed(number, "tried") for number in (100, 30, 300))
    pause, back, burst, period = (describe.assumed(number, "tried") for number in (10, 20, 40, 2))
    own = describe.assumed(1, "tried")
    guests = [
        describe.Guest("open", own, [describe.steady(rate, until=pause), describe.steady(more, since=back)]),
        describe.Guest("burst", own, [describe.burst(burst, period, since=pause)]),
        describe.Guest("closed", own, [describe.closed()]),
    ]
    played = play.play(
        programs, describe.Run("loads", guests, describe.assumed(1000, "tried"), seconds, scaled=False), "library", 1
    )
    arrived = [[cell.arrived for cell in cells] for cells in played.cells]
    hold(
        tally,
        "an open load",
        all(abs(sum(arrived[0][a:b]) / 10 - n) < 0.1 * n + 1 for a, b, n in ((0, 10, 100), (10, 20, 0), (20, 30, 300))),
    )
    hold(tally, "a burst", arrived[1] == [0] * 10 + [40, 0] * 10, arrived[1])
    total = played.measure("rate", None, (5, 30))
    hold(tally, "what the array does", abs(total - 1000) < 10, f"it does {total}")
    under_way = 32 + sum(cell.completed - cell.arrived for cell in played.cells[2])
    hold(tally, "a closed load", 0 <= under_way <= 32, f"{under_way} are not under way")


def lines_of(programs, run, gate, folder, seed=play.SEED):
    """What a gate answers in a run, in the lines of decide."""
    path = pathlib.Path(folder) / f"lines.{gate}"
    play.run_program(programs.sim, f"{play.text_of(run, gate, SHORTER, seed=seed)}lines {path}\n".encode())
    return path.read_bytes()


def modelled():
    """The runs that the plain model is held to the library in."""
    for one in lab.experiments(["figure03", "figure05", "figure06", "figure07", "table04", "figure08", "rules", "costs"]):
        yield from [run for run in one.runs if run.arrays.number == 1][-2:]


def test_model(tally, programs, folder):
    """The plain model with K3 in it decides as the library; so what it does without K3 differs by that line alone."""
    for run in modelled():
        same = lines_of(programs, run, "library", folder) == lines_of(programs, run, "after-k3", folder)
        hold(tally, f"the model of {run.name}", same, "the library decides otherwise")


def test_fresh_run(tally, programs, folder, seed):
    """One of these runs on another seed, which also chooses it. Figures are held to the paper's on the fixed seed alone; on any seed decide,
    sheet and judge agree with what is recorded, and the model decides as the library."""
    runs = list(modelled())
    run = runs[seed % len(runs)]
    files = [folder / name for name in ("fresh.trace", "fresh.lines", "fresh.sheet")]
    text = play.text_of(run, "library", SHORTER, seed=seed) + "".join(f"{path.suffix[1:]} {path}\n" for path in files)
    why = None
    try:
        play.run_program(programs.sim, text.encode())
        play.follow_chain(programs, *files)
        if files[1].read_bytes() != lines_of(programs, run, "after-k3", folder, seed):
            why = "the plain model decides otherwise than the library"
    except play.Failed as failed:
        why = failed
    tally.add(f"a run of {run.name}, seed {seed}", why)


# The experiments.


def test_experiments(tally, chosen, results):
    for one in chosen:
        for verdict in lab.judge(one, results):
            tally.add(f"{one.name}, {verdict.says}", verdict.why or None)
    chains = [played.chain for played in results.values() if played.chain]
    print(f"decide, sheet and judge agree on {sum(chains):,} events of {len(chains)} runs", flush=True)
    hold(tally, "runs through the chain", len(chains) > 40, f"only {len(chains)}")


def numbers_in(value, where):
    """Every number that is no Value in a part of a run."""
    if isinstance(value, describe.Value):
        return [where] if value.origin not in ("stated", "fitted", "assumed") or not value.why else []
    if dataclasses.is_dataclass(value):
        known = ("rule", "scaled") if isinstance(value, describe.Run) else ("arrays",)
        return [
            found
            for field in dataclasses.fields(value)
            if field.name not in known
            for found in numbers_in(getattr(value, field.name), f"{where}.{field.name}")
        ]
    if isinstance(value, (list, tuple)):
        return [found for place, one in enumerate(value) for found in numbers_in(one, f"{where}.{place}")]
    return [where] if isinstance(value, (int, float)) else []


def test_marks(tally, chosen):
    """Every number of a run is stated, fitted or assumed, and says why."""
    for run in [run for one in chosen for run in one.runs]:
        bare = numbers_in(run, run.name)
        hold(tally, f"marks of {run.name}", not bare, f"no mark: {bare}")


def test_equation(tally):
    settings = [(250, 0, 100), (250, 0, 200), (0, 1000, 300)]
    for total, expected in EXAMPLE:
        found = check.equation(settings, total)
        good = all(abs(one - other) < 0.01 for one, other in zip(found, expected))
        hold(tally, f"equation (1) at {total}", good, f"it gives {found}")


def test_notices(tally, programs, results):
    """The checks notice what is wrong: a record that was changed, a limit and a reservation that are not kept, a number that is not the paper's."""
    one = lab.experiments(["figure05"])[0]
    run = one.runs[0]
    with tempfile.TemporaryDirectory() as folder:
        files = [pathlib.Path(folder) / name for name in ("trace", "lines", "sheet")]
        play.run_program(
            programs.sim, (play.text_of(run, "library", 60) + "".join(f"{path.name} {path}\n" for path in files)).encode()
        )
        hold(tally, "a record as it is", play.follow_chain(programs, *files) > 1000)
        for path in files[1:]:
            whole = path.read_bytes()
            path.write_bytes(whole[:-2] + b"9\n")
            hold(tally, f"a {path.name} that was changed", fails(play.follow_chain, programs, *files), "nobody notices")
            path.write_bytes(whole)
    free = results[run.name, "sfq"]
    hold(tally, "a limit that is not kept", any("its limit" in words for words in check.judge_seconds(free)), "nobody notices")
    six = lab.experiments(["figure06"])[0].runs[0]
    hold(
        tally,
        "a reservation that is not kept",
        any("its reservation" in words for words in check.judge_seconds(results[six.name, "sfq"])),
        "nobody notices",
    )
    row = dataclasses.replace(one.rows[0], paper=390, equation=False, others={})
    hold(
        tally, "a number that is not the paper's", any(verdict.why for verdict in check.judge_row(row, results)), "nobody notices"
    )


def fails(function, *words):
    try:
        function(*words)
    except play.Failed:
        return True
    return False


# docs/BEHAVIOUR.md.


def markdown(experiment, results):
    """What a claim's figures are of, and its table as Markdown."""
    caption, heading, lines = experiment.table(results)
    rows = [heading, ["---:"] * len(heading), *lines]
    return caption, "".join("| " + " | ".join(row) + " |\n" for row in rows)


def test_behaviour(tally, chosen, results, mend):
    """Every claim's table stands in the page once, as it is measured."""
    claims = {one.name: markdown(one, results) for one in chosen if one.table}
    if mend:
        text = PAGE.read_text()

        def mended(found):
            caption, table = claims.get(found.group(1), ("", found.group(4)))
            return f"{found.group(1)}{found.group(2)}{caption}:\n\n{table}"

        PAGE.write_text(QUOTED.sub(mended, text))
    quoted = [(found.group(1), found.group(3), found.group(4)) for found in QUOTED.finditer(PAGE.read_text())]
    for name, (caption, table) in claims.items():
        right = [one for one in quoted if one == (name, f"{caption}:\n\n", table)]
        hold(
            tally,
            f"docs/BEHAVIOUR.md, {name}",
            len(right) == 1 and len([one for one in quoted if one[0] == name]) == 1,
            f"it is measured (--mend):\n{caption}\n{table}",
        )
    for name, _, _ in quoted:
        hold(tally, f"docs/BEHAVIOUR.md has figures of {name}", name in claims, "nobody measures them")


# The page, and pictures.


def plots_in(text):
    return re.findall(r"data-plot='([^']*)'", text)


def test_page(tally, chosen, results, folder):
    """The page has every experiment and plot, and fetches nothing."""
    judged = {one.name: lab.judge(one, results) for one in chosen}
    lab.write_files(folder / "out", chosen, results, judged, SHORTER)
    text = (folder / "out" / "index.html").read_text()
    for one in chosen:
        count = sum(map(len, one.plots)) + (len(list(one.charts(results))) if one.charts else 0)
        hold(tally, f"the page has {one.name}", f"<section id='{one.name}'>" in text and count > 0)
        for place in range(1, count + 1):
            there = f"{one.name}-{place}" in plots_in(text) and (folder / "out" / f"{one.name}-{place}.svg").is_file()
            hold(tally, f"the plot {one.name}-{place}", there, "it is not in the page, or beside it")
    fetched = re.findall(r"(?:src|href)=['\"](?!#)[^'\"]*|url\([^)]*|@import", text)
    hold(tally, "the page stands by itself", not fetched, f"it fetches {fetched}")
    csv = [path.read_text().count("\n") for path in (folder / "out").glob("*.csv")]
    hold(tally, "a CSV for each run", len(csv) == len(results) and min(csv) > 5, f"{len(csv)} for {len(results)} runs")
    return folder / "out" / "index.html"


# A browser is asked what it has drawn: of each plot, how wide and high it stands, and what its lines span.
PROBE = """<script>window.addEventListener('load', () => {
const seen = [...document.querySelectorAll('svg[data-plot]')].map(svg => {
  const box = svg.getBoundingClientRect(), lines = [...svg.querySelectorAll('path, circle, rect')].map(one => one.getBBox());
  return svg.dataset.plot + ' ' + Math.round(box.width) + ' ' + Math.round(box.height) + ' ' + Math.round(Math.max(0, ...lines.slice(1).map(one => one.x + one.width)));
});
const words = document.createElement('pre'); words.id = 'seen'; words.textContent = '\\n' + seen.join('\\n') + '\\n'; document.body.append(words); });</script>"""


def test_browser(tally, name, path, folder, least):
    """A real browser loads a page, draws each plot, and takes a picture of it."""
    browser = next((shutil.which(browser) for browser in BROWSERS if shutil.which(browser)), None)
    if not browser:
        print(f"Chromium is not installed: {name} was not looked at in a browser (skipped)", flush=True)
        return
    text = path.read_text()
    probed, shot = folder / "probed.html", folder / f"{path.stem}.png"
    probed.write_text(text.replace("</body>", PROBE + "</body>"))
    words = [
        browser,
        "--headless",
        "--no-sandbox",
        "--disable-gpu",
        f"--user-data-dir={folder / 'browser'}",
        "--window-size=1280,2000",
        "--virtual-time-budget=10000",
    ]
    dumped = subprocess.run([*words, "--dump-dom", probed.as_uri()], capture_output=True, text=True, timeout=MOST_SECONDS)
    seen = re.search(r'<pre id="seen">\n(.*?)</pre>', dumped.stdout, re.S)
    rows = dict((row.split(" ", 1)) for row in seen.group(1).strip().split("\n")) if seen else {}
    wanted = plots_in(text)
    hold(tally, f"{name} in a browser", seen is not None and len(wanted) >= least, dumped.stderr[-500:])
    for plot in wanted:
        wide, high, span = map(int, rows.get(plot, "0 0 0").split())
        hold(
            tally,
            f"{plot} in a browser",
            wide > 150 and high > 80 and span > 50,
            f"it is {wide} by {high}, and its lines end at {span}",
        )
    subprocess.run([*words, f"--screenshot={shot}", path.as_uri()], capture_output=True, timeout=MOST_SECONDS)
    hold(
        tally,
        f"a picture of {name}",
        shot.is_file() and shot.stat().st_size > 20_000 and shot.read_bytes()[:8] == b"\x89PNG\r\n\x1a\n",
        "there is none",
    )


def draw(programs, trace, folder, title="a trace", svg=False):
    """The picture of a trace, through decide."""
    lines = folder / "drawn.lines"
    lines.write_bytes(play.run_program(programs.decide, trace))
    return picture.picture(trace, lines, title, svg)


class Sheet(ledger.Listener):
    """The sheet of a trace as the picture's own count has it."""

    def __init__(self, header):
        self.figures = picture.Figures(header)

    def arrives(self, request):
        self.figures.arrives(request)

    def goes(self, request):
        self.figures.goes(request)

    def ends(self, request):
        self.figures.ends(request)

    def lines(self):
        for guest, row in enumerate(self.figures.rows):
            sent = row["R"] + row["W"]
            yield [
                guest,
                row["arrivals"],
                row["done"],
                row["R"],
                row["W"],
                row["longest"],
                row["wait"],
                row["arrivals"] - sent,
                sent - row["done"],
            ]


def test_ledger(tally, programs, folder, seeds):
    """What the pictures count of a trace is what sheet prints, but for the sends ahead of a limit."""
    for kind in KINDS:
        for seed in seeds.of(SEEDS):
            trace = random_trace(kind, seed)
            printed = play.run_program(programs.sheet, trace).decode()
            if printed.startswith("trace refused"):
                continue
            header, lines = ledger.read_header(trace), folder / "ledger.lines"
            lines.write_bytes(play.run_program(programs.decide, trace))
            sheet = Sheet(header)
            picture.follow(trace, header, lines, sheet)
            rows = [[int(word) for word in row.split()] for row in printed.splitlines()]
            expected = [[*row[:5], row[6], (row[7] << 64) + row[8], *row[9:]] for row in rows]
            hold(
                tally,
                f"the count of {kind} seed {seed}",
                list(sheet.lines()) == expected,
                f"{list(sheet.lines())}, and sheet has {expected}",
            )
            page = picture.picture(trace, lines, "a trace")
            hold(tally, f"the picture of {kind} seed {seed}", page.startswith("<!doctype html>") and "data-plot=" in page)


def test_day(tally, programs, folder, mend):
    """The README's picture of lot 214 is what is drawn; and its page has every request."""
    trace = sgqtext.to_bytes(DAY.read_text())
    svg = draw(programs, trace, folder, svg=True)
    if mend:
        DRAWN.write_text(svg)
    hold(tally, "docs/lot214.svg", DRAWN.is_file() and DRAWN.read_text() == svg, "it is not what is drawn (--mend)")
    hold(tally, "the README shows it", "](docs/lot214.svg)" in (ROOT / "README.md").read_text())
    page = draw(programs, trace, folder, "the day of lot 214")
    hold(tally, "every request of the day", page.count("<title>guest ") == 54, f"{page.count('<title>guest ')} of 54")
    bid = "guest 0, id 21402: arrives at 7,200.004 s, goes by reservation at 7,200.008 s after 4 ms, before 25 that came earlier: 25 of guest 2; done at 7,200.011 s"
    hold(tally, "the bid of lot 214", bid in page, "it is not told so")
    path = folder / "day.html"
    path.write_text(page)
    return path


def test_sums(tally, programs, folder):
    """A trace of too many requests is summed up: every send stands in one interval, and the array's time is all there."""
    run = lab.experiments(["figure06"])[0].runs[0]
    paths = [folder / name for name in ("trace", "lines")]
    play.run_program(
        programs.sim, (play.text_of(run, "library", SHORTER) + "".join(f"{path.name} {path}\n" for path in paths)).encode()
    )
    trace = paths[0].read_bytes()
    header, stretches = ledger.read_header(trace), ledger.Stretches()
    picture.follow(trace, header, paths[1], stretches)
    found = sums.Sums(header, stretches.all())
    picture.follow(trace, header, paths[1], found)
    lines = paths[1].read_bytes()
    for phase in lanes.PHASES:
        counted = sum(map(sum, found.sends[phase]))
        hold(tally, f"all sends by {phase} are summed up", counted == lines.count(f" {phase} ".encode()), f"{counted}")
    whole = stretches.last - stretches.all()[0][0]
    hold(
        tally,
        "the array's time",
        abs(sum(found.length) - whole) <= len(found.length) and max(found.full) <= max(found.length),
        f"{sum(found.length)} of {whole}",
    )
    page = folder / "sums.html"
    page.write_text(picture.picture(trace, paths[1], "many"))
    hold(tally, "no one drawing of many", picture.picture(trace, paths[1], "many", svg=True) is None)
    return page


def test_stretches(tally):
    """Gaps are left out where they are long beside what stands around them, and never too many are kept."""
    far = [(0, 10), (12, 20), (1000, 1010)]
    hold(tally, "stretches", ledger.joined(far) == [(0, 20), (1000, 1010)], ledger.joined(far))
    many = [(1000 * place, 1000 * place + 1) for place in range(100)] + [(10**9, 10**9 + 1)]
    found = ledger.merged(many, 3)
    hold(tally, "stretches of many", len(found) == 3 and found[0][0] == 0 and found[-1] == many[-1], found)


def tests(tally):
    words = sys.argv[1:]
    if words not in ([], ["--mend"], ["--fresh"]):
        raise Stop("tests/lab.py takes no word but --mend or --fresh")
    mend = words == ["--mend"]
    seeds = Seeds(tally, [] if mend else words)
    need_library()
    build_second()
    say_how(linked=True)
    with tempfile.TemporaryDirectory() as name:
        folder = pathlib.Path(name)
        made = build(folder)
        programs = programs_from(made)
        test_fresh_run(tally, programs, folder, seeds.fresh)
        test_ledger(tally, programs, folder, seeds)
        if seeds.alone:
            return
        chosen = lab.experiments([])
        test_wrong_runs(tally, programs)
        test_compilers(tally, programs, made)
        test_loads(tally, programs)
        test_model(tally, programs, folder)
        test_equation(tally)
        test_marks(tally, chosen)
        results = lab.play_all(programs, chosen, SHORTER)
        test_experiments(tally, chosen, results)
        test_notices(tally, programs, results)
        test_behaviour(tally, chosen, results, mend)
        test_stretches(tally)
        pages = [("the lab's page", test_page(tally, chosen, results, folder), 40)]
        pages += [
            ("the day of lot 214", test_day(tally, programs, folder, mend), 1),
            ("a trace of many", test_sums(tally, programs, folder), 10),
        ]
        for title, path, least in pages:
            test_browser(tally, title, path, folder, least)


def tests_told(tally):
    """A program that ends otherwise than it should is a failure like any other: it is counted, and the seed told with it."""
    try:
        tests(tally)
    except play.Failed as why:
        raise Stop(why) from why


sys.exit(run_tests(tests_told))

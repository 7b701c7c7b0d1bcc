#!/usr/bin/env python3
"""Holds docs/HOSTS.md to examples/: its figures to what examples/figures prints, its C and its table of costs to the sources there;
and what the README says of several arrays to those figures.

    python3 tests/figures.py [--mend]     --mend writes the figures that are printed into the page

Figures stand in a block below a line 'Figures `NAME`:', each part that is printed once. The library is
target/staticlib/libhost.a, which 'tools/build host' writes; the environment variable SGQ_LIB may name another archive.
Ends with 'N passed, M failed'.
"""
import concurrent.futures
import pathlib
import re
import subprocess
import sys
import tempfile

from kit import CORES, LIBRARY, ROOT, Stop, need_library, run_tests
from machine import before_linked, compiler, is_installed, say_how

EXAMPLES = ROOT / "examples"
PAGE = ROOT / "docs" / "HOSTS.md"
README = ROOT / "README.md"
WARNINGS = ["-Wall", "-Wextra", "-Wpedantic", "-Werror", "-Wshadow", "-Wconversion", "-Wcast-qual"]
QUOTED = re.compile(r"^(Figures `(\w+)`:\n\n```\n)(.*?)^```$", re.MULTILINE | re.DOTALL)
CODE = re.compile(r"^```c\n(.*?)^```$", re.MULTILINE | re.DOTALL)


def printed(name):
    """What the figures' program prints, by part, where that compiler builds it."""
    with tempfile.TemporaryDirectory() as folder:
        program = pathlib.Path(folder) / "figures"
        sources = sorted((EXAMPLES / "figures").glob("*.c"))
        words = [*compiler(name), "-std=c99", "-O2", *WARNINGS, f"-I{ROOT / 'include'}", *sources, LIBRARY, "-o", program]
        for step in (words, [*before_linked(), program]):
            ended = subprocess.run(step, capture_output=True, text=True)
            if ended.returncode != 0:
                raise Stop(f"{step[0]} ended with status {ended.returncode}\n{ended.stdout}{ended.stderr}")
    return dict(re.findall(r"^== (\w+)\n(.*?)(?=^== |\Z)", ended.stdout, re.MULTILINE | re.DOTALL))


def mend(figures):
    text = PAGE.read_text()
    PAGE.write_text(QUOTED.sub(lambda block: f"{block.group(1)}{figures.get(block.group(2), '')}```", text))


def test_figures(tally, figures):
    """Each part stands in the page once, as it is printed."""
    quoted = [(name, text) for _, name, text in QUOTED.findall(PAGE.read_text())]
    for name, text in figures.items():
        found = [other for other_name, other in quoted if other_name == name]
        why = None if found == [text] else f"docs/HOSTS.md has {len(found)} of it, or it prints (--mend):\n{text}"
        tally.add(f"figures {name}", why)
    for name, _ in quoted:
        tally.add(f"figures {name} in docs/HOSTS.md", None if name in figures else "nothing prints them")


def test_code(tally):
    sources = [path.read_text() for path in sorted(EXAMPLES.rglob("*.c"))]
    for code in CODE.findall(PAGE.read_text()):
        there = any(f"\n{code}" in source for source in sources)
        tally.add(f"'{code.splitlines()[0]}'", None if there else "it does not stand so in examples/")


def rows_of(name, source):
    """The rows of a table of numbers in C; its sizes have names."""
    sizes = dict(re.findall(r"\b([A-Z]+) = (\d+)", re.search(r"enum \{ (BID = .*) \};", source).group(1)))
    rows = re.search(rf" {name}\[\] = \{{(.*)\}};", source).group(1)
    return [[int(sizes.get(word, word)) for word in row.split(", ")] for row in re.findall(r"\{(.*?)\}", rows)]


def test_costs(tally):
    """The page's table of costs is the one of examples/host.c, with what its array takes."""
    source = (EXAMPLES / "host.c").read_text()
    expected = []
    for (kib, cost), (size, least, more) in zip(rows_of("prices", source), rows_of("service", source)):
        expected.append((f"{kib:,}", f"{least} to {least + more}", str(cost)) if kib == size else "rows of two sizes")
    found = re.findall(r"^\| ([\d,]+) \| [a-z ]+ \| (\d+ to \d+) \| (\d+) \|$", PAGE.read_text(), re.MULTILINE)
    tally.add("the table of costs", None if found == expected and found else f"docs/HOSTS.md has {found}, the example {expected}")


def test_readme(tally, figures):
    """What the README says of a guest that is spread over four arrays."""
    counted, apart = re.search(r"^200 reserved +4 +200 +(\d+) +(\d+)", figures["arrays"], re.MULTILINE).groups()
    told = f"200 a second reserved that asks at four arrays gets {counted} in all; at four gates that know nothing of each other it gets {apart}."
    tally.add("several arrays in the README", None if told in " ".join(README.read_text().split()) else f"it does not say '{told}'")


def tests(tally):
    words = sys.argv[1:]
    if words not in ([], ["--mend"]):
        raise Stop("tests/figures.py takes no word but --mend")
    need_library()
    found = [name for name in ("gcc", "clang") if is_installed(name)]
    if not found:
        raise Stop("there is no compiler for C: install gcc or clang")
    say_how(linked=True)
    with concurrent.futures.ThreadPoolExecutor(CORES) as pool:
        figures, *others = pool.map(printed, found)
    if words:
        mend(figures)
    for name, other in zip(found[1:], others):
        tally.add(f"figures, {name}", None if other == figures else "they are not the same")
    test_figures(tally, figures)
    test_code(tally)
    test_costs(tally)
    test_readme(tally, figures)


sys.exit(run_tests(tests))

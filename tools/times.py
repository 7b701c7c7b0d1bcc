#!/usr/bin/env python3
"""What the gate did and how long it took: from what rt printed to a table, and to the README.

    python3 tools/times.py LOG SECONDS    LOG is what 'rt ci' printed, SECONDS what all of .ci/run took. Writes target/times.txt, with a
                                          line for each crate and each must-fail edit and one for the whole, and prints a table of it
    python3 tools/times.py --mend         takes the README's minutes of the whole from target/times.txt

.ci/run does the first at its end. rt says of no crate how long it took, so the table has which crates were proved in this run and which an earlier
one on this machine had proved, and the README's column 'Check' keeps the seconds of the kit that said so. Nothing is held to an earlier time.
"""
import pathlib
import re
import sys

ROOT = pathlib.Path(__file__).resolve().parent.parent
TIMES = ROOT / "target" / "times.txt"
README = ROOT / "README.md"
CRATE = re.compile(r"^rt: (\w+) (proved|is kept|NOT PROVED)\b", re.M)
TESTS = re.compile(r"^rt: (\w+): its tests are (proved|NOT PROVED)$", re.M)
EDIT = re.compile(r"^rt: must-fail (\w+)/(\S+): (refused|BAD EDIT|NOT REFUSED|NOT TRIED)", re.M)


def table(crates, tests, edits):
    """The lines of the table: of each crate whether it was proved in this run, its tests, and what its edits came to."""
    yield f"{'crate':<10} {'check':<10} {'tests':<10} {'refused':>7} {'other':>5}"
    for crate, came in crates.items():
        own = [to for name, _, to in edits if name == crate]
        refused = own.count("refused")
        yield f"{crate:<10} {came:<10} {tests.get(crate, ''):<10} {refused:>7} {len(own) - refused:>5}".rstrip()


def take(log, whole):
    text = pathlib.Path(log).read_text()
    crates, tests, edits = dict(CRATE.findall(text)), dict(TESTS.findall(text)), EDIT.findall(text)
    if not crates:
        print(f"{log} has no line that says what became of a crate")
        return 1
    lines = [f"crate {name} {came}" for name, came in crates.items()]
    lines += [f"edit {name}/{label} {to}" for name, label, to in edits]
    TIMES.parent.mkdir(exist_ok=True)
    TIMES.write_text("\n".join([*lines, f"whole {whole}", ""]))
    print("\n".join(table(crates, tests, edits)))
    new = sum(came != "is kept" for came in crates.values())
    print(f"{new} of {len(crates)} crates were proved in this run; the whole took {whole} s")
    return 0


def mend():
    """Writes the minutes into the README, where all was proved in the run; else says why not."""
    if not TIMES.is_file():
        print("there is no target/times.txt: .ci/run writes it")
        return 1
    lines = [line.split(maxsplit=2) for line in TIMES.read_text().splitlines()]
    if any(line[0] == "crate" and line[2] != "proved" for line in lines):
        print("not every crate was proved in that run: 'rt ci --anew' proves all")
        return 1
    whole = next(int(line[1]) for line in lines if line[0] == "whole")
    text, found = re.subn(r"(takes some) \S+ (minutes on two cores)", rf"\g<1> {round(whole / 60)} \g<2>", README.read_text())
    if found != 1:
        print("the README has no one place for the minutes")
        return 1
    README.write_text(text)
    return 0


def main():
    words = sys.argv[1:]
    if words == ["--mend"]:
        return mend()
    if len(words) == 2 and words[1].isdigit():
        return take(*words)
    print(__doc__.strip())
    return 2


sys.exit(main())

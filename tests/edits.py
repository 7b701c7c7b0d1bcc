#!/usr/bin/env python3
"""Wrong versions beside those that each crate has in must-fail/: each shows of a leaf or of a face what another shows nearby.

    python3 tests/edits.py              tries every one, which takes as long as the gate's own: the checker has to refuse it
    python3 tests/edits.py NAME ..      tries those of these crates
    python3 tests/edits.py --fit        only looks that each is still of the code: what it replaces stands there once

They are in edits/CRATE/. A try begins with what `rt check` kept of the crate, so run that first. The gate (.ci/run) does the last; a change of
a crate that has some should do the second. Ends with 'N passed, M failed'.
"""
import pathlib
import re
import shutil
import subprocess
import sys
import tempfile

from machine import ROOT, Stop

MORE = pathlib.Path(__file__).resolve().parent / "edits"
CRATES = ROOT / "crates"
PART = re.compile(r"^file: (.+?)\n(.*?)(?=^file: |\Z)", re.M | re.S)
CHANGE = re.compile(r"^old: ?(.*?)\nnew: ?.*?(?=\nold: |\Z)", re.M | re.S)
REFUSED = re.compile(r"^rt: must-fail \S+: refused, as it must be", re.M)


def misfit(crate, edit):
    """Why an edit is of no use as the code stands, or None."""
    changes = 0
    for name, rest in PART.findall(edit.read_text()):
        path = CRATES / crate / name.strip()
        code = path.read_text() if path.is_file() else ""
        for old in CHANGE.findall(rest):
            changes += 1
            if code.count(old.strip("\n")) != 1:
                return f"'{old.strip()[:60]}' stands {code.count(old.strip(chr(10)))} times in {name.strip()}"
    return None if changes else "it changes nothing"


def fit():
    failed = 0
    edits = sorted(MORE.glob("*/*.edit"))
    for edit in edits:
        why = misfit(edit.parent.name, edit)
        if why is not None:
            failed += 1
            print(f"FAILED edits/{edit.parent.name}/{edit.name}: {why}")
    return len(edits) - failed, failed


def below(names):
    """These crates and those that they stand on, by crates.txt."""
    stands = {}
    for line in (ROOT / "crates.txt").read_text().splitlines():
        if ":" in line.partition("#")[0]:
            name, _, on = line.partition("#")[0].partition(":")
            stands[name.split()[0]] = on.split()
    found, ahead = set(), list(names)
    while ahead:
        name = ahead.pop()
        if name in stands and name not in found:
            found.add(name)
            ahead += stands[name]
    return found


def copy_with(edits, folder):
    """The crates, what rt check kept of those that are needed, and these edits in the place of their own."""
    needed = below(edit.parent.name for edit in edits)

    def left(path, names):
        path = pathlib.Path(path)
        return [name for name in names if name == "must-fail" or name == "out" and path.parent == CRATES and path.name not in needed]

    shutil.copy(ROOT / "crates.txt", folder)
    shutil.copytree(CRATES, folder / "crates", ignore=left)
    for edit in edits:
        own = folder / "crates" / edit.parent.name / "must-fail"
        own.mkdir(exist_ok=True)
        shutil.copy(edit, own)


def attempt(names):
    for name in names:
        if not (MORE / name).is_dir():
            raise Stop(f"there are no edits of '{name}': edits/ has those of {', '.join(sorted(path.name for path in MORE.iterdir()))}")
    edits = sorted(edit for edit in MORE.glob("*/*.edit") if not names or edit.parent.name in names)
    with tempfile.TemporaryDirectory() as name:
        folder = pathlib.Path(name)
        copy_with(edits, folder)
        crates = sorted({edit.parent.name for edit in edits})
        print(f"trying {len(edits)} edits of {len(crates)} crates", flush=True)
        ended = subprocess.Popen(["rt", "must-fail", *crates], cwd=folder, stdout=subprocess.PIPE, stderr=subprocess.STDOUT, text=True)
        refused = 0
        for line in ended.stdout:
            refused += REFUSED.match(line) is not None
            print(line, end="", flush=True)
        ended.wait()
    return refused, len(edits) - refused


def main(words):
    try:
        passed, failed = fit() if words == ["--fit"] else attempt(words)
    except Stop as why:
        print(f"edits: {why}", file=sys.stderr)
        return 2
    print(f"{passed} passed, {failed} failed")
    return int(failed > 0 or passed == 0)


if __name__ == "__main__":
    sys.exit(main(sys.argv[1:]))

#!/usr/bin/env python3
"""Plays the experiments of lab/experiments and writes CSV, SVG and one page, index.html, into a folder; './sgq lab' calls it.

    lab.py [--short N] [--out FOLDER] [--sim PROGRAM] [--decide PROGRAM --sheet PROGRAM --files PROGRAM] [--tools FOLDER] [NAME ..]

--short N divides the times of the paper's experiments by N. Without --decide no run is recorded. --tools is where the emulator is, on a
machine that is not x86-64. NAME is an experiment, as figure05; without one it is all. The status is 1 where a check does not hold.
"""
import argparse
import concurrent.futures
import importlib
import os
import pathlib
import sys
import time

HERE = pathlib.Path(__file__).resolve().parent
sys.path[:0] = [str(HERE), str(HERE / "experiments")]

import check  # noqa: E402  (they stand beside this)
import page  # noqa: E402
import play  # noqa: E402

PAPER = ["figure03", "figure04", "figure05", "figure06", "figure07", "table04", "table05", "figure08", "figure09", "figure10"]
CLAIMS = ["shares", "returning", "credit", "held", "arrays", "costs", "rules"]


def experiments(names):
    return [importlib.import_module(name).EXPERIMENT for name in names or PAPER + CLAIMS]


def is_bound(run):
    return any(guest.reservation or guest.limit for guest in run.guests)


def has_both(run):
    return any(guest.reservation and guest.limit for guest in run.guests)


def plays(chosen):
    """Every run at every gate, once; those of the paper under rule 2 too, where reservations or limits are and no guest has both; and
    those of several arrays with the simulator's own count."""
    found = {}
    for run in (run for one in chosen for run in one.runs):
        for gate in run.gates:
            found[run.name, gate] = (run, gate, None)
        if run.scaled and run.ours() == "library" and is_bound(run) and not has_both(run):
            found[run.name, "rule 2"] = (run, "library", 2)
        if run.ours() == "arrays":
            found[run.name, "counted"] = (run, "counted", None)
    return found


def play_all(programs, chosen, shorter):
    """The results of all runs, as many at once as there are cores."""

    def one(words):
        run, gate, rule = words
        return play.play(programs, run, gate, shorter, rule)

    wanted = plays(chosen)
    with concurrent.futures.ThreadPoolExecutor(os.cpu_count() or 1) as pool:
        return dict(zip(wanted, pool.map(one, wanted.values())))


def same_as(results, run, other, says):
    """That a run gives the same figures another way."""
    ours = results[run.name, run.ours()].printed
    return check.Verdict(f"{run.name}: {says}", "" if results[run.name, other].printed == ours else "the figures differ")


def judge(experiment, results):
    """All verdicts on an experiment: its rows, every second, the other rule, the count of several arrays, the chain."""
    found = check.judge(experiment, results)
    for run in experiment.runs:
        if (run.name, "rule 2") in results:
            found.append(
                same_as(results, run, "rule 2", "rule 2 decides the same, for no guest has both a reservation and a limit")
            )
        if (run.name, "counted") in results:
            found.append(same_as(results, run, "counted", "delta and rho counted by the simulator give the same"))
        if results[run.name, run.ours()].chain:
            found.append(
                check.Verdict(f"{run.name}: decide, sheet and judge agree on {results[run.name, run.ours()].chain:,} events")
            )
    return found


def write_files(folder, chosen, results, judged, shorter):
    folder.mkdir(parents=True, exist_ok=True)
    for old in [*folder.glob("*.csv"), *folder.glob("*.svg"), *folder.glob("index.html")]:
        old.unlink()
    for (name, gate), played in results.items():
        (folder / f"{name}-{gate.replace(' ', '-')}.csv").write_text(played.printed)
    for experiment in chosen:
        for name, drawn in (item for row in page.plots_of(experiment, results) for item in row.items()):
            (folder / f"{name}.svg").write_text(drawn)
    (folder / "index.html").write_text(page.whole(chosen, results, judged, shorter))


def say(words):
    print(words, flush=True)


def parse():
    parser = argparse.ArgumentParser(prog="lab.py", usage=__doc__)
    made = HERE.parent / "target" / "sgq"
    parser.add_argument("--short", type=float, default=1)
    parser.add_argument("--out", type=pathlib.Path, default=HERE / "out")
    parser.add_argument("--sim", default=made / "lab")
    for program in ("decide", "sheet", "files", "tools"):
        parser.add_argument(f"--{program}")
    parser.add_argument("names", nargs="*", metavar="NAME")
    given = parser.parse_args()
    unknown = [name for name in given.names if name not in PAPER + CLAIMS]
    if unknown:
        print(f"sgq: there is no experiment '{unknown[0]}': say {', '.join(PAPER + CLAIMS)}", file=sys.stderr)
        sys.exit(2)
    return given


def programs_of(given):
    """The words of the programs; on a machine that is not x86-64 an emulator stands before each, and a loader before those of Rattle."""
    linked = [f"{given.tools}/bin/qemu-x86_64"] if given.tools else []
    proved = [*linked, f"{given.tools}/lib/ld-linux-x86-64.so.2", "--library-path", f"{given.tools}/lib"] if given.tools else []
    sim, files = ([*linked, str(program)] for program in (given.sim, given.files))
    decide, sheet = ([*proved, program] if program else None for program in (given.decide, given.sheet))
    return play.Programs(sim, decide, sheet, files)


def main():
    given = parse()
    began = time.monotonic()
    chosen = experiments(given.names)
    programs = programs_of(given)
    try:
        results = play_all(programs, chosen, given.short)
        judged = {one.name: judge(one, results) for one in chosen}
        write_files(given.out, chosen, results, judged, given.short)
    except (play.Failed, OSError) as why:
        print(f"sgq: {why}", file=sys.stderr)
        return 1
    amiss = sum(say_verdicts(one.name, judged[one.name]) for one in chosen)
    say(f"{given.out / 'index.html'} is written, {len(results)} runs, {time.monotonic() - began:.0f} s")
    return 1 if amiss else 0


def say_verdicts(name, verdicts):
    """How many checks of an experiment hold, and which do not; gives how many those are."""
    wrong = [verdict for verdict in verdicts if verdict.why]
    say(f"{name}: {len(verdicts) - len(wrong)} of {len(verdicts)} checks hold")
    for verdict in wrong:
        say(f"  {verdict.says}: {verdict.why}")
    return len(wrong)


if __name__ == "__main__":
    sys.exit(main())

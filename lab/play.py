"""Plays the runs of an experiment at their gates by the simulator, and holds what was recorded of ours to 'decide', 'sheet' and 'judge'.
"""
import collections
import math
import pathlib
import subprocess
import tempfile

ROOT = pathlib.Path(__file__).resolve().parent.parent
NANO = 10**9
SEED = 20101004

Cell = collections.namedtuple(
    "Cell", "interval guest arrived idle completed by_reservation by_weight ahead late latency longest least"
)


class Failed(Exception):
    """A program ended otherwise than it should."""


class Programs:
    """The words of the programs that are run. Without decide no run is recorded."""

    def __init__(self, sim, decide=None, sheet=None, files=None):
        self.sim, self.decide, self.sheet, self.files = sim, decide, sheet, files


def nanoseconds(seconds):
    return round(seconds * NANO)


def text_of(run, gate, shorter, rule=None, seed=SEED):
    """A run as the simulator reads it; lab/sim/run.h has the form. Its figures are those of the one seed."""
    part = 1 / shorter if run.scaled else 1
    until = nanoseconds(run.seconds.number * part)
    lines = [f"gate {gate}", f"rule {rule or run.rule}", f"arrays {run.arrays.number}", f"depth {run.depth.number}"]
    lines += [f"capacity {run.capacity()}", f"servers {run.servers.number}", f"vary {round(run.vary.number * 1000)}"]
    lines += [f"think {nanoseconds(run.think.number)}", f"until {until}", f"every {NANO}", f"seed {seed}"]
    for since, rate in run.speeds():
        for array in range(run.arrays.number):
            lines.append(f"speed {array} {nanoseconds(since.number * part)} {rate.number}")
    for guest in run.guests:
        rates = [value.number if value else 0 for value in (guest.reservation, guest.limit)]
        times = round(guest.times.number * 1000) if guest.times else 1000
        credit = guest.credit.number if guest.credit else 0
        shares = round(guest.weight.number * run.unit.number)
        lines.append("guest " + " ".join(map(str, [*rates, shares, credit, guest.cost.number, times])))
    for number, guest in enumerate(run.guests):
        lines += [load_line(number, load, until, part) for load in guest.loads]
    return "\n".join(lines) + "\n"


def load_line(guest, load, until, part):
    since = nanoseconds(load.since.number * part)
    end = nanoseconds(load.until.number * part) if load.until else until
    words = [load.kind, guest]
    if load.kind != "open":
        words.append(load.count.number)
    if load.period:
        words.append(nanoseconds(load.period.number))
    return " ".join(map(str, [*words, since, end, sum(1 << array for array in load.arrays)]))


class Played:
    """What a run gave at a gate: a cell for each second and guest."""

    def __init__(self, run, gate, printed, shorter):
        self.run, self.gate, self.printed = run, gate, printed
        self.part = 1 / shorter if run.scaled else 1
        rows = [Cell(*map(int, line.split(","))) for line in printed.splitlines()[1:]]
        whole = int(run.seconds.number * self.part)  # a part of a second at the end is not looked at
        self.cells = [rows[number :: len(run.guests)][:whole] for number in range(len(run.guests))]
        self.chain = None  # how many events decide, sheet and judge agree on

    def within(self, guest, part):
        """The cells of a guest, or of all, in whole seconds of a part of the run."""
        first, last = math.ceil(part[0] * self.part), math.floor(part[1] * self.part)
        numbers = range(len(self.cells)) if guest is None else [self.run.guest(guest)]
        return [cell for number in numbers for cell in self.cells[number][first:last]], last - first

    def measure(self, what, guest, part):
        """A number of a row; None where nothing was completed."""
        if what == "ratio":
            one, other = (self.measure("rate", name, part) for name in guest.split("/"))
            return one / other if other else None
        cells, seconds = self.within(guest, part)
        if what == "latency":
            completed = sum(cell.completed for cell in cells)
            return sum(cell.latency for cell in cells) / completed / 1e6 if completed else None
        column = {"rate": "completed", "reserved": "by_reservation", "idle": "idle"}[what]
        return sum(getattr(cell, column) for cell in cells) / seconds

    def series(self, what, guest):
        """Its value in each second, for a plot, from when it first asks; guest None is the sum of all."""
        columns = self.cells if guest is None else [self.cells[self.run.guest(guest)]]
        first = next((cells[0].interval for cells in zip(*columns) if any(cell.arrived for cell in cells)), 0)
        columns = [column[first:] for column in columns]
        if what == "latency":
            return [(cell.interval, cell.latency / cell.completed / 1e6 if cell.completed else None) for cell in columns[0]]
        column = {"rate": "completed", "reserved": "by_reservation"}[what]
        return [(cells[0].interval, sum(getattr(cell, column) for cell in cells)) for cells in zip(*columns)]


def run_program(words, given=None, status=0):
    """What a program prints, as bytes."""
    ended = subprocess.run(words, input=given, capture_output=True)
    if ended.returncode != status:
        raise Failed(f"{words} ended with status {ended.returncode}: {ended.stderr.decode(errors='replace').strip()}")
    return ended.stdout


def play(programs, run, gate, shorter, rule=None):
    """Plays a run at a gate, under its own rule where no other is said; of our gate on one array the record goes through the chain."""
    text = text_of(run, gate, shorter, rule)
    if gate != "library" or run.arrays.number != 1 or programs.decide is None:
        return Played(run, gate, run_program(programs.sim, text.encode()).decode(), shorter)
    with tempfile.TemporaryDirectory() as folder:
        files = [pathlib.Path(folder) / name for name in ("trace", "lines", "sheet")]
        text += "".join(f"{path.name} {path}\n" for path in files)
        played = Played(run, gate, run_program(programs.sim, text.encode()).decode(), shorter)
        played.chain = follow_chain(programs, *files)
    return played


def follow_chain(programs, trace, lines, sheet):
    """How many events there are, where decide and sheet print what the simulator wrote and judge accepts it; else it fails."""
    for words, written in ((programs.decide, lines), (programs.sheet, sheet)):
        with trace.open("rb") as given:
            ended = subprocess.run(words, stdin=given, capture_output=True)
        if ended.returncode != 0 or ended.stdout != written.read_bytes():
            raise Failed(f"{words[-1]} does not print what the library answered")
    said = run_program([*programs.files, "judge", str(trace), str(lines), "the trace", "the record"]).decode()
    if not said.startswith("the record is accepted: "):
        raise Failed(f"judge says '{said.strip()}'")
    with lines.open("rb") as text:
        return sum(chunk.count(b"\n") for chunk in iter(lambda: text.read(1 << 20), b"")) - 1

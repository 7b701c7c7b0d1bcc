"""The words in which an experiment is told: values and where they come from, guests and what they ask for, runs, and the rows of
what is measured.

Every number of an experiment is marked: stated (the paper says it), fitted (chosen so that a number of the paper comes out, which is
then no finding) or assumed (the paper does not say it). Times are seconds. A short run has them all divided by the same number.
"""
import dataclasses
import typing


@dataclasses.dataclass(frozen=True)
class Value:
    """A number, whether it is stated, fitted or assumed, and why it is this one."""

    number: float
    origin: str
    why: str

    def __mul__(self, times):
        return Value(self.number * times, self.origin, self.why)


def stated(number, why="the paper's number"):
    return Value(number, "stated", why)


def fitted(number, why):
    return Value(number, "fitted", why)


def assumed(number, why):
    return Value(number, "assumed", why)


# The array of section 4.1, where an experiment does not say another.
DEPTH = stated(32, "'32 IOs pending per LUN at the array, which is the default setting'")
SERVERS = assumed(10, "requests that the array works on at once: one for each disc of the '10 disk RAID 0 disk group'")
VARY = assumed(0.5, "a request takes up to this part longer or shorter than the mean, evenly spread")
THINK = assumed(0.0001, "from the end of a request to the next one of a closed load")
UNIT = assumed(100, "the paper gives ratios; the sum stays below what the array does in a second")
PENDING = stated(32, "'32 concurrent IOs per workload in all experiments, unless otherwise stated'")
PLAIN = Value(1, "assumed", "cost 1: every request counts alike")
START = stated(0, "from the beginning")


@dataclasses.dataclass(frozen=True)
class Load:
    """Closed: so many requests are kept under way. Burst: so many at once in each period. Open: one in each period or so."""

    kind: str
    count: Value
    since: Value = START
    until: typing.Optional[Value] = None  # the end of the run, where it is not said
    period: typing.Optional[Value] = None
    arrays: tuple = (0,)


def closed(count=PENDING, since=START, until=None, arrays=(0,)):
    return Load("closed", count, since, until, None, arrays)


def burst(count, period, since=START, until=None):
    return Load("burst", count, since, until, period)


def steady(rate, since=START, until=None):
    """An open load of so many requests a second."""
    return Load("open", rate, since, until, Value(1 / rate.number, rate.origin, rate.why))


@dataclasses.dataclass(frozen=True)
class Guest:
    """What is not said is none: no reservation, no limit, no credit. Times is how long its requests take, the others' being 1."""

    name: str
    weight: Value
    loads: list
    reservation: typing.Optional[Value] = None
    limit: typing.Optional[Value] = None
    credit: typing.Optional[Value] = None
    cost: Value = PLAIN
    times: typing.Optional[Value] = None


SCALE = 56  # of whole costs: 32 KB then cost 62, and the most is 64
BY_SIZE = "1 + S / 300 KB of section 3.1, times 56 to be a whole number; settings are times 56 too"


def by_size(run, name, sizes):
    """The same house with the paper's cost for each guest's size in KB, and reservations, limits and shares in the same unit."""
    guests = []
    for guest, size in zip(run.guests, sizes):
        reservation, limit = (value and value * SCALE for value in (guest.reservation, guest.limit))
        cost = stated(round(SCALE * (1 + size / 300)), BY_SIZE)
        guests.append(dataclasses.replace(guest, cost=cost, reservation=reservation, limit=limit))
    return dataclasses.replace(run, name=name, guests=guests, unit=run.unit * SCALE, gates=("library",))


# The gates that a run is played at, as the simulator and as the page call them.
GATES = {
    "library": "our gate",
    "arrays": "our gate, several arrays",
    "sfq": "SFQ(D)",
    "first-come": "first come",
    "before-k3": "Algorithm 1 as printed",
}
BESIDE = ("library", "sfq", "first-come")


@dataclasses.dataclass(frozen=True)
class Run:
    """One house, played once at each of its gates. Speed is a rate, or a list of when and rate; with several arrays it is that of
    each of them."""

    name: str
    guests: list
    speed: typing.Any
    seconds: Value
    gates: tuple = BESIDE
    arrays: Value = assumed(1, "one array")
    rule: int = 1
    depth: Value = DEPTH
    servers: Value = SERVERS
    unit: Value = UNIT
    vary: Value = VARY
    think: Value = THINK
    scaled: bool = True  # whether a short run of it is shorter

    def speeds(self):
        return self.speed if isinstance(self.speed, list) else [(START, self.speed)]

    def ours(self):
        return self.gates[0]

    def capacity(self):
        """Waiting places for all that can be under way: of a burst two that are behind, too."""
        times = {"closed": 1, "burst": 3, "open": 0}
        return sum(load.count.number * times[load.kind] for guest in self.guests for load in guest.loads) + 16

    def guest(self, name):
        """The number of a guest."""
        return [guest.name for guest in self.guests].index(name)


@dataclasses.dataclass(frozen=True)
class Row:
    """What is measured: of a guest, or of all (None), in a part of a run. The paper's number is ours within a part of it, by the sign of
    'within'; else 'because' says why not, and 'ours' between which numbers it lies. 'others' are the paper's numbers of other gates.
    """

    says: str
    run: Run
    guest: typing.Optional[str]  # of a ratio both, as in 'VM1/VM3'
    part: tuple  # from and to, in seconds
    what: str = "rate"  # or latency (ms), reserved (sends by reservation a second), ratio
    paper: typing.Optional[float] = None
    within: typing.Optional[float] = None
    ours: typing.Optional[tuple] = None
    because: str = ""
    equation: bool = False  # whether equation (1) holds there, within 2 %
    others: dict = dataclasses.field(default_factory=dict)  # gate: (number, within)
    shown: bool = True  # whether it stands in the page's table


@dataclasses.dataclass(frozen=True)
class Plot:
    """A plot over time of a run at a gate, with a line for each guest; 'then' is the run that follows it, 'begins' its first second."""

    run: Run
    gate: str
    title: str
    what: str = "rate"  # or latency, reserved
    then: typing.Optional[Run] = None
    begins: float = 0


@dataclasses.dataclass(frozen=True)
class Totals:
    """A plot over time of what all guests of a run get together, with a line for each gate."""

    run: Run
    gates: tuple
    title: str


@dataclasses.dataclass(frozen=True)
class Curve:
    """A plot against another number than time: for each guest the points (x, row) at a gate, and the line of equation (1)."""

    title: str
    axis: str
    gate: str
    points: dict  # guest: list of (x, Row)


@dataclasses.dataclass(frozen=True)
class Experiment:
    """One figure or table of the paper, or one claim of docs/BEHAVIOUR.md, which has a table of its own."""

    name: str
    title: str
    says: list  # what the paper says, as text
    runs: list
    rows: list = dataclasses.field(default_factory=list)
    plots: list = dataclasses.field(default_factory=list)  # rows of plots
    notes: list = dataclasses.field(default_factory=list)  # what to see, and where it parts from the paper and why
    table: typing.Any = None  # of docs/BEHAVIOUR.md: gives what it is of, a heading and lines from the results
    charts: typing.Any = None  # gives plots from the results: title, x label, y label, and points by name
    paper: bool = True  # whether it is one of the paper's

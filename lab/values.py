"""Lists the values of an experiment for its page: what is stated by the paper, fitted or assumed, and why."""
from describe import DEPTH, PENDING, PLAIN, SERVERS, START, THINK, UNIT, VARY, Value
from parts import chip, escape, table

# Those of all experiments, which stand at the page's beginning once.
COMMON = [
    ("places at the array", DEPTH),
    ("served at once", SERVERS),
    ("service varies by", VARY),
    ("pause of a closed load, s", THINK),
    ("shares for a weight of 1", UNIT),
    ("requests under way", PENDING),
]
COUNTS = {"closed": "requests under way", "burst": "requests at once", "open": "requests a second"}
ORDER = {"fitted": 0, "assumed": 1, "stated": 2}


def plain_number(number):
    return f"{number:,.0f}" if number == int(number) else f"{number:,g}"


def of_run(run):
    """Every value of a run: its kind, whose it is, and the value."""
    for since, rate in run.speeds():
        yield "speed of the array, a second", f"from {plain_number(since.number)} s:" if len(run.speeds()) > 1 else "", rate
    yield "length of a run, s", "", run.seconds
    yield "places at the array", "", run.depth
    yield "served at once", "", run.servers
    yield "shares for a weight of 1", "", run.unit
    if run.arrays.number > 1:
        yield "arrays", "", run.arrays
    for guest in run.guests:
        yield from of_guest(guest)


def of_guest(guest):
    for field in ("weight", "reservation", "limit", "credit", "cost"):
        yield field, guest.name, getattr(guest, field)
    yield "time of a request, times", guest.name, guest.times
    for load in guest.loads:
        yield COUNTS[load.kind], guest.name, load.count
        yield "begins, s", guest.name, load.since
        if load.kind == "burst":
            yield "period, s", guest.name, load.period


def own_values(experiment):
    """The values that are not those of all experiments: by kind, origin and why, whose number is what."""
    known = [START, PLAIN, *(value for _, value in COMMON)]
    found = {}
    for kind, whose, value in (item for run in experiment.runs for item in of_run(run)):
        if isinstance(value, Value) and all(value is not other for other in known):
            words = f"{whose} {plain_number(value.number)}".strip()
            found.setdefault((kind, value.origin, value.why), {})[words] = None
    return sorted(found.items(), key=lambda item: ORDER[item[0][1]])


def values_table(experiment):
    rows = [
        [chip(origin, origin), escape(kind), escape(", ".join(numbers)), escape(why)]
        for (kind, origin, why), numbers in own_values(experiment)
    ]
    return f"<details open><summary>What is stated, fitted and assumed</summary>{table([], rows, 'words')}</details>"


def common_table():
    rows = [[chip(value.origin, value.origin), kind, plain_number(value.number), escape(value.why)] for kind, value in COMMON]
    return table([], rows, "words")

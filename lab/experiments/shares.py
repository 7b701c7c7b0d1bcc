"""Shares are rates against the clock: the house of Table 4 without reservations, with shares of other sums, and with credit."""
from describe import Experiment, Guest, Run, assumed, closed, fitted, stated

PART = (5, 25)
UNITS = [100, 300, 340, 400, 500, 1000]
CREDITS = [0, 64]


def run(unit, credit):
    return Run(
        name=f"shares-{unit}-{credit}",
        guests=[
            Guest(f"VM{place + 1}", stated(weight), [closed()], credit=assumed(credit, "tried"))
            for place, weight in enumerate((1, 1, 2, 2))
        ],
        speed=fitted(2045, "the total of Table 4"),
        seconds=assumed(25, "long enough to settle"),
        unit=assumed(unit, "shares for a weight of 1, tried"),
        gates=("library", "sfq"),
        scaled=False,
    )


RUNS = {(unit, credit): run(unit, credit) for unit in UNITS for credit in CREDITS}


def table(results):
    """A line for each sum of shares."""
    lines = []
    for unit in UNITS:
        line = [str(6 * unit)]
        for gate, credit in (("library", 0), ("library", 64), ("sfq", 0)):
            played = results[RUNS[unit, credit].name, gate]
            one, two = (played.measure("rate", name, PART) for name in ("VM1", "VM3"))
            line += [f"{one:.0f}", f"{two:.0f}", f"{two / one:.2f}"] if gate == "library" else [f"{two / one:.2f}"]
        lines.append(line)
    heading = ["sum of shares", "VM1", "VM3", "ratio", "VM1, credit 64", "VM3, credit 64", "ratio", "SFQ(D): ratio"]
    return "an array of 2,045 a second; weights 1 : 1 : 2 : 2", heading, lines


def charts(results):
    def ratios(gate, credit):
        return [(6 * unit, results[RUNS[unit, credit].name, gate].measure("ratio", "VM3/VM1", PART)) for unit in UNITS]

    lines = {"credit 0": ratios("library", 0), "credit 64": ratios("library", 64), "SFQ(D)": ratios("sfq", 0)}
    yield "VM3 over VM1, of weights 2 and 1", "sum of the shares", "times", lines


EXPERIMENT = Experiment(
    name="shares",
    title="Shares against the clock",
    says=[
        "The paper gives weights as ratios, and share tags that lie a second over the weight apart and are never before the "
        "clock (equation of section 3)."
    ],
    runs=list(RUNS.values()),
    table=table,
    charts=charts,
    paper=False,
)

"""Credit in the house of Table 5, and where it works: the steady guest has more under way than the depth."""
from describe import Experiment, Guest, Run, assumed, burst, closed, fitted, stated

CREDITS = [0, 16, 64, 256]
HOUSES = [(32, 100), (32, 500), (40, 100), (40, 500)]
PART = (5, 29)
BURSTS = 2.5  # a second


def run(pending, unit, credit):
    return Run(
        name=f"credit-{pending}-{unit}-{credit}",
        speed=fitted(2732, "the total of Table 5"),
        seconds=assumed(30, "long enough to settle"),
        unit=assumed(unit, "shares of each, tried"),
        gates=("library",),
        scaled=False,
        guests=[
            Guest(
                "VM1",
                stated(1),
                [burst(stated(128, "'128 IOs every 400ms'"), stated(0.4, "'every 400ms'"))],
                credit=assumed(credit, "tried"),
            ),
            Guest("VM2", stated(1), [closed(assumed(pending, "requests under way, tried"))], credit=assumed(credit, "tried")),
        ],
    )


RUNS = {(pending, unit, credit): run(pending, unit, credit) for pending, unit in HOUSES for credit in CREDITS}


def table(results):
    lines = []
    for pending, unit in HOUSES:
        played = [results[RUNS[pending, unit, credit].name, "library"] for credit in CREDITS]
        idle = played[-1].measure("idle", "VM2", PART) / BURSTS
        lines.append([str(pending), str(unit), f"{idle:.1f}", *(f"{one.measure('latency', 'VM1', PART):.1f}" for one in played)])
    heading = [
        "VM2: under way",
        "shares of each",
        "idle arrivals of VM2, a burst",
        *(f"VM1, ms, credit {credit}" for credit in CREDITS),
    ]
    return "VM1 brings 128 requests every 400 ms, VM2 is steady; an array of 2,732 a second, depth 32", heading, lines


def charts(results):
    lines = {
        f"{pending}, {unit}": [
            (credit, results[RUNS[pending, unit, credit].name, "library"].measure("latency", "VM1", PART)) for credit in CREDITS
        ]
        for pending, unit in HOUSES
    }
    yield "VM1's latency; VM2 under way, shares", "credit", "ms", lines


EXPERIMENT = Experiment(
    name="credit",
    title="Credit, in the house of Table 5 and beside it",
    says=["Table 5: 49 ms with idle credit 1, 30.8 ms with 64."],
    runs=list(RUNS.values()),
    table=table,
    charts=charts,
    paper=False,
)

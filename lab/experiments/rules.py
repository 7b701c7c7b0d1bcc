"""The two rules for limits: the house of figure 5 where VM2 has a reservation beside its limit."""
from describe import Experiment, Guest, Run, assumed, closed, stated

PART = (5, 35)
RESERVED = [0, 200, 300, 400]


def run(reservation, rule):
    return Run(
        name=f"rules-{reservation}-{rule}",
        guests=[
            Guest("VM1", stated(1), [closed()]),
            Guest(
                "VM2",
                stated(1),
                [closed()],
                limit=stated(400),
                reservation=assumed(reservation, "tried") if reservation else None,
            ),
            Guest("VM3", stated(2), [closed()], limit=stated(500)),
        ],
        speed=stated(1600, "figure 5"),
        seconds=assumed(35, "long enough to settle"),
        rule=rule,
        gates=("library",),
        scaled=False,
    )


RUNS = {(reservation, rule): run(reservation, rule) for reservation in RESERVED for rule in (1, 2)}


def table(results):
    lines = []
    for reservation in RESERVED:
        line = [str(reservation)]
        for rule in (1, 2):
            cells, seconds = results[RUNS[reservation, rule].name, "library"].within("VM2", PART)
            sent = [cell.by_reservation + cell.by_weight for cell in cells]
            line += [
                f"{sum(sent) / seconds:.0f}",
                str(max(sent)),
                f"{sum(cell.by_reservation for cell in cells) / seconds:.0f}",
                f"{sum(cell.ahead for cell in cells) / seconds:.1f}",
            ]
        lines.append(line)
    heading = [
        "reserved",
        "rule 1: a second",
        "at most",
        "by reservation",
        "before the limit tag",
        "rule 2: a second",
        "at most",
        "by reservation",
        "before the limit tag",
    ]
    return "VM2 has a limit of 400 a second, at the array of figure 5", heading, lines


def charts(results):
    lines = {}
    for rule in (1, 2):
        points = []
        for reservation in RESERVED:
            cells, seconds = results[RUNS[reservation, rule].name, "library"].within("VM2", PART)
            points.append((reservation, sum(cell.ahead for cell in cells) / seconds))
        lines[f"rule {rule}"] = points
    yield "sends before their limit tag", "reserved, of a limit of 400", "a second", lines


EXPERIMENT = Experiment(
    name="rules",
    title="The two rules for limits",
    says=[
        "In no experiment of the paper has a guest both a reservation and a limit, so that both rules decide the same there; "
        "this is figure 5's house with a reservation added."
    ],
    runs=list(RUNS.values()),
    table=table,
    charts=charts,
    paper=False,
)

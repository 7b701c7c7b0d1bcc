"""Several arrays: the house of figure 9(b) with 1 to 6 arrays that do as much together, few and many requests under way, and a rho of 0."""
from describe import Experiment, Guest, Run, assumed, closed, fitted, stated

PART = (10, 30)
CASES = [(1, 64), (2, 64), (3, 64), (6, 64), (3, 256), (6, 256)]
GATES = ("arrays", "counted-one")
CLIENTS = ("c1", "c2", "c3")


def run(arrays, pending):
    return Run(
        name=f"arrays-{arrays}-{pending}",
        guests=[
            Guest(
                name,
                stated(weight),
                [closed(assumed(pending, "requests under way, tried"), arrays=tuple(range(arrays)))],
                reservation=stated(reservation),
            )
            for name, weight, reservation in zip(CLIENTS, (1, 4, 6), (800, 1000, 100))
        ],
        speed=fitted(5250 // arrays, "of 5250 in all, the sum of figure 9(b)"),
        seconds=assumed(30, "long enough to settle"),
        arrays=assumed(arrays, "tried"),
        depth=assumed(48 // arrays, "48 in all"),
        servers=assumed(18 // arrays, "18 in all"),
        gates=GATES if arrays > 1 else (*GATES, "library"),
        scaled=False,
    )


RUNS = {case: run(*case) for case in CASES}


def table(results):
    """A line for each case and client: what it gets, of it by reservation; and how many of its requests came as an idle guest's."""
    lines = []
    for (arrays, pending), house in RUNS.items():
        for client in CLIENTS:
            ours, trial = (results[house.name, gate] for gate in GATES)
            idle = 100 * ours.measure("idle", client, PART) / ours.measure("rate", client, PART)
            numbers = [played.measure(what, client, PART) for played in (ours, trial) for what in ("rate", "reserved")]
            lines.append(
                [
                    str(arrays),
                    str(pending),
                    client,
                    *(f"{number:.0f}" for number in numbers[:2]),
                    f"{idle:.0f}",
                    *(f"{number:.0f}" for number in numbers[2:]),
                ]
            )
    heading = [
        "arrays",
        "under way",
        "client",
        "a second",
        "by reservation",
        "% idle arrivals",
        "rho at least 1: a second",
        "by reservation",
    ]
    return (
        "reserved 800, 1,000 and 100, weights 1 : 4 : 6, arrays of 5,250 together; by equation (1) 800, 1,780 and 2,670",
        heading,
        lines,
    )


def charts(results):
    for what, title in (("rate", "what each gets"), ("reserved", "of it by reservation")):
        lines = {
            client: [
                (arrays, results[RUNS[arrays, 64].name, "arrays"].measure(what, client, PART))
                for arrays, pending in CASES
                if pending == 64
            ]
            for client in CLIENTS
        }
        yield f"{title}, 64 under way", "arrays", "a second", lines


EXPERIMENT = Experiment(
    name="arrays",
    title="Several arrays and their reservations",
    says=[
        "'Note that for the single server case, rho and delta will always be 1'; 'the values of rho and delta may, in the "
        "worst case, be inaccurate by up to 1 request at each of the other servers' (section 3.2)."
    ],
    runs=list(RUNS.values()),
    table=table,
    charts=charts,
    paper=False,
)

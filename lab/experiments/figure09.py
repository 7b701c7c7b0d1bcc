"""Figure 9: three clients on three nodes, without and with reservations (section 4.2)."""
import dataclasses

from describe import BESIDE, GATES, Experiment, Guest, Plot, Row, Run, assumed, closed, fitted, stated

NODES = (0, 1, 2)
PENDING = stated(64, "'64 concurrent IOs, uniformly distributed over the nodes'")
SECONDS = assumed(60, "the text does not say")
THIN = (
    "A client's 64 requests are spread over three nodes by chance, so that now and then nothing of it waits at one. The next "
    "request there is one of an idle guest, whose share tag is the time, whatever it got before: c1 gets some service by "
    "weight on top of its reservation. With 256 requests under way it does not; lab/experiments/arrays.py has both."
)


def guests(reservations, arrays):
    found = []
    for place, (weight, reservation) in enumerate(zip((1, 4, 6), reservations)):
        found.append(
            Guest(
                f"c{place + 1}",
                stated(weight),
                [closed(PENDING, arrays=arrays)],
                reservation=stated(reservation) if reservation else None,
            )
        )
    return found


def houses(name, reservations):
    """The house with one array that does as much as three, and with three."""
    one = Run(
        name=f"figure09{name}-one",
        guests=guests(reservations, (0,)),
        speed=fitted(5250, "the sum of figure 9(b): 800, 1750 and 2700"),
        seconds=SECONDS,
        depth=assumed(48, "three times the 'up to 16 outstanding IOs' of a node"),
        servers=assumed(18, "one for each disc of three nodes"),
    )
    three = dataclasses.replace(
        one,
        name=f"figure09{name}-three",
        guests=guests(reservations, NODES),
        gates=("arrays", "library", "sfq", "first-come"),
        arrays=stated(3, "'multiple storage servers (nodes)', 'three in our experiment'"),
        speed=fitted(1750, "a third of the sum of figure 9(b); the text has 'roughly 1500 IOPS' for a node"),
        depth=stated(16, "'up to 16 outstanding IOs'"),
        servers=assumed(6, "one for each disc of a 'RAID-5 group with six disks'"),
    )
    return one, three


FREE = houses("a", (0, 0, 0))
HELD = houses("b", (800, 1000, 100))
PART = (10, 60)


def rows():
    for name in ("c1", "c2", "c3"):
        yield Row(f"(a) {name}, one array", FREE[0], name, PART, equation=True)
    for name, ours in (("c1", (470, 530)), ("c2", (1870, 1960)), ("c3", (2760, 2880))):
        yield Row(f"(a) {name}, three arrays", FREE[1], name, PART, ours=ours, because=THIN)
    for name, paper in (("c1", 800), ("c2", 1750), ("c3", 2700)):
        yield Row(f"(b) {name}, one array", HELD[0], name, PART, paper=paper, within=0.02, equation=True)
    for name, paper, ours in (("c1", 800, (900, 1010)), ("c2", 1750, (1700, 1800)), ("c3", 2700, (2450, 2600))):
        yield Row(f"(b) {name}, three arrays", HELD[1], name, PART, paper=paper, ours=ours, because=THIN)
        yield Row(f"(b) {name}, three arrays, by reservation", HELD[1], name, PART, "reserved")


EXPERIMENT = Experiment(
    name="figure09",
    title="Figure 9: three clients on three nodes",
    says=[
        "(a) Without reservations 'each client received total service in proportion to its weight', 1 : 4 : 6.",
        "(b) 'dmClock was able to meet the reservation goal of 800 IOPS for c1, which would have been missed with a "
        "proportional share scheduler. The remaining throughput was divided between clients c2 and c3 in the ratio 2:3 as "
        "they respectively received around 1750 and 2700 IOPS.'",
    ],
    runs=[*FREE, *HELD],
    rows=list(rows()),
    plots=[
        [Plot(FREE[0], gate, f"(a) one array, {GATES[gate]}") for gate in BESIDE],
        [
            Plot(FREE[1], gate, f"(a) three arrays, {label}")
            for gate, label in (("arrays", "our gate"), ("sfq", "SFQ(D)"), ("first-come", "first come"))
        ],
        [Plot(HELD[0], gate, f"(b) one array, {GATES[gate]}") for gate in BESIDE],
        [
            Plot(HELD[1], gate, f"(b) three arrays, {label}")
            for gate, label in (("arrays", "our gate"), ("sfq", "SFQ(D)"), ("first-come", "first come"))
        ],
        [
            Plot(HELD[0], "library", "(b) one array: by reservation", "reserved"),
            Plot(HELD[1], "arrays", "(b) three arrays: by reservation", "reserved"),
            Plot(HELD[1], "library", "(b) three gates that know nothing of each other"),
        ],
    ],
    notes=["Three gates that know nothing of each other would each serve the whole reservation: the last panel."],
)

"""Figure 10: a client that uses one of two nodes, and one that uses both (section 4.2)."""
import dataclasses

from describe import BESIDE, GATES, Experiment, Guest, Plot, Row, Run, assumed, closed, fitted, stated

PENDING = stated(64, "'64 concurrent IOs, uniformly distributed over the nodes it used'")
LATER = stated(40, "'we started c2 after approximately 40 seconds'")


def guests(first, second):
    return [
        Guest("c1", stated(1), [closed(PENDING, arrays=first)], reservation=stated(800)),
        Guest("c2", stated(4), [closed(PENDING, since=LATER, arrays=second)], reservation=stated(1000)),
    ]


ONE = Run(
    name="figure10-one",
    guests=guests((0,), (0,)),
    speed=fitted(2200, "the sum of what the two got, 800 and 1400"),
    seconds=assumed(120, "the text does not say"),
    depth=assumed(32, "twice the 'up to 16 outstanding IOs' of a node"),
    servers=assumed(12, "one for each disc of two nodes"),
)
TWO = dataclasses.replace(
    ONE,
    name="figure10-two",
    guests=guests((0,), (0, 1)),
    gates=("arrays", "library", "sfq", "first-come"),
    arrays=stated(2, "'two storage servers'"),
    speed=stated(1500, "'roughly 1500 IOPS for a random workload'"),
    depth=stated(16, "'up to 16 outstanding IOs'"),
    servers=assumed(6, "one for each disc of a 'RAID-5 group with six disks'"),
)
PART = (50, 120)
EXPERIMENT = Experiment(
    name="figure10",
    title="Figure 10: a client on one node beside one on two",
    says=[
        "'Initially, c1 got the full capacity from server S1 and when c2 was started, c1 was still able to get an allocation "
        "close to its reservation of 800 IOPS. The remaining capacity was allocated to c2, which received around 1400 IOPS. "
        "A distributed weight-proportional scheduler [45] would have given approximately 440 IOPS to c1'.",
    ],
    runs=[TWO, ONE],
    rows=[
        Row("c1 alone, two arrays: all of the first", TWO, "c1", (5, 40), paper=1500, within=0.02),
        Row("c1 beside c2, two arrays", TWO, "c1", PART, paper=800, within=0.02),
        Row("c2, two arrays", TWO, "c2", PART, paper=1400, within=0.02),
        Row(
            "c1 beside c2, one array of 2200", ONE, "c1", PART, paper=800, within=0.02, equation=True, others={"sfq": (440, 0.02)}
        ),
        Row("c2, one array of 2200", ONE, "c2", PART, paper=1400, within=0.02, equation=True),
    ],
    plots=[
        [
            Plot(TWO, gate, f"two arrays, {label}")
            for gate, label in (("arrays", "our gate"), ("sfq", "SFQ(D)"), ("first-come", "first come"))
        ],
        [Plot(ONE, gate, f"one array, {GATES[gate]}") for gate in BESIDE],
    ],
    notes=[
        "c2 spreads its requests evenly over both nodes and keeps a fixed number under way. At the first node 1500 less 800 are "
        "700, and twice that is the paper's 1400.",
    ],
)

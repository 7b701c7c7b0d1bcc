"""Table 5: idle credit for a bursty workload (section 4.1.4)."""
from describe import BESIDE, GATES, Experiment, Guest, Plot, Row, Run, assumed, burst, closed, fitted, stated

LOST = (
    "All 32 requests of VM2 fit the array's depth, so it has nothing waiting, and its next request is one of an idle guest: "
    "the smallest waiting share tag, which is one of VM1 that lies back by its credit, becomes the time (the paper's tag "
    "adjustment), and the credit is gone. lab/experiments/credit.py has where it works."
)


def run(sigma):
    return Run(
        name=f"table05-{sigma}",
        speed=fitted(2732, "the sum of the table's two numbers"),
        seconds=assumed(120, "the text does not say"),
        guests=[
            Guest(
                "VM1",
                stated(1, "'equal shares'"),
                [burst(stated(128, "'128 IOs every 400ms'"), stated(0.4, "'every 400ms'"))],
                credit=stated(sigma, "sigma"),
            ),
            Guest(
                "VM2", stated(1, "'equal shares'"), [closed(stated(32, "'32 outstanding IOs'"))], credit=stated(sigma, "sigma")
            ),
        ],
    )


ONE, MANY = run(1), run(64)
PART = (20, 120)
EXPERIMENT = Experiment(
    name="table05",
    title="Table 5: idle credit",
    says=[
        "With idle credit 1, VM1 got 312 at 49 ms and VM2 2420 at 13.2 ms; with 64, VM1 316 at 30.8 ms and VM2 2460 at 12.9 "
        "ms. 'The number of IOPS were almost equal in either case'; 'the latency seen by the bursty VM1 decreased as we "
        "increased the idle credits.'",
    ],
    runs=[ONE, MANY],
    rows=[
        Row("VM1, sigma 1", ONE, "VM1", PART, paper=312, within=0.03),
        Row("VM2, sigma 1", ONE, "VM2", PART, paper=2420, within=0.02),
        Row("VM1, sigma 64", MANY, "VM1", PART, paper=316, within=0.03),
        Row("VM2, sigma 64", MANY, "VM2", PART, paper=2460, within=0.03),
        Row(
            "VM1, sigma 1, ms",
            ONE,
            "VM1",
            PART,
            "latency",
            paper=49,
            ours=(56, 60),
            because="what the array does with a burst of 4 KB reads is not given",
        ),
        Row("VM2, sigma 1, ms", ONE, "VM2", PART, "latency", paper=13.2, within=0.03),
        Row("VM1, sigma 64, ms", MANY, "VM1", PART, "latency", paper=30.8, ours=(56, 60), because=LOST),
        Row("VM2, sigma 64, ms", MANY, "VM2", PART, "latency", paper=12.9, within=0.05),
    ],
    plots=[
        [Plot(house, gate, f"{GATES[gate]}, sigma {house.guests[0].credit.number}: latency", "latency") for gate in BESIDE]
        for house in (ONE, MANY)
    ],
)

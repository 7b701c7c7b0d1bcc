"""Figure 4: a limit on data migration helps who needs low latency (section 4.1.1)."""
from describe import BESIDE, GATES, Experiment, Guest, Plot, Row, Run, assumed, burst, by_size, closed, fitted, stated

BOTH = "chosen with the speed and the times of DM so that OLTP's latency is 36 ms and then 16 ms"
RD = Guest(
    "RD", stated(2), [burst(stated(32, "'32 random IOs (75% reads) of 4KB size every 250 ms'"), stated(0.25, "'every 250 ms'"))]
)
OLTP = Guest("OLTP", stated(2), [closed(stated(16, "'keeps 16 IOs pending at all times'"))])
TIMES = fitted(5.2, "times as long takes a read of 32 KB in sequence as one of 8 KB by chance; " + BOTH)


def run(name, limit):
    dm = Guest("DM", stated(1), [closed(stated(32, "'keeps 32 IOs pending at all times'"))], limit=limit, times=TIMES)
    return Run(
        name=name,
        speed=fitted(2688, "short requests a second; " + BOTH),
        seconds=assumed(
            80,
            "the paper's figure goes from 60 s to 140 s, and on; a gate's settings do not change while it is open, so these "
            "are two runs",
        ),
        servers=fitted(1, "requests that the array works on at once; " + BOTH),
        guests=[RD, OLTP, dm],
    )


FREE = run("figure04-free", None)
HELD = run("figure04-held", stated(300))
SIZED = by_size(HELD, "figure04-sizes", (4, 8, 32))
PART = (10, 80)
EXPERIMENT = Experiment(
    name="figure04",
    title="Figure 4: a limit on data migration",
    says=[
        "Without limits 'the work-conserving scheduler gave all the remaining queue slots (16 of them) to the DM workload. "
        "As a result, RD and OLTP got less than the specified proportion of IO throughput, while DM received more.'",
        "With a limit of 300 for DM, 'the OLTP workload' saw 'a 100% increase in throughput and the latency was reduced by "
        "half (36 ms to 16 ms). The RD workload also saw lower latency, while its throughput remained equal to its demand.'",
    ],
    runs=[FREE, HELD, SIZED],
    rows=[
        Row("OLTP, ms, no limits (fitted)", FREE, "OLTP", PART, "latency", paper=36, within=0.05),
        Row("OLTP, ms, DM limited (fitted)", HELD, "OLTP", PART, "latency", paper=16, within=0.05),
        Row("OLTP, no limits", FREE, "OLTP", PART),
        Row("OLTP, DM limited: twice as much or more", HELD, "OLTP", PART, ours=(900, 1100)),
        Row("DM, no limits", FREE, "DM", PART),
        Row("DM limited", HELD, "DM", PART, paper=300, within=0.01),
        Row("RD, no limits: its demand", FREE, "RD", PART, paper=128, within=0.02),
        Row("RD, DM limited: its demand", HELD, "RD", PART, paper=128, within=0.02),
        Row(
            "DM limited, costs by size",
            SIZED,
            "DM",
            PART,
            ours=(269, 273),
            because="of 32 KB a request counts for 62 of 56, so that a limit of 300 is 271 of them",
        ),
        Row("RD, ms, no limits", FREE, "RD", PART, "latency", ours=(50, 80)),
        Row("RD, ms, DM limited: lower", HELD, "RD", PART, "latency", ours=(15, 35)),
    ],
    plots=[
        [Plot(FREE, gate, f"{GATES[gate]}: requests a second", then=HELD, begins=60) for gate in BESIDE],
        [Plot(FREE, gate, f"{GATES[gate]}: latency", "latency", then=HELD, begins=60) for gate in BESIDE],
    ],
    notes=[
        "OLTP's two latencies are what the array was fitted to, so they are no finding. Findings are that DM is held to 300, "
        "that RD keeps its demand at less than half the latency, and what a first-come gate does to OLTP beside them.",
        "The paper's two other gates know no limits: their panels show two runs of the same.",
    ],
)

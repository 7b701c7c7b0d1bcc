"""Figure 6: reservations hold as workloads are added (section 4.1.2)."""
from describe import GATES, Experiment, Guest, Plot, Row, Run, Totals, assumed, closed, fitted, stated

EACH = stated(60, "'a new workload was started every 60 seconds'")
FALLS = "the overall throughput falls as workloads are added, by steps that the text does not give: evenly to 1280"
SPEED = [(EACH * place, assumed(1600 - 80 * place, FALLS)) for place in range(4)]
RUN = Run(
    name="figure06",
    speed=[*SPEED, (EACH * 4, fitted(1280, "the sum of what SFQ(D) gives five: 160, 160 and three times 320"))],
    seconds=EACH * 5,
    gates=("library", "sfq", "first-come", "before-k3"),
    guests=[
        Guest("VM1", stated(1), [closed()], reservation=stated(300)),
        Guest("VM2", stated(1), [closed(since=EACH)], reservation=stated(250)),
        *(Guest(f"VM{place + 1}", stated(2), [closed(since=EACH * place)]) for place in (2, 3, 4)),
    ],
)
TWO, FIVE = (70, 120), (250, 300)
OWN = [
    Row(
        f"{name}, five workloads",
        RUN,
        name,
        FIVE,
        paper=paper,
        within=0.01 if paper else None,
        equation=True,
        others={"sfq": (sfq, 0.02)},
    )
    for name, paper, sfq in (("VM1", 300, 160), ("VM2", 250, 160), ("VM3", None, 320), ("VM4", None, 320), ("VM5", None, 320))
]
EXPERIMENT = Experiment(
    name="figure06",
    title="Figure 6: reservations, as workloads are added",
    says=[
        "'When we used SFQ(D), the throughput of each VM decreased with increasing load, down to 160 IOPS for VM1 and VM2, "
        "while the remaining VMs received around 320 IOPS. In contrast, mClock provided 300 IOPS to VM1 and 250 IOPS to VM2, "
        "as desired.'",
    ],
    runs=[RUN],
    rows=[
        *OWN,
        Row("VM1, two workloads", RUN, "VM1", TWO, equation=True),
        Row("VM2, two workloads", RUN, "VM2", TWO, equation=True),
        Row("VM3, three workloads", RUN, "VM3", (130, 180), equation=True),
        Row("VM3, four workloads", RUN, "VM3", (190, 240), equation=True),
    ],
    plots=[
        [Totals(RUN, ("library", "sfq"), "(a) overall"), Plot(RUN, "sfq", "(b) SFQ(D)"), Plot(RUN, "library", "(c) our gate")],
        [Plot(RUN, gate, GATES[gate]) for gate in ("first-come", "before-k3")],
    ],
    notes=[
        "Algorithm 1 as it is printed takes the larger of a guest's next share tag and the time also for a guest that comes "
        "back: VM1, which had the array to itself, then pays for it, and gets its reservation only. Document 02's K3 sets "
        "that tag to the time, as the paper's prose has it; the library is so.",
    ],
)

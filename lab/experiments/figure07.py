"""Figure 7 and Table 3: diverse workloads, with a limit and a reservation among them (section 4.1.3)."""
from describe import GATES, Experiment, Guest, Plot, Row, Run, assumed, by_size, closed, fitted, stated

EACH = assumed(60, "from one start to the next, as in figures 5 and 6; the text does not say")
TOTAL = "the text gives no totals for fewer than four workloads"
RUN = Run(
    name="figure07",
    speed=[
        (EACH * 0, assumed(1500, TOTAL)),
        (EACH * 2, assumed(1350, TOTAL)),
        (EACH * 3, fitted(1140, "six times the 190 that SFQ(D) gives VM4, whose weight is a sixth of all")),
    ],
    seconds=EACH * 5,
    gates=("library", "sfq", "first-come", "before-k3"),
    guests=[
        Guest("VM1", stated(2, "Table 3"), [closed()]),
        Guest("VM2", stated(2, "Table 3"), [closed(since=EACH)], limit=stated(700, "Table 3")),
        Guest("VM3", stated(1, "Table 3"), [closed(since=EACH * 2)]),
        Guest("VM4", stated(1, "Table 3"), [closed(since=EACH * 3)], reservation=stated(250, "Table 3")),
    ],
)
MEMORY = (
    "While VM2 is held by its limit, VM1 gets more than its part, and its share tags run ahead of VM2's. When VM3 comes, the "
    "smallest share tag becomes the time, and that is VM2's: VM1 stands behind both until they have caught up. It is so in "
    "Algorithm 1 too."
)
SIZED = by_size(RUN, "figure07-sizes", (4, 8, 16, 8))
COUNTED = (
    "a request of 8 KB counts for 57 of 56, and one of 16 KB for 59: 700 are then 688 of them, 250 are 246, and 2 to 1 is 2.07"
)
FOUR = (200, 300)
EXPERIMENT = Experiment(
    name="figure07",
    title="Figure 7: diverse workloads",
    says=[
        "'mClock was able to restrict VM2 to 700 IOPS, as desired, when only two VMs were doing IOs. Later, when VM4 became "
        "active, mClock was able to meet the reservation of 250 IOPS for it, whereas SFQ only provided around 190 IOPS. "
        "While meeting these constraints, mClock was able to keep the allocation in proportion to the weights of the VMs; "
        "for example, VM1 got twice as many IOPS as VM3 did.'",
    ],
    runs=[RUN, SIZED],
    rows=[
        Row("VM2, two workloads", RUN, "VM2", (70, 120), paper=700, within=0.01, equation=True),
        Row("VM1, two workloads", RUN, "VM1", (70, 120), equation=True),
        Row("VM1, as VM3 comes", RUN, "VM1", (120, 126), equation=True, ours=(0, 330), because=MEMORY),
        Row("VM1, three workloads, later", RUN, "VM1", (144, 180), equation=True),
        Row("VM2, three workloads, later", RUN, "VM2", (144, 180), equation=True),
        Row("VM3, three workloads, later", RUN, "VM3", (144, 180), equation=True),
        Row("VM4, four workloads", RUN, "VM4", FOUR, paper=250, within=0.01, equation=True, others={"sfq": (190, 0.02)}),
        Row("VM1 over VM3, four workloads", RUN, "VM1/VM3", FOUR, "ratio", paper=2, within=0.02),
        Row("VM2, two workloads, costs by size", SIZED, "VM2", (70, 120), ours=(684, 691), because=COUNTED),
        Row("VM4, four workloads, costs by size", SIZED, "VM4", FOUR, ours=(244, 248), because=COUNTED),
        Row("VM1 over VM3, costs by size", SIZED, "VM1/VM3", FOUR, "ratio", ours=(2.04, 2.1), because=COUNTED),
        Row("VM1, four workloads", RUN, "VM1", FOUR, equation=True),
        Row("VM2, four workloads", RUN, "VM2", FOUR, equation=True),
        Row("VM3, four workloads", RUN, "VM3", FOUR, equation=True),
    ],
    plots=[
        [Plot(RUN, "sfq", "(a) SFQ(D)"), Plot(RUN, "library", "(b) our gate")],
        [Plot(RUN, gate, GATES[gate]) for gate in ("first-come", "before-k3")],
    ],
    notes=[
        "The workloads differ in size and place in the paper; here a request takes the same time whatever its size, and only "
        "the totals say what the mixture costs."
    ],
)

"""Figure 5: limits hold while workloads come one after another (section 4.1.1)."""
from describe import BESIDE, GATES, Experiment, Guest, Plot, Row, Run, closed, stated

EACH = stated(60, "'a new workload was started every 60 seconds'")
RUN = Run(
    name="figure05",
    speed=stated(1600, "'a capacity of about 1600 random reads per second'"),
    seconds=EACH * 3,
    guests=[
        Guest("VM1", stated(1), [closed()]),
        Guest("VM2", stated(1), [closed(since=EACH)], limit=stated(400)),
        Guest("VM3", stated(2), [closed(since=EACH * 2)], limit=stated(500)),
    ],
)
EXPERIMENT = Experiment(
    name="figure05",
    title="Figure 5: limits, as workloads come one after another",
    says=[
        "'When we added the VM2 (at time 60sec), it received only 400 IOPS based on its limit, and not the 800 IOPS it would "
        "have received based on the weights alone.'",
        "'When we started VM3 (at time 120sec), it received only its maximum limit, 500 IOPS, again smaller than its "
        "throughput share based on the weights alone.'",
    ],
    runs=[RUN],
    rows=[
        Row("VM2 beside VM1", RUN, "VM2", (70, 120), paper=400, within=0.01, equation=True, others={"sfq": (800, 0.01)}),
        Row("VM1 beside VM2", RUN, "VM1", (70, 120), equation=True, others={"sfq": (800, 0.01)}),
        Row("VM3 beside both", RUN, "VM3", (130, 180), paper=500, within=0.01, equation=True, others={"sfq": (800, 0.01)}),
        Row("VM2 beside both", RUN, "VM2", (130, 180), paper=400, within=0.01, equation=True, others={"sfq": (400, 0.01)}),
        Row("VM1 beside both", RUN, "VM1", (130, 180), equation=True, others={"sfq": (400, 0.01)}),
    ],
    plots=[[Plot(RUN, gate, GATES[gate]) for gate in BESIDE]],
    notes=["By weights alone the paper expects 800 and 800, then 400, 400 and 800: that is the SFQ(D) panel."],
)

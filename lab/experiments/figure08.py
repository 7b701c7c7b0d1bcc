"""Figure 8: two transaction workloads and a sudden third (section 4.1.5). Its loads are assumed."""
from describe import BESIDE, GATES, Experiment, Guest, Plot, Row, Run, assumed, closed, fitted, stated

OTHER = stated(115, "'then the Iometer workload at t = 115s'")
THREADS = assumed(32, "requests that Filebench keeps under way; the text does not say")
RUN = Run(
    name="figure08",
    speed=[
        (OTHER * 0, assumed(1600, "so that OLTP2 meets its reservation before the third workload comes")),
        (
            OTHER,
            fitted(
                1050,
                "so that OLTP2, whose weight is a quarter, gets around 250 by weights alone, and both reservations can be met",
            ),
        ),
    ],
    seconds=OTHER * 2,
    guests=[
        Guest("OLTP1", stated(2), [closed(THREADS)], reservation=stated(500)),
        Guest("OLTP2", stated(1), [closed(THREADS)], reservation=stated(500)),
        Guest("Iometer", stated(1), [closed(stated(32, "'32 concurrent, 16KB random reads'"), since=OTHER)]),
    ],
)
PART = (120, 230)
EXPERIMENT = Experiment(
    name="figure08",
    title="Figure 8: two transaction workloads and a sudden third",
    says=[
        "'Without mClock, as soon as the Iometer workload started, OLTP2 started missing its reservation and received around "
        "250 IOPS. When run with mClock, both the OLTP workloads were able to achieve their reservations of 500 IOPS.'",
    ],
    runs=[RUN],
    rows=[
        Row("OLTP1, three workloads", RUN, "OLTP1", PART, paper=500, within=0.01, equation=True),
        Row("OLTP2, three workloads", RUN, "OLTP2", PART, paper=500, within=0.01, equation=True, others={"sfq": (250, 0.06)}),
        Row("Iometer, three workloads", RUN, "Iometer", PART, equation=True),
        Row("OLTP2 before", RUN, "OLTP2", (10, 115), equation=True),
    ],
    plots=[
        [Plot(RUN, gate, GATES[gate]) for gate in BESIDE],
        [Plot(RUN, gate, f"{GATES[gate]}: latency", "latency") for gate in BESIDE],
    ],
    notes=[
        "The load is assumed: closed loops where the paper ran Filebench, whose operations and latencies it gives as a "
        "figure without numbers."
    ],
)

"""Figure 3: what three guests get as the total of the array changes (section 2.1)."""
from describe import BESIDE, GATES, Curve, Experiment, Guest, Plot, Row, Run, assumed, closed, stated

TOTALS = [400, 600, 800, 1000, 1200, 1400, 1600, 1800, 2000, 2500, 3000]
SECONDS = assumed(24, "for each total; the example has no time")
GUESTS = [
    Guest("RD", stated(1, "shares 100, 200 and 300"), [closed()], reservation=stated(250)),
    Guest("OLTP", stated(2, "shares 100, 200 and 300"), [closed()], reservation=stated(250)),
    Guest("DM", stated(3, "shares 100, 200 and 300"), [closed()], limit=stated(1000)),
]
PART = (4, 24)


def total_of(number):
    """The text names a few totals; the others are points of the figure's axis."""
    named = number in (1200, 2000)
    return stated(number, "named in the text") if named else assumed(number, "a point of the figure's axis")


def at(total):
    return Run(name=f"figure03-{total}", speed=total_of(total), seconds=SECONDS, guests=GUESTS)


def rows(run):
    """The paper's example is a total of 1200; of the others equation (1) is asked."""
    total = run.speed.number
    paper = {"RD": 250, "OLTP": 380, "DM": 570} if total == 1200 else {}
    shown = total in (400, 1200, 1800, 2500)
    found = []
    for guest in run.guests:
        number = paper.get(guest.name)
        found.append(
            Row(
                f"{guest.name}, total {total}",
                run,
                guest.name,
                PART,
                paper=number,
                within=0.01 if number else None,
                equation=True,
                shown=shown,
            )
        )
    return found


RUNS = [at(total) for total in TOTALS]
ROWS = {run.name: rows(run) for run in RUNS}
# The same in one run: the total falls and rises again.
EACH = assumed(15, "for each total of the run in which it changes")
STEPS = [3000, 2000, 1600, 1200, 800, 400, 800, 1200, 1600, 2000, 3000]
CHANGING = Run(
    name="figure03-changing",
    speed=[(EACH * place, total_of(total)) for place, total in enumerate(STEPS)],
    seconds=EACH * len(STEPS),
    guests=GUESTS,
)


LAGS = (
    "A guest that is held by its limit, as DM at 3000, has share tags that lag, and one that its reservation gives more than "
    "its part, as RD at 800, has tags that run ahead. When the total changes these distances are worked off first. It is so "
    "in Algorithm 1 too."
)


def curve(gate):
    points = {guest.name: [(run.speed.number, ROWS[run.name][place]) for run in RUNS] for place, guest in enumerate(GUESTS)}
    return Curve(GATES[gate], "total of the array, requests a second", gate, points)


EXPERIMENT = Experiment(
    name="figure03",
    title="Figure 3: what each guest gets as the total changes",
    says=[
        "The example of section 2.1, reckoned and not measured: 'If the storage device's throughput is 1200 IOPS', 'mClock "
        "would provide RD with its minimum reservation of 250 IOPS and the remaining 950 IOPS would be divided between OLTP "
        "and DM in the ratio 2 : 3, resulting in allocations of 380 and 570 IOPS respectively.'",
        "'For T between 1500 and 2000 IOPS, the throughput is shared between RD, OLTP, and DM in proportion to their weights "
        "(1 : 2 : 3)'; from 2000 on 'DM will be capped at 1000 IOPS'; 'for T < 500 IOPS, the reservations of RD and OLTP "
        "cannot be met; the available throughput will be divided equally between RD and OLTP' and 'DM will receive no "
        "service'.",
    ],
    runs=[*RUNS, CHANGING],
    rows=[row for found in ROWS.values() for row in found]
    + [
        Row(
            f"{name}, total {STEPS[place]} after {STEPS[place - 1]}",
            CHANGING,
            name,
            (EACH.number * place + 4, EACH.number * (place + 1)),
            equation=True,
            ours=ours,
            because=LAGS,
        )
        for place, name, ours in ((2, "DM", (980, 1001)), (3, "OLTP", (249, 260)), (10, "RD", (249, 320)))
    ],
    plots=[[curve(gate) for gate in BESIDE], [Plot(CHANGING, gate, f"{GATES[gate]}, as the total changes") for gate in BESIDE]],
    notes=[
        "In the plots by total the lines are equation (1) and the marks are measured: each constant total is held to the "
        "equation within 2 %.",
        "The paper says that the goals 'are satisfied continuously, even as the system's throughput varies'. Reservations "
        "and limits are; the parts by weight are not, where the total has changed: the last three rows.",
    ],
)

"""What share tags remember: of a guest that was held by its limit, and of one that got more than its part by its reservation."""
from describe import Experiment, Guest, Plot, Run, assumed, closed, stated

LENGTHS = [5, 15, 60]
AFTER = 150


def limited(held):
    """Figure 7's first three: VM2 is held at 700 while VM1 takes the rest; then VM3 comes."""
    later = assumed(held, "VM2 is at its limit so long, tried")
    return Run(
        name=f"held-limit-{held}",
        guests=[
            Guest("VM1", stated(2), [closed()]),
            Guest("VM2", stated(2), [closed()], limit=stated(700)),
            Guest("VM3", stated(1), [closed(since=later)]),
        ],
        speed=assumed(1600, "an array of 1,600 a second"),
        seconds=assumed(held + AFTER, "long enough to settle"),
        gates=("library", "before-k3"),
        scaled=False,
    )


def reserved(slow):
    """Figure 3's three: the array is slow for a while, and RD lives by its reservation; then it is fast."""
    later = assumed(slow, "the array is slow so long, tried")
    return Run(
        name=f"held-reservation-{slow}",
        guests=[
            Guest("RD", stated(1), [closed()], reservation=stated(250)),
            Guest("OLTP", stated(2), [closed()], reservation=stated(250)),
            Guest("DM", stated(3), [closed()]),
        ],
        speed=[(assumed(0, "from the beginning"), assumed(800, "a second at first")), (later, assumed(1800, "a second then"))],
        seconds=assumed(slow + AFTER, "long enough to settle"),
        gates=("library", "before-k3"),
        scaled=False,
    )


LIMITED = {held: limited(held) for held in LENGTHS}
RESERVED = {slow: reserved(slow) for slow in LENGTHS}


def until(played, guest, since, part):
    """Seconds from then until the guest has nine tenths of its part, in five seconds one behind the other."""
    cells = played.cells[played.run.guest(guest)][since:]
    good = [cell.completed >= 0.9 * part for cell in cells]
    for at in range(len(good) - 5):
        if all(good[at : at + 5]):
            return str(at)
    return f"more than {AFTER}"


def table(results):
    lines = []
    for length in LENGTHS:
        line = [str(length)]
        for runs, guest, part in ((LIMITED, "VM1", 640), (RESERVED, "RD", 300)):
            ours, printed = (results[runs[length].name, gate] for gate in ("library", "before-k3"))
            line.append(f"{ours.measure('rate', guest, (length, length + 10)):.0f}")
            line += [until(played, guest, length, part) for played in (ours, printed)]
        lines.append(line)
    after = ["its part after, s", "as printed, s"]
    heading = ["before, s", "VM1 in the next 10 s, of 640", *after, "RD in the next 10 s, of 300", *after]
    caption = (
        "VM2 is held at its limit, then VM3 comes; RD lives by its reservation of 250 at an array of 800, then it does 1,800"
    )
    return caption, heading, lines


EXPERIMENT = Experiment(
    name="held",
    title="What share tags remember",
    says=[
        "'The mClock scheduler ensures that the goals in Eq. (1) and (2) are satisfied continuously, even as the system's "
        "throughput varies' (section 2.1)."
    ],
    runs=[*LIMITED.values(), *RESERVED.values()],
    plots=[
        [
            Plot(LIMITED[60], "library", "VM2 held for 60 s, then VM3 comes"),
            Plot(RESERVED[60], "library", "slow for 60 s, then fast"),
        ]
    ],
    table=table,
    paper=False,
)

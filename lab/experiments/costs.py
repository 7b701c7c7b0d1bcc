"""Whole costs: the paper's cost of a read, 1 + S / 300 KB, rounded to a whole number, and with all settings scaled."""
from describe import Experiment, Guest, Run, assumed, closed, stated

PART = (5, 25)
LARGE = [16, 64, 128, 256]  # KB
SMALL = 8
SCALE = 32


def weight_of(size):
    """What the paper counts a read for."""
    return 1 + size / 300


def run(size, scale):
    """Two guests of equal shares, one with small reads and one with large ones that take as long as the paper counts them."""
    cost = [max(1, round(scale * weight_of(one))) for one in (SMALL, size)]
    return Run(
        name=f"costs-{size}-{scale}",
        guests=[
            Guest(
                name,
                stated(1),
                [closed()],
                cost=assumed(own, "1 + S / 300 KB, scaled and rounded"),
                times=stated(weight_of(kb), "1 + S / 300 KB"),
            )
            for name, own, kb in zip(("small", "large"), cost, (SMALL, size))
        ],
        speed=assumed(1000, "short requests a second"),
        seconds=assumed(25, "long enough to settle"),
        unit=assumed(100 * scale, "shares of each, scaled"),
        gates=("library",),
        scaled=False,
    )


RUNS = {(size, scale): run(size, scale) for size in LARGE for scale in (1, SCALE)}


def table(results):
    lines = []
    for size in LARGE:
        line = [str(size), f"{weight_of(size):.2f}"]
        for scale in (1, SCALE):
            house = RUNS[size, scale]
            rates = [results[house.name, "library"].measure("rate", guest.name, PART) for guest in house.guests]
            times = [rate * guest.times.number for rate, guest in zip(rates, house.guests)]
            line += [f"{house.guests[0].cost.number} and {house.guests[1].cost.number}", f"{100 * times[1] / sum(times):.1f}"]
        lines.append(line)
    heading = [
        "size, KB",
        "the paper's cost",
        "whole costs",
        "% of the array for the large",
        f"costs and shares times {SCALE}",
        "% of the array for the large",
    ]
    return (
        f"two guests of equal shares, reads of {SMALL} KB and of this size, which take as long as the paper counts them",
        heading,
        lines,
    )


def charts(results):
    def parts(scale):
        for size in LARGE:
            house = RUNS[size, scale]
            times = [
                results[house.name, "library"].measure("rate", guest.name, PART) * guest.times.number for guest in house.guests
            ]
            yield size, 100 * times[1] / sum(times)

    yield "the large reads' part of the array", "size, KB", "%", {"whole": list(parts(1)), f"times {SCALE}": list(parts(SCALE))}


EXPERIMENT = Experiment(
    name="costs",
    title="Whole costs",
    says=[
        "'For tagging purposes, a single request of IO size S is treated as equivalent to: (1 + S / (Tm x Bpeak)) IO "
        "requests', with 5 ms and 60 MB/s, so that 300 KB count for one more (section 3.1)."
    ],
    runs=list(RUNS.values()),
    table=table,
    charts=charts,
    paper=False,
)

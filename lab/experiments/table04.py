"""Table 4: reservations set by Little's law bring the latency that was wanted (section 4.1.3)."""
from describe import BESIDE, GATES, Experiment, Guest, Plot, Row, Run, assumed, closed, fitted, stated

PAPER = {1: [(330, 96), (390, 82), (660, 48), (665, 48)], 512: [(490, 68), (496, 64), (514, 64), (530, 65)]}
MIXED = "the four workloads differ in the paper, and its VM2 gets 390 where VM1 gets 330 of the same weight; here they are alike"


def run(reservation, total):
    return Run(
        name=f"table04-{reservation}",
        speed=fitted(total, "the sum of the table's four numbers"),
        seconds=assumed(120, "the text does not say"),
        guests=[
            Guest(f"VM{place + 1}", stated(weight), [closed()], reservation=stated(reservation))
            for place, weight in enumerate((1, 1, 2, 2))
        ],
    )


RUNS = [run(1, 2045), run(512, 2030)]
PART = (20, 120)


def rows(house):
    reservation = house.guests[0].reservation.number
    for guest, (rate, latency) in zip(house.guests, PAPER[reservation]):
        odd = guest.name == "VM2" and reservation == 1
        yield Row(
            f"{guest.name}, r = {reservation}",
            house,
            guest.name,
            PART,
            paper=rate,
            within=None if odd else 0.06,
            ours=(330, 350) if odd else None,
            equation=True,
            because=MIXED if odd else "",
        )
        yield Row(
            f"{guest.name}, r = {reservation}, ms",
            house,
            guest.name,
            PART,
            "latency",
            paper=latency,
            within=None if odd else 0.08,
            because=MIXED if odd else "",
        )


EXPERIMENT = Experiment(
    name="table04",
    title="Table 4: from a latency to a reservation",
    says=[
        "'If it is desired that the latency not exceed 65ms, the reservation can be computed as 32/0.065 = 492'. With a "
        "reservation of 1 'workloads received IOPS in proportion to their weights, but the latencies of VM1 and VM2 were "
        "much higher than desired'; with 512 each 'first two VMs received higher IOPS of around 500 instead of 330 and 390'. "
        "'The reservation targets of VM1 and VM2 were not entirely met because the overall throughput was slightly smaller "
        "than the sum of reservations.'",
    ],
    runs=RUNS,
    rows=[row for house in RUNS for row in rows(house)],
    plots=[
        [Plot(house, gate, f"{GATES[gate]}, r = {house.guests[0].reservation.number}: latency", "latency") for gate in BESIDE]
        for house in RUNS
    ],
    notes=[
        "The array does 2030 and 2048 are reserved, so by equation (1) each gets an equal part of the total, 507 or 508.",
    ],
)

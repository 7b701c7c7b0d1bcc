"""The guest that comes back: before document 02's K3 it paid for the array that it had to itself."""
from describe import Experiment, Guest, Plot, Run, assumed, closed

ALONE = [5, 20, 60]
PAUSE = assumed(5, "a short pause")
BESIDE = assumed(20, "beside the other")
GATES = (("before-k3", "Algorithm 1 as printed"), ("library", "our gate, with K3"))


def run(alone):
    """One guest works alone, and pauses; the other begins in the pause, and then the first comes back."""
    first = assumed(alone, "alone")
    back = assumed(alone + PAUSE.number, "the pause is over")
    return Run(
        name=f"returning-{alone}",
        guests=[
            Guest("pictures", assumed(1, "equal weights"), [closed(until=first), closed(since=back)]),
            Guest(
                "archive", assumed(1, "equal weights"), [closed(assumed(64, "requests: more than fit the depth"), since=first)]
            ),
        ],
        speed=assumed(1000, "an array of 1,000 a second"),
        seconds=assumed(alone + PAUSE.number + BESIDE.number, "long enough to settle"),
        gates=("library", "before-k3"),
        scaled=False,
    )


RUNS = {alone: run(alone) for alone in ALONE}


def nothing(played, since):
    """How many whole seconds the guest gets less than a tenth of its part, from when it is back."""
    cells = played.cells[0][since:]
    few = [cell.completed < 50 for cell in cells]
    return few.index(False) if False in few else len(few)


def table(results):
    lines = []
    for alone, house in RUNS.items():
        since = alone + PAUSE.number
        line = [str(alone)]
        for gate, _ in GATES:
            played = results[house.name, gate]
            starved = nothing(played, since)
            line += [
                f"{played.measure('rate', 'pictures', (since, since + BESIDE.number)):.0f}",
                f"{starved}" if starved < BESIDE.number else f"{starved} and more",
            ]
        lines.append(line)
    heading = ["alone, s", "as printed: a second", "next to nothing for, s", "with K3: a second", "next to nothing for, s"]
    return (
        "equal weights, an array of 1,000 a second, shares of 100 each; the guest's part in the 20 s after it is back is 500 "
        "a second",
        heading,
        lines,
    )


EXPERIMENT = Experiment(
    name="returning",
    title="The guest that comes back",
    says=[
        "Algorithm 1 takes the larger of the next share tag and the time for every arrival; the prose of section 3 says that "
        "'the initial P tag value of a freshly active VM is set to the current time'."
    ],
    runs=list(RUNS.values()),
    plots=[[Plot(RUNS[20], gate, label) for gate, label in GATES]],
    table=table,
    paper=False,
)

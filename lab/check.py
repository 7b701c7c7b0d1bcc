"""What has to hold of a run: equation (1), limits and reservations in each second, and the paper's numbers within what a row allows."""
import dataclasses

from describe import GATES

EQUATION_WITHIN = 0.02
RESERVATION_SLACK = 2  # requests in a second: one at each end of it
SPREAD_SLACK = 0.05  # of a reservation that is spread over several arrays, which hear of each other by the next request only


def equation(settings, total):
    """Equation (1) of the paper: what each guest gets of a total. Settings are rows of reservation, limit (0: none) and shares."""
    reserved = sum(row[0] for row in settings)
    if total <= reserved:
        return [total * row[0] / reserved for row in settings]

    def given(level):
        return [min(max(level * shares, reservation), limit or total) for reservation, limit, shares in settings]

    low, high = 0.0, total / min(row[2] for row in settings)
    for _ in range(100):
        middle = (low + high) / 2
        low, high = (middle, high) if sum(given(middle)) < total else (low, middle)
    return given(high)


def active(played, part):
    """The guests that ask in the whole of a part."""
    found = []
    for guest in played.run.guests:
        end = played.run.seconds.number
        if any(load.since.number <= part[0] and (load.until.number if load.until else end) >= part[1] for load in guest.loads):
            found.append(guest)
    return found


def equation_of(played, part):
    """What equation (1) gives each guest that asks in a part of a run, for the total that was seen there."""
    guests = active(played, part)
    rows = [[value.number if value else 0 for value in (guest.reservation, guest.limit, guest.weight)] for guest in guests]
    return dict(zip([guest.name for guest in guests], equation(rows, played.measure("rate", None, part))))


@dataclasses.dataclass(frozen=True)
class Verdict:
    """One thing that was checked; why is empty where it holds."""

    says: str
    why: str = ""


def near(number, expected, within):
    return number is not None and abs(number - expected) <= within * expected


def judge_row(row, results):
    """The verdicts on a row: the paper's number, or between which numbers ours lies; equation (1); other gates' numbers."""
    played = results[row.run.name, row.run.ours()]
    number = played.measure(row.what, row.guest, row.part)
    if row.ours:
        low, high = row.ours
        good = number is not None and low <= number <= high
        yield Verdict(f"{row.says}: between {low} and {high}", "" if good else f"it is {number}")
    elif row.paper is not None and row.within is not None:
        good = near(number, row.paper, row.within)
        yield Verdict(f"{row.says}: the paper's {row.paper}, within {row.within:.0%}", "" if good else f"it is {number}")
    if row.equation and not row.because:
        expected = equation_of(played, row.part)[row.guest]
        good = near(number, expected, EQUATION_WITHIN)
        yield Verdict(f"{row.says}: equation (1), {expected:.0f}, within 2 %", "" if good else f"it is {number}")
    for other, (expected, within) in row.others.items():
        found = results[row.run.name, other].measure(row.what, row.guest, row.part)
        good = near(found, expected, within)
        yield Verdict(f"{row.says}, {GATES[other]}: {expected}, within {within:.0%}", "" if good else f"it is {found}")


def judge_seconds(played):
    """Limits and reservations in each whole second. Of what is sent in it, requests whose limit tag lay before it had waited for the array,
    and one more may go at its beginning; a reservation is asked for where requests wait all the time."""
    spread = SPREAD_SLACK if played.run.arrays.number > 1 else 0
    for guest in played.run.guests:
        cost = guest.cost.number
        limit, reserved = (value.number if value else 0 for value in (guest.limit, guest.reservation))
        least = reserved - max(RESERVATION_SLACK * cost, spread * reserved)
        for cell in played.cells[played.run.guest(guest.name)]:
            sent = cell.by_reservation + cell.by_weight
            if limit and (sent - cell.late - cell.ahead - 1) * cost > limit:
                yield f"{guest.name} sends {sent} of cost {cost} in second {cell.interval}, and its limit is {limit}"
            if cell.least > 0 and sent * cost < least:
                yield f"{guest.name} sends {sent} of cost {cost} in second {cell.interval}, and its reservation is {reserved}"


def overbooked(run):
    """Whether the reservations together are more than the arrays do."""
    least = min(rate.number for _, rate in run.speeds()) * run.arrays.number
    return sum(guest.reservation.number / guest.cost.number for guest in run.guests if guest.reservation) >= least


def judge(experiment, results):
    """All verdicts on an experiment."""
    found = [verdict for row in experiment.rows for verdict in judge_row(row, results)]
    for run in experiment.runs:
        bound = any(guest.reservation or guest.limit for guest in run.guests)
        if bound and not overbooked(run):
            amiss = list(judge_seconds(results[run.name, run.ours()]))
            found.append(Verdict(f"{run.name}: reservations and limits in every second", "; ".join(amiss[:3])))
    return found

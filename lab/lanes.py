"""Draws every request of a trace: a lane for each guest, a thin line while a request waits and a bar while it is at the array, by the
phase that sent it. Where the array was full the time is shaded. For traces of which every request can be drawn."""
import html

from ledger import Listener
from plot import GRID, INK, PALE, line, rect, svg, text

WIDE, LEFT, RIGHT = 1160, 150, 12
STRIP, GAP, BETWEEN = 46, 18, 10  # height of the strip of counts, above a lane, between stretches
PHASES = {"R": ("#2563eb", "by reservation"), "W": ("#0f8a5f", "by weight")}
WAITS, FULL, REFUSED = "#9aa5b1", "#fdeee4", "#b4232f"
LEAST = 34  # width of a stretch
HALO = "font-weight='700' stroke='#fff' stroke-width='2.5' paint-order='stroke'"


class Requests(Listener):
    """All requests and refusals of a trace, and how the counts stood."""

    def __init__(self):
        self.all, self.refused, self.steps = [], [], []

    def arrives(self, request):
        self.all.append(request)

    def refuses(self, kind, guest, time, number):
        self.refused.append((guest, time, number))

    def stands(self, time, flight, waiting):
        self.steps.append((time, flight, waiting))


def moment(nanoseconds):
    """A time in seconds, with as many digits as it has."""
    seconds, rest = divmod(nanoseconds, 10**9)
    return f"{seconds:,}" + (f".{rest:09}".rstrip("0") if rest else "") + " s"


def lasting(nanoseconds):
    for size, unit in ((10**9, "s"), (10**6, "ms"), (10**3, "µs")):
        if nanoseconds >= size:
            return f"{nanoseconds / size:.4g} {unit}"
    return f"{nanoseconds} ns"


class Axis:
    """Where a time stands: the stretches beside each other, wider where more happens."""

    def __init__(self, stretches, times):
        self.stretches = stretches
        counts = [sum(start <= time <= end for time in times) for start, end in stretches]
        room = WIDE - LEFT - RIGHT - BETWEEN * (len(stretches) - 1) - LEAST * len(stretches)
        self.places, at = [], LEFT
        for count in counts:
            wide = LEAST + room * count / max(sum(counts), 1)
            self.places.append((at, wide))
            at += wide + BETWEEN

    def x(self, time):
        """A time outside all stretches stands at the nearest end."""
        for (start, end), (at, wide) in zip(self.stretches, self.places):
            if time <= end:
                return at + wide * max(0, time - start) / max(end - start, 1)
        at, wide = self.places[-1]
        return at + wide


def rows_of(requests, axis):
    """For each request a row of its lane, so that none stands on another; and how many rows there are."""
    ends, placed = [], []
    for request in requests:
        start = axis.x(request.arrived)
        stop = max(axis.x(request.done), start + 3) if request.done is not None else WIDE - RIGHT
        row = next((row for row, end in enumerate(ends) if end + 1.5 <= start), len(ends))
        if row == len(ends):
            ends.append(0)
        ends[row] = stop
        placed.append((request, row))
    return placed, max(len(ends), 1)


def told(request):
    """All of a request, for who points at it."""
    words = f"guest {request.guest}, id {request.id}: arrives at {moment(request.arrived)}"
    if request.cost != 1:
        words += f", cost {request.cost}"
    if request.sent is None:
        return words + ", and still waits"
    words += f", goes {PHASES[request.phase][1]} at {moment(request.sent)} after {lasting(request.sent - request.arrived)}"
    if request.passed:
        whom = ", ".join(f"{request.passed.count(guest)} of guest {guest}" for guest in sorted(set(request.passed)))
        words += f", before {len(request.passed)} that came earlier: {whom}"
    return words + (f"; done at {moment(request.done)}" if request.done is not None else "; not done yet")


def bar(request, axis, y, high):
    """A request: its wait, its time at the array, and how many it passed."""
    start = axis.x(request.arrived)
    gone = axis.x(request.sent) if request.sent is not None else WIDE - RIGHT
    parts = [rect(start, y + high / 2 - 0.6, gone - start, 1.2, WAITS)] if gone > start else []
    if request.sent is not None:
        fill = PHASES[request.phase][0]
        stop = axis.x(request.done) if request.done is not None else WIDE - RIGHT
        parts.append(rect(gone, y, max(stop - gone, 2), high, fill, "rx='1'"))
        if len(request.passed) > 1:
            parts.append(text(gone - 2, y + high, len(request.passed), 8.5, fill, "end", HALO))
    return f"<g><title>{html.escape(told(request))}</title>{''.join(parts)}</g>"


def full_bands(steps, depth, axis, foot_at):
    """Shades the time in which no place was free."""
    since = None
    for time, flight, _ in [*steps, (steps[-1][0] if steps else 0, 0, 0)]:
        if flight == depth and since is None:
            since = time
        elif flight < depth and since is not None:
            start, stop = axis.x(since), axis.x(time)
            yield rect(start, STRIP + 8, max(stop - start, 0.8), foot_at - STRIP - 8, FULL)
            since = None


def steps_path(steps, column, top, axis, stretch):
    """How a count stood in one stretch, as steps in the strip above the lanes."""
    words, level = [], STRIP
    for step in steps:
        if stretch[0] <= step[0] <= stretch[1]:
            x, y = axis.x(step[0]), STRIP - (STRIP - 14) * step[column] / top
            words.append(f"{'L' if words else 'M'}{x:.1f} {level:.1f}L{x:.1f} {y:.1f}")
            level = y
    return "".join(words)


def counts_strip(steps, depth, axis):
    """How many are at the array and how many wait."""
    most = max([waiting for _, _, waiting in steps], default=0)
    for column, fill, top in ((1, INK, depth), (2, WAITS, max(most, 1))):
        for stretch in axis.stretches:
            yield f"<path d='{steps_path(steps, column, top, axis, stretch)}' fill='none' stroke='{fill}' stroke-width='1.2'/>"
    yield text(LEFT - 8, 20, f"at the array, of {depth}", 10, INK, "end")
    yield text(LEFT - 8, 33, f"waiting, at most {most}", 10, PALE, "end")


def foot(axis, y):
    """The stretches: where each begins, and how long it is."""
    for (start, end), (at, wide) in zip(axis.stretches, axis.places):
        yield line(at, at + wide, y, y, PALE)
        yield line(at, at, STRIP, y, GRID)
        label = moment(start)
        if wide > 60:
            yield text(at, y + 13, f"{label}, {lasting(end - start)}" if wide > 150 else label, 9.5, PALE)
        else:
            yield text(at + 3, y + 9, label, 8.5, PALE, more=f"transform='rotate(38 {at + 3:.1f} {y + 9:.1f})'")


LEGEND = [
    (PHASES["R"][0], "at the array, by reservation", 6),
    (PHASES["W"][0], "at the array, by weight", 6),
    (WAITS, "waits", 1.4),
    (FULL, "the array is full", 10),
]


def legend(y):
    """What the marks are."""
    at = LEFT
    for fill, words, high in LEGEND:
        yield rect(at, y - 3 - high / 2, 18, high, fill) + text(at + 23, y, words, 10, PALE)
        at += 42 + 6 * len(words)
    yield text(at, y, "12", 8.5, PHASES["R"][0], more="font-weight='700'")
    yield text(at + 14, y, "so many that came earlier are passed", 10, PALE)
    yield text(at + 210, y, "✕", 10, REFUSED) + text(at + 222, y, "refused", 10, PALE)


def lane_name(own):
    """What stands beside a lane: the guest's settings."""
    words = [
        f"r {own.reservation:,}" if own.reservation else "",
        f"limit {own.limit:,}" if own.limit else "",
        f"shares {own.shares:,}",
    ]
    return " · ".join(word for word in words if word)


def lane(header, guest, told_of, axis, y):
    """The parts of a guest's lane, and how high it is."""
    placed, rows = rows_of([request for request in told_of.all if request.guest == guest], axis)
    step = 8 if rows <= 40 else max(2.0, 320 / rows)
    parts = [
        line(8, WIDE - RIGHT, y - 8, y - 8, GRID),
        text(LEFT - 8, y + 4, f"guest {guest}", 11, INK, "end", "font-weight='600'"),
    ]
    parts.append(text(LEFT - 8, y + 16, lane_name(header.guests[guest]), 8.5, PALE, "end"))
    parts += [bar(request, axis, y + step * row, step * 0.72) for request, row in placed]
    for owner, time, number in told_of.refused:
        if owner == guest:
            parts.append(
                f"<g><title>refused, {number}, at {moment(time)}</title>{text(axis.x(time) - 3, y - 1, '✕', 9, REFUSED)}</g>"
            )
    return parts, max(step * rows, 20) + GAP


def draw(header, told_of, stretches):
    """The picture of a trace as SVG."""
    times = [request.arrived for request in told_of.all] + [request.sent for request in told_of.all if request.sent is not None]
    axis = Axis(stretches, times + [time for _, time, _ in told_of.refused])
    y, lanes = STRIP + GAP, []
    for guest in range(len(header.guests)):
        parts, high = lane(header, guest, told_of, axis, y)
        lanes += parts
        y += high
    parts = [*full_bands(told_of.steps, header.depth, axis, y), *foot(axis, y), *counts_strip(told_of.steps, header.depth, axis)]
    return svg(WIDE, y + 72, "lanes", "every request over time", [*parts, *lanes, *legend(y + 64)])

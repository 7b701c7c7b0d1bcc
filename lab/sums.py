"""Sums a trace up by intervals, where it has too many requests to draw each: for each guest what goes by which phase, how many wait
and the longest wait; and how full the array is."""
import bisect

import plot
from lanes import PHASES
from ledger import Listener

MOST_PARTS = 160  # intervals of the whole picture


class Sums(Listener):
    """What each interval has, over all stretches; the time between them is left out."""

    def __init__(self, header, stretches):
        self.depth, self.guests = header.depth, len(header.guests)
        total = max(sum(end - start for start, end in stretches), 1)
        self.edges, self.shown, passed = [], [], 0  # where intervals begin, and where they stand when the gaps are left out
        for start, end in stretches:
            count = max(1, round(MOST_PARTS * (end - start) / total))
            for part in range(count):
                self.edges.append(start + (end - start) * part // count)
                self.shown.append(passed + (end - start) * part // count)
            passed += end - start
        size = len(self.edges)
        self.length = [max(after - before, 1) for before, after in zip(self.shown, [*self.shown[1:], passed])]
        self.sends = {phase: [[0] * size for _ in range(self.guests)] for phase in PHASES}
        self.longest = [[0] * size for _ in range(self.guests)]
        self.most = [[0] * size for _ in range(self.guests)]
        self.full, self.busy = [0] * size, [0] * size
        self.counts = [0] * self.guests
        self.last, self.flight = self.edges[0], 0

    def part(self, time):
        return max(bisect.bisect_right(self.edges, time) - 1, 0)

    def arrives(self, request):
        self.counts[request.guest] += 1
        at = self.part(request.arrived)
        self.most[request.guest][at] = max(self.most[request.guest][at], self.counts[request.guest])

    def goes(self, request):
        at = self.part(request.sent)
        self.counts[request.guest] -= 1
        self.sends[request.phase][request.guest][at] += 1
        self.longest[request.guest][at] = max(self.longest[request.guest][at], request.sent - request.arrived)

    def stands(self, time, flight, waiting):
        """The time since the last event goes to the intervals that it lies in."""
        at = self.part(self.last)
        while self.last < time:
            end = self.edges[at + 1] if at + 1 < len(self.edges) else time
            step = max(min(end, time) - self.last, 0)
            self.busy[at] += step * self.flight
            self.full[at] += step if self.flight == self.depth else 0
            self.last = max(min(end, time), self.last)
            at += 1
            if at >= len(self.edges):
                break
        self.last, self.flight = time, flight

    # Plots.

    def points(self, values, per=1):
        return [(at / 1e9, value / per) for at, value in zip(self.shown, values)]

    def rates(self, phase, guest):
        return [(at / 1e9, count * 1e9 / length) for at, length, count in zip(self.shown, self.length, self.sends[phase][guest])]

    def array_plot(self):
        mean = [(at / 1e9, busy / length) for at, busy, length in zip(self.shown, self.busy, self.length)]
        full = [(at / 1e9, self.depth * time / length) for at, time, length in zip(self.shown, self.full, self.length)]
        lines = [("mean", plot.INK, mean, "line"), ("full", "#b4232f", full, "line")]
        title = f"at the array, of {self.depth}; full: the part of the time"
        return plot.chart(title, lines, y_label="places", most=self.depth, name="array")

    def guest_plots(self, guest):
        sends = [
            (name, PHASES[phase][0], self.rates(phase, guest), "line") for phase, name in (("R", "reserved"), ("W", "weight"))
        ]
        most = [("", plot.PALE, self.points(self.most[guest]), "line")]
        longest = [("", plot.PALE, self.points(self.longest[guest], 1e6), "line")]
        return [
            plot.chart(f"guest {guest}: what goes", sends, name=f"guest{guest}-sends"),
            plot.chart(f"guest {guest}: waiting, at most", most, y_label="requests", name=f"guest{guest}-waiting"),
            plot.chart(f"guest {guest}: the longest wait", longest, y_label="ms", name=f"guest{guest}-wait"),
        ]

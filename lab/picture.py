#!/usr/bin/env python3
"""Draws a trace for people: who waited, who passed whom, by which phase each request went, when the array was full; './sgq picture'
calls it.

    picture.py TRACE LINES OUT [TITLE]

TRACE is a trace of bytes whose header is good, and LINES what 'decide' prints for it. OUT is a page that stands by itself or, where
its name ends with .svg, the one drawing of a trace of which every request can be drawn; - is standard output, which gets a page.
"""
import collections
import mmap
import os
import pathlib
import sys

sys.path.insert(0, str(pathlib.Path(__file__).resolve().parent))

import lanes  # noqa: E402  (they stand beside this)
import parts  # noqa: E402
from ledger import Ledger, Listener, Stretches, read_header  # noqa: E402
from sums import Sums  # noqa: E402

MOST_DRAWN = 700  # requests that are drawn one by one
MOST_NAMED = 16  # guests in the table of who passed whom


class Figures(Listener):
    """For each guest what became of its requests, and how often it passed another."""

    def __init__(self, header):
        self.rows = [collections.Counter() for _ in header.guests]
        self.refused = collections.Counter()
        self.passed = collections.Counter()  # by who went and whom it passed

    def arrives(self, request):
        self.rows[request.guest]["arrivals"] += 1

    def goes(self, request):
        row, wait = self.rows[request.guest], request.sent - request.arrived
        row[request.phase] += 1
        row["wait"] += wait
        row["longest"] = max(row["longest"], wait)
        if request.passed:
            for guest in set(request.passed):
                self.passed[request.guest, guest] += request.passed.count(guest)

    def ends(self, request):
        self.rows[request.guest]["done"] += 1

    def refuses(self, kind, guest, time, number):
        self.refused[number] += 1


class Several(Listener):
    """Tells several listeners."""

    def __init__(self, *others):
        self.others = others
        for name in ("arrives", "goes", "ends", "refuses", "stands"):
            setattr(self, name, self.teller(name))

    def teller(self, name):
        heard = [getattr(other, name) for other in self.others if getattr(type(other), name) is not getattr(Listener, name)]

        def tell(*words):
            for one in heard:
                one(*words)

        return tell


def follow(trace, header, path, listener):
    with open(path, "rb") as lines:
        next(lines)
        Ledger(trace, header, listener).follow(lines)


HEADS = [
    "guest",
    "reservation",
    "limit",
    "shares",
    "credit",
    "arrivals",
    "by reservation",
    "by weight",
    "done",
    "mean wait",
    "longest wait",
]


def figures_table(header, figures):
    rows = []
    for guest, (own, row) in enumerate(zip(header.guests, figures.rows)):
        sends = row["R"] + row["W"]
        waits = [lanes.lasting(row["wait"] // sends) if sends else "–", lanes.lasting(row["longest"])]
        counts = [own.shares, own.credit, row["arrivals"], row["R"], row["W"], row["done"]]
        rows.append([guest, own.reservation or "–", own.limit or "–", *(f"{count:,}" for count in counts), *waits])
    return parts.table(HEADS, rows)


def passed_table(header, figures):
    """Rows are who went, columns whom it passed."""
    if not figures.passed:
        return "<p>Every request went before all that came after it.</p>"
    weight = [sum(count for pair, count in figures.passed.items() if guest in pair) for guest in range(len(header.guests))]
    named = sorted(sorted(range(len(weight)), key=lambda guest: -weight[guest])[:MOST_NAMED])
    rows = [
        [f"guest {one}", *(f"{figures.passed[one, other]:,}" if figures.passed[one, other] else "" for other in named)]
        for one in named
    ]
    fewer = f"<p><small>The {MOST_NAMED} guests that did so most.</small></p>" if len(weight) > MOST_NAMED else ""
    return parts.table(["went, before", *(f"guest {guest}" for guest in named)], rows) + fewer


class Full(Listener):
    """How long no place was free."""

    def __init__(self, header):
        self.depth, self.since, self.total, self.longest = header.depth, None, 0, 0

    def stands(self, time, flight, waiting):
        """What is full stays so from event to event."""
        if self.since is not None:
            self.total += time - self.last
            self.longest = max(self.longest, time - self.since)
        if flight < self.depth:
            self.since = None
        elif self.since is None:
            self.since = time
        self.last = time


def about(header, stretches, figures, full):
    """The trace in a few sentences."""
    refused = ", ".join(f"{count} with number {number}" for number, count in sorted(figures.refused.items()))
    events = stretches.events + sum(figures.refused.values())
    settings = f"depth {header.depth}, capacity {header.capacity}, rule {header.rule}, version {header.version}"
    words = [
        f"{events:,} events, {settings}.",
        f"The array was full for {lanes.lasting(full.total)} in all, at the longest for {lanes.lasting(full.longest)}.",
        f"At most {stretches.most:,} requests waited.",
        f"Refused: {refused}." if refused else "Nothing was refused.",
    ]
    return f"<p>{' '.join(words)}</p>"


TABLES = """<section id='figures'><h2>What became of each guest's requests</h2>{}</section>
<section id='passed'><h2>Who passed whom</h2><p>How often a request went while one that was accepted earlier still waited.</p>{}</section>
<footer>Written by ./sgq picture, from the trace and the lines of decide.</footer>"""
EACH = """<p>Times at which nothing was under way are left out, and stretches in which more happens are wider. Point at a request to read
all of it.</p>"""


def drawn_each(header, requests, stretches):
    drawing = lanes.draw(header, requests, stretches.all())
    return f"<section id='requests'><h2>Every request</h2>{EACH}<figure>{drawing}</figure></section>"


def drawn_sums(header, sums):
    """A row of plots for each guest that asked."""
    asked = [guest for guest in range(len(header.guests)) if any(sums.most[guest])]
    rows = [[sums.array_plot()], *(sums.guest_plots(guest) for guest in asked)]
    words = f"<p>There are too many requests to draw each: these are {len(sums.edges)} intervals. Times at which nothing was under way are left out.</p>"
    return f"<section id='requests'><h2>Over time</h2>{words}{''.join(map(parts.figures, rows))}</section>"


def picture(trace, lines, title, svg=False):
    """The page of a trace, or its one drawing; None where there is none for it."""
    header = read_header(trace)
    stretches, figures, full, requests = Stretches(), Figures(header), Full(header), lanes.Requests()
    few = (len(trace) - header.length) // 14 <= 4 * MOST_DRAWN
    follow(trace, header, lines, Several(stretches, figures, full, *([requests] if few else [])))
    if few and len(requests.all) <= MOST_DRAWN:
        if svg:
            return lanes.draw(header, requests, stretches.all())
        drawings = drawn_each(header, requests, stretches)
    elif svg:
        return None
    else:
        sums = Sums(header, stretches.all())
        follow(trace, header, lines, sums)
        drawings = drawn_sums(header, sums)
    tables = TABLES.format(figures_table(header, figures), passed_table(header, figures))
    return parts.page(title, about(header, stretches, figures, full), drawings + tables)


def main():
    if len(sys.argv) not in (4, 5):
        print(__doc__, file=sys.stderr)
        return 2
    path, lines, out, title = [*sys.argv[1:], sys.argv[1]][:4]
    with open(path, "rb") as file, mmap.mmap(file.fileno(), 0, access=mmap.ACCESS_READ) as trace:
        made = picture(trace, lines, title, out.endswith(".svg"))
    if made is None:
        why = f"{title} has more than {MOST_DRAWN} requests, so there is no one drawing of it: name a page, as {out[:-4]}.html"
        print(f"sgq: {why}", file=sys.stderr)
        return 1
    return write(made, out)


def write(made, out):
    """Beside its place, and then put there: it is there whole, or as it was."""
    try:
        if out == "-":
            sys.stdout.write(made)
            sys.stdout.flush()
            return 0
        aside = f"{out}.{os.getpid()}"
        pathlib.Path(aside).write_text(made)
        os.replace(aside, out)
        return 0
    except OSError as why:
        print(f"sgq: {out} could not be written: {why.strerror}", file=sys.stderr)
        return 1


if __name__ == "__main__":
    sys.exit(main())

"""Follows a trace and the lines that 'decide' prints for it: which requests wait, which one goes and whom it passes, which are at the
array. It keeps no more than what is under way, so that a trace may be of any length."""
import bisect
import collections
import struct

ARRIVAL, COMPLETION, TICK = range(3)
EVENT = struct.Struct("<BBIQ")
START = struct.Struct("<3sHBBH")
GUEST = {1: struct.Struct("<III"), 2: struct.Struct("<IIIH")}

Settings = collections.namedtuple("Settings", "reservation limit shares credit")
Header = collections.namedtuple("Header", "version depth capacity rule guests length")


class Request:
    """A request that was accepted. Times are nanoseconds; what has not come yet is None."""

    __slots__ = ("guest", "id", "cost", "number", "arrived", "sent", "phase", "passed", "done")

    def __init__(self, guest, id, cost, number, arrived):
        self.guest, self.id, self.cost, self.number, self.arrived = guest, id, cost, number, arrived
        self.sent = self.phase = self.passed = self.done = None


def read_header(trace):
    """The header of a trace that is not refused."""
    _, version, depth, guests, capacity = START.unpack_from(trace)
    at = START.size + version - 1
    rule = trace[START.size] if version == 2 else 1
    form = GUEST[version]
    rows = [form.unpack_from(trace, at + form.size * guest) for guest in range(guests)]
    return Header(
        version, depth, capacity, rule, [Settings(*row, *([0] if version == 1 else [])) for row in rows], at + form.size * guests
    )


class Listener:
    """What is told of a trace; each part of it may be passed over."""

    def arrives(self, request):
        pass

    def goes(self, request):
        pass

    def ends(self, request):
        pass

    def refuses(self, kind, guest, time, number):
        pass

    def stands(self, time, flight, waiting):
        """After each event: how many are at the array, and how many wait."""


class Ledger:
    def __init__(self, trace, header, listener):
        self.trace, self.header, self.listener = trace, header, listener
        self.waiting, self.whose = [], bytearray()  # numbers of acceptance, in order, and whose each is
        self.open = {}  # requests under way, by guest and id
        self.accepted = self.flight = 0

    def follow(self, lines):
        """Takes the lines of decide, without the first."""
        whole = (len(self.trace) - self.header.length) // EVENT.size * EVENT.size
        events = EVENT.iter_unpack(self.trace[self.header.length : self.header.length + whole])
        stands, two = self.listener.stands, self.header.version == 2
        for (first, guest, id, time), line in zip(events, lines):
            words = line.split()
            kind, cost = (first & 3, (first >> 2) + 1) if two else (first, 1)
            said = words[1]
            if said == b"X":
                self.listener.refuses(kind, guest, time, int(words[2]))
                continue
            if kind == ARRIVAL:
                self.arrive(guest, id, cost, time)
            elif kind == COMPLETION:
                self.end(guest, id, time)
            if said != b"-":
                self.go(int(words[2]), int(words[3]), "R" if said == b"R" else "W", time)
            stands(time, self.flight, len(self.waiting))

    def arrive(self, guest, id, cost, time):
        request = self.open[guest, id] = Request(guest, id, cost, self.accepted, time)
        self.waiting.append(self.accepted)
        self.whose.append(guest)
        self.accepted += 1
        self.listener.arrives(request)

    def go(self, guest, id, phase, time):
        """It passes those that were accepted before it and still wait; they are other guests', whose order is their own."""
        request = self.open[guest, id]
        place = bisect.bisect_left(self.waiting, request.number)
        request.sent, request.phase, request.passed = time, phase, bytes(self.whose[:place])
        del self.waiting[place]
        del self.whose[place]
        self.flight += 1
        self.listener.goes(request)

    def end(self, guest, id, time):
        request = self.open.pop((guest, id))
        request.done = time
        self.flight -= 1
        self.listener.ends(request)


# Stretches of time in which something is under way; the time between them is left out of a picture.

MOST_STRETCHES = 14
KEPT = 4096  # stretches that are kept while a trace is read
APART = 1.5  # of the longer neighbour: a smaller gap is drawn


class Stretches(Listener):
    """Finds when something is under way."""

    def __init__(self):
        self.found, self.began, self.last, self.events, self.most = [], None, 0, 0, 0

    def stands(self, time, flight, waiting):
        self.events += 1
        self.last = time
        self.most = max(self.most, waiting)
        if flight + waiting:
            self.began = time if self.began is None else self.began
        elif self.began is not None:
            self.found.append((self.began, time))
            self.began = None
            if len(self.found) > KEPT:
                self.found = merged(self.found, KEPT // 2)

    def all(self):
        """The stretches, in order, no more than can be drawn beside each other."""
        found = self.found + ([(self.began, self.last)] if self.began is not None else [])
        return merged(joined(found), MOST_STRETCHES) or [(0, max(self.last, 1))]


def joined(found):
    """Stretches with no gap between them that is short beside the longer one."""
    result = []
    for start, end in found:
        if result and start - result[-1][1] <= APART * max(end - start, result[-1][1] - result[-1][0]):
            result[-1] = (result[-1][0], end)
        else:
            result.append((start, end))
    return result


def merged(found, most):
    """At most so many stretches: those of the smallest gaps become one."""
    if len(found) <= most:
        return list(found)
    gaps = sorted(range(1, len(found)), key=lambda place: found[place][0] - found[place - 1][1], reverse=True)
    edges = [0, *sorted(gaps[: most - 1]), len(found)]
    return [(found[first][0], found[last - 1][1]) for first, last in zip(edges, edges[1:])]

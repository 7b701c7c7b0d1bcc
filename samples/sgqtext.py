#!/usr/bin/env python3
"""Writes a text trace as bytes, and a trace of bytes as text.

    sgqtext.py bytes < TEXT > TRACE
    sgqtext.py text < TRACE > TEXT          only a well-formed trace
    sgqtext.py text --raw < TRACE > TEXT    any bytes: what is no good line of a trace becomes a raw line

A text trace has the header lines first, then a line for each event; '#' begins a comment:

    depth 4
    capacity 8
    guest 0 reservation 100 limit 250 shares 1    # per second; 0: no reservation, no limit
    arrival 0 17 at 4ms                           # guest, id, time
    completion 0 17 at 4.5ms                      # units ns, us, ms, s; a bare number is nanoseconds
    tick at 5ms
    raw 02 00 ff                                  # these bytes as they are, for damaged traces

That is a trace of version 1. One of these makes it version 2, where what is not said is rule 1, credit 0 and cost 1:

    version 2                                     # stands first
    rule 2                                        # a line of the header
    guest 0 reservation 0 limit 0 shares 1 credit 30
    arrival 0 17 at 4ms cost 8

A text that begins with 'version 1' stays version 1, and then these words may say no other rule, credit and cost. A text
that begins with a raw line has no header but what its raw lines give.

A text becomes bytes as it comes, in little memory. Nothing is written before the first mebibyte of the trace, or the
whole of a shorter one, is known to be without a mistake. Where a mistake stands later, what is written by then ends in a
cut event, so that nobody takes it for the whole. Status 1: a mistake; 2: wrong words; 3: a failed read or write.
"""
import re
import signal
import struct
import sys

MARK = b"SGQ"
START = struct.Struct("<3sHBBH")  # mark, version, depth, guests, capacity; then the rule, one byte, in version 2
RULE = struct.Struct("<B")
GUEST = {1: struct.Struct("<III"), 2: struct.Struct("<IIIH")}  # reservation, limit, shares; in version 2 the credit too
EVENT = struct.Struct("<BBIQ")  # kind, guest, id, time; in version 2 the cost less one stands above the kind's two bits
KINDS = ["arrival", "completion", "tick"]
KIND_BITS = 2
PLAIN = {"rule": 1, "credit": 0, "cost": 1}  # the words that version 1 does not have, and what it means
MOST_GUESTS = 64
MOST_DIGITS = 40  # more than any number of a trace needs
LONGEST = 1 << 20  # bytes of a line of text
HELD = 1 << 20  # bytes of a trace that are held back until no mistake is found in them
PART = 1 << 16  # bytes of a trace that are then written at a time

# Words in capitals stand for numbers, the others for themselves; a line may end with what is in brackets.
FORMS = [
    "version VERSION",
    "depth DEPTH",
    "capacity CAPACITY",
    "rule RULE",
    "guest NUMBER reservation RESERVATION limit LIMIT shares SHARES [credit CREDIT]",
    "arrival GUEST ID at TIME [cost COST]",
    "completion GUEST ID at TIME",
    "tick at TIME",
    "raw HEX",
]
FORM = {form.split()[0]: form for form in FORMS}
# Settings as the gate takes them; an event's numbers as the bytes take them, for the gate refuses some of those.
RANGES = {
    "VERSION": (1, 2),
    "DEPTH": (1, 64),
    "CAPACITY": (1, 1024),
    "RULE": (1, 2),
    "NUMBER": (0, MOST_GUESTS - 1),
    "RESERVATION": (0, 1_000_000),
    "LIMIT": (0, 1_000_000),
    "SHARES": (1, 1_000_000),
    "CREDIT": (0, 256),
    "COST": (1, 64),
    "GUEST": (0, 2**8 - 1),
    "ID": (0, 2**32 - 1),
    "TIME": (0, 2**64 - 1),
}
UNITS = {"s": 10**9, "ms": 10**6, "us": 10**3, "ns": 1}
TIME = re.compile(r"([0-9]+)(?:\.([0-9]+))?(s|ms|us|ns)?")
WHOLE = re.compile("[0-9]+")


class Bad(Exception):
    """What is wrong with a text or a trace."""


# From text to bytes.


def to_bytes(text):
    """The bytes of a text trace."""
    return b"".join(trace_parts(text.split("\n"), Text()))


def trace_parts(lines, trace):
    """The bytes of a text trace, some at a time; the first part is all that is held back."""
    size, last = HELD, 1
    for number, line in enumerate(lines, 1):
        try:
            words = line.partition("#")[0].split()
            if words:
                trace.take(words)
        except Bad as why:
            raise Bad(f"line {number}: {why}") from None
        if line:
            last = number
        if len(trace.waiting) >= size:
            size = PART
            yield trace.part()
    try:
        trace.begin()
    except Bad as why:
        raise Bad(f"line {last}: {why}") from None
    yield trace.part()


def lines_of(stream):
    """The lines of a stream of bytes, without their ends, each as text."""
    mark = "utf-8-sig"  # only at the beginning
    for number, line in enumerate(iter(lambda: stream.readline(LONGEST + 1), b""), 1):
        if len(line) > LONGEST:
            raise Bad(f"line {number}: it has more than {LONGEST} bytes")
        try:
            yield line.decode(mark).rstrip("\n")
        except UnicodeDecodeError as error:
            raise Bad(f"line {number}: this is not text (byte {line[error.start]:02x} is no UTF-8)") from None
        mark = "utf-8"


class Text:
    """A text trace as far as it is read. The header is written with the first part, for until then a cost may come and
    make it one of version 2; no event of cost 1 changes by that."""

    def __init__(self):
        self.version = None  # as the text says it
        self.word = None  # what it has said that version 1 does not have
        self.depth = self.capacity = self.rule = None
        self.guests = []
        self.begun = False  # an event or a raw line has come
        self.headed = False  # and the header is to be written before it
        self.waiting = bytearray()  # the bytes behind the header that are not handed on yet
        self.handed = 0  # how many bytes are
        self.header = 0  # how many of those are the header, however it was given

    def take(self, words):
        if words[0] == "raw":
            return self.take_raw(words[1:])
        values = numbers(words)
        if words[0] in KINDS:
            self.begin()
            self.take_word("cost", values)
            self.waiting += event_bytes(KINDS.index(words[0]), values)
        elif self.begun:
            raise Bad(f"'{words[0]}' belongs to the header, before the first event or raw line")
        elif words[0] == "guest":
            self.take_guest(values)
        else:
            self.take_count(words[0], values[words[0].upper()])
            self.take_word("rule", values)

    def take_raw(self, words):
        # Without any header line the raw lines are to give the header.
        if self.has_begun_header():
            self.begin()
        self.begun = True
        self.waiting += hex_bytes("".join(words))

    def has_begun_header(self):
        return bool(self.guests) or any(getattr(self, name) is not None for name in ("version", "depth", "capacity", "rule"))

    def take_count(self, name, value):
        if getattr(self, name) is not None:
            raise Bad(f"a second line '{name}'")
        if name == "version" and self.has_begun_header():
            raise Bad("'version' stands before all other lines")
        setattr(self, name, value)

    def take_guest(self, values):
        if values["NUMBER"] != len(self.guests):
            raise Bad(f"guest {values['NUMBER']} stands where guest {len(self.guests)} is expected")
        settings = [values[name] for name in ("RESERVATION", "LIMIT", "SHARES")]
        why = settings_fault(*settings)
        if why:
            raise Bad(why)
        self.take_word("credit", values)
        self.guests.append([*settings, values.get("CREDIT", PLAIN["credit"])])

    def take_word(self, word, values):
        """Notes a word that version 1 does not have, if the line has it."""
        value = values.get(word.upper())
        if value is None:
            return
        if self.version == 1 and value != PLAIN[word]:
            raise Bad(f"{word} {value} cannot be said in a trace of version 1, where it is {PLAIN[word]}")
        if self.version is None and self.word is None and self.handed:
            raise Bad(f"'{word}' comes too late: begin the text with 'version 2'")
        self.word = self.word or word

    def begin(self):
        """The header is whole, or something is missing."""
        if self.begun:
            return
        for name, value in (("depth", self.depth), ("capacity", self.capacity), ("guest", self.guests or None)):
            if value is None:
                raise Bad(f"the header has no line '{FORM[name]}'")
        self.begun = self.headed = True

    def header_bytes(self):
        version = self.version or (2 if self.word else 1)
        header = START.pack(MARK, version, self.depth, len(self.guests), self.capacity)
        if version == 2:
            header += RULE.pack(self.rule or PLAIN["rule"])
        numbers = 4 if version == 2 else 3
        return header + b"".join(GUEST[version].pack(*settings[:numbers]) for settings in self.guests)

    def part(self):
        """The bytes that are not handed on yet, which then are."""
        part = bytes(self.waiting)
        self.waiting.clear()
        if self.handed == 0:
            part = (self.header_bytes() if self.headed else b"") + part
            self.header = header_length(part)
        self.handed += len(part)
        return part

    def cut(self):
        """A byte behind what is handed on, unless an event is cut short there already."""
        return b"" if (self.handed - self.header) % EVENT.size else bytes(1)


def header_length(trace):
    """How long a header is that begins so, as far as that can be told."""
    if len(trace) < START.size:
        return 0
    _, version, _, guests, _ = START.unpack_from(trace)
    return START.size + (RULE.size if version == 2 else 0) + guests * GUEST.get(version, GUEST[1]).size


def numbers(words):
    """The numbers of a line by name, the line being of its word's form."""
    if words[0] not in FORM:
        raise Bad(f"no line begins with {shown(words[0])}, but with {', '.join(FORM)}")
    needed, _, more = FORM[words[0]].partition(" [")
    form, values = needed.split(), {}
    if len(words) > len(form):
        form += more.rstrip("]").split()
    if len(form) != len(words):
        raise of_no_form(words)
    for name, word in zip(form, words):
        if name in RANGES:
            values[name] = number(name, word)
        elif name != word:
            raise of_no_form(words)
    return values


def of_no_form(words):
    return Bad(f"{shown(' '.join(words))} is not of the form '{FORM[words[0]]}'")


def shown(word):
    """A word of the text in quotes; of a long one only the beginning."""
    return f"'{word}'" if len(word) <= 80 else f"'{word[:80]}...'"


def number(name, word):
    if len(word) > MOST_DIGITS:
        raise Bad(f"{name.lower()} {shown(word)} has more than {MOST_DIGITS} digits")
    value = nanoseconds(word) if name == "TIME" else whole(name, word)
    low, high = RANGES[name]
    if not low <= value <= high:
        unit = " nanoseconds" if name == "TIME" else ""
        raise Bad(f"{name.lower()} {word} is not from {low} to {high}{unit}")
    return value


def whole(name, word):
    if not WHOLE.fullmatch(word):
        raise Bad(f"{name.lower()} {shown(word)} is not a whole number")
    return int(word)


def nanoseconds(word):
    match = TIME.fullmatch(word)
    if not match:
        raise Bad(f"time {shown(word)} is not a number with ns, us, ms, s or no unit")
    before, after, unit = match.group(1), match.group(2) or "", match.group(3) or "ns"
    value, rest = divmod(int(before + after) * UNITS[unit], 10 ** len(after))
    if rest:
        raise Bad(f"time {word} is not a whole number of nanoseconds")
    return value


def settings_fault(reservation, limit, _shares):
    """What is wrong between settings that lie in their ranges, or None."""
    if limit and reservation > limit:
        return f"reservation {reservation} is above limit {limit}"
    return None


def event_bytes(kind, values):
    """The same in both versions where the cost is 1."""
    first = kind | (values.get("COST", PLAIN["cost"]) - 1) << KIND_BITS
    return EVENT.pack(first, values.get("GUEST", 0), values.get("ID", 0), values["TIME"])


def hex_bytes(digits):
    if not re.fullmatch("([0-9a-fA-F]{2})*", digits):
        raise Bad("a raw line takes bytes of two hexadecimal digits each")
    return bytes.fromhex(digits)


# From bytes to text.


def to_text(trace, raw=False):
    """The text of a trace; with raw, bytes that are no good trace become raw lines."""
    try:
        version, lines, at = header_lines(trace)
    except Bad:
        if not raw:
            raise
        return "\n".join(raw_lines(trace)) + "\n"
    for event, at in enumerate(range(at, len(trace), EVENT.size), 1):
        lines.append(event_line(version, event, trace[at : at + EVENT.size], raw))
    return "\n".join(lines) + "\n"


def header_lines(trace):
    """The version, the header's lines, and where the events begin. Faults are found in the program's order."""
    version, depth, guests, capacity = start_of(trace)
    counts = [("depth", depth), ("guests", guests), ("capacity", capacity)]
    start = START.size
    if version == 2:
        if len(trace) == start:
            raise Bad(f"the header is cut short: {start} bytes of {start + RULE.size} (13)")
        counts += [("rule", *RULE.unpack_from(trace, start))]
        start += RULE.size
    for name, value in counts:
        most = MOST_GUESTS if name == "guests" else RANGES[name.upper()][1]
        if not 1 <= value <= most:
            raise Bad(f"{name} {value} is not from 1 to {most} (1)")
    end = header_length(trace)
    if len(trace) < end:
        raise Bad(f"the guest records are cut short: {len(trace)} bytes of {end} (13)")
    lines = ["version 2"] if version == 2 else []
    lines += [f"{name} {value}" for name, value in counts if name != "guests"]
    records = GUEST[version].iter_unpack(trace[start:end])
    return version, lines + [guest_line(guest, record) for guest, record in enumerate(records)], end


def start_of(trace):
    """The version and the counts that both versions begin with."""
    if len(trace) < START.size:
        raise Bad(f"the header is cut short: {len(trace)} bytes of {START.size} (13)")
    mark, version, *counts = START.unpack_from(trace)
    if mark != MARK:
        raise Bad("the trace does not begin with the letters SGQ (11)")
    if version not in GUEST:
        raise Bad(f"version {version} is neither 1 nor 2 (12)")
    return version, *counts


def guest_line(guest, record):
    """The line of a guest's record; one of version 2 has the credit too."""
    line = f"guest {guest}"
    for name, value in zip(("RESERVATION", "LIMIT", "SHARES", "CREDIT"), record):
        low, high = RANGES[name]
        if not low <= value <= high:
            raise Bad(f"guest {guest}: {name.lower()} {value} is not from {low} to {high} (1)")
        line += f" {name.lower()} {value}"
    why = settings_fault(*record[:3])
    if why:
        raise Bad(f"guest {guest}: {why} (1)")
    return line


def event_line(version, event, part, raw):
    """The line of an event, its number in a comment since the printed decisions go by it."""
    try:
        return f"{event_words(version, part)}  # {event}"
    except Bad as why:
        if not raw:
            raise Bad(f"event {event}: {why}") from None
        return f"{raw_line(part)}  # {event}: {why}"


def event_words(version, part):
    if len(part) < EVENT.size:
        raise Bad(f"cut short, {len(part)} bytes of {EVENT.size} (15)")
    kind, guest, name, time = EVENT.unpack(part)
    upper = 0
    if version == 2:
        kind, upper = kind % (1 << KIND_BITS), kind >> KIND_BITS
    if kind >= len(KINDS):
        raise Bad(f"kind {kind} is above 2 (14)")
    if KINDS[kind] == "arrival":
        return f"arrival {guest} {name} at {time_word(time)}" + (f" cost {upper + 1}" if upper else "")
    if upper:
        raise Bad(f"a {KINDS[kind]} with {upper} above its kind, where an arrival has its cost (14)")
    if KINDS[kind] == "completion":
        return f"completion {guest} {name} at {time_word(time)}"
    if guest or name:
        raise Bad(f"a tick with guest {guest} and id {name} (14)")
    return f"tick at {time_word(time)}"


def time_word(time):
    """The time in the largest unit that gives a whole number."""
    if time == 0:
        return "0"
    for unit, size in UNITS.items():
        if time % size == 0:
            return f"{time // size}{unit}"


def raw_lines(trace):
    return [raw_line(trace[at : at + 16]) for at in range(0, max(len(trace), 1), 16)]


def raw_line(part):
    return f"raw {part.hex(' ')}".rstrip()


# The command.


def write_bytes(stream, out):
    """Writes a text as bytes while it comes. A mistake past what is held back leaves a cut trace behind."""
    trace = Text()
    try:
        for part in trace_parts(lines_of(stream), trace):
            out.write(part)
    except Bad as why:
        if trace.handed == 0:
            raise
        out.write(trace.part() + trace.cut())
        out.flush()
        raise Bad(f"{why} (the events before it are written, and then a cut one)") from None


def main(words):
    if words not in (["bytes"], ["text"], ["text", "--raw"]):
        return said("say 'bytes', 'text' or 'text --raw'; input and output are standard", 2)
    signal.signal(signal.SIGPIPE, signal.SIG_DFL)  # where nobody reads on, a quiet end
    try:
        given = open(0, "rb", closefd=False)
        if words[0] == "bytes":
            write_bytes(given, sys.stdout.buffer)
        else:
            sys.stdout.buffer.write(to_text(given.read(), raw=len(words) == 2).encode())
        sys.stdout.buffer.flush()
    except Bad as why:
        return said(why, 1)
    except OSError as why:
        return said(f"input or output failed: {why.strerror}", 3)
    except KeyboardInterrupt:
        return 130
    return 0


def said(words, status):
    print(f"sgqtext.py: {words}", file=sys.stderr)
    return status


if __name__ == "__main__":
    sys.exit(main(sys.argv[1:]))

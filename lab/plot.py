"""Draws plots as SVG: lines over time or over another number, with the names of the lines at their ends. No other library is needed."""
import html
import math

WIDTH, HEIGHT = 380, 236
LEFT, RIGHT, TOP, BOTTOM = 46, 62, 34, 38
COLOURS = ["#2563eb", "#c2560c", "#0f8a5f", "#b4232f", "#6d3fc0", "#5b6472", "#a3157f", "#8a6d00"]
INK, PALE, GRID = "#1f2933", "#66717e", "#e3e7ec"
FONT = "font-family='system-ui, sans-serif'"


def colour(place):
    return COLOURS[place % len(COLOURS)]


# Parts of a drawing.


def text(x, y, words, size=11, fill=INK, anchor="start", more=""):
    place = f"x='{x:.1f}' y='{y:.1f}' font-size='{size}' fill='{fill}' text-anchor='{anchor}'"
    return f"<text {place} {FONT} {more}>{html.escape(str(words))}</text>"


def rect(x, y, wide, high, fill, more=""):
    return f"<rect x='{x:.1f}' y='{y:.1f}' width='{wide:.1f}' height='{high:.1f}' fill='{fill}' {more}/>"


def line(x1, x2, y1, y2, stroke, more=""):
    return f"<line x1='{x1:.1f}' x2='{x2:.1f}' y1='{y1:.1f}' y2='{y2:.1f}' stroke='{stroke}' {more}/>"


def svg(wide, high, name, words, parts):
    """A whole drawing, on white."""
    head = f"<svg xmlns='http://www.w3.org/2000/svg' viewBox='0 0 {wide} {high:.0f}' role='img'"
    head += f" aria-label='{html.escape(words, quote=True)}' data-plot='{name}'>"
    return "".join([head, rect(0, 0, wide, high, "#fff"), *parts, "</svg>\n"])


# Axes.


def nice(most, count=4):
    """A step of 1, 2 or 5 times a power of ten, so that some `count` of them reach the most."""
    least = max(most, 1e-9) / count
    size = 10 ** math.floor(math.log10(least))
    return next(size * times for times in (1, 2, 5, 10) if size * times >= least - 1e-12)


def shown(number):
    return f"{number:,.0f}" if number >= 10 or number == int(number) else f"{number:.2g}"


class Frame:
    """Where numbers stand in a plot."""

    def __init__(self, xs, most, x_from=None):
        self.low, self.high = (min(xs) if x_from is None else x_from), max(xs)
        self.step = nice(most)
        self.most = self.step * math.ceil(most / self.step - 1e-9)

    def x(self, number):
        return LEFT + (number - self.low) / max(self.high - self.low, 1e-9) * (WIDTH - LEFT - RIGHT)

    def y(self, number):
        return HEIGHT - BOTTOM - min(number, self.most) / self.most * (HEIGHT - TOP - BOTTOM)


def axes(frame, x_label, y_label):
    """Lines and numbers of both axes."""
    parts, number = [], 0
    while number <= frame.most * 1.0001:
        y = frame.y(number)
        parts.append(line(LEFT, WIDTH - RIGHT, y, y, PALE if number == 0 else GRID))
        parts.append(text(LEFT - 6, y + 4, shown(number), 10, PALE, "end"))
        number += frame.step
    step = nice(frame.high - frame.low, 5)
    number = math.ceil(frame.low / step) * step
    while number <= frame.high * 1.0001:
        parts.append(text(frame.x(number), HEIGHT - BOTTOM + 15, shown(number), 10, PALE, "middle"))
        number += step
    parts.append(text((LEFT + WIDTH - RIGHT) / 2, HEIGHT - 6, x_label, 10, PALE, "middle"))
    parts.append(text(4, TOP - 6, y_label, 10, PALE))
    return parts


# Plots.


def path(frame, points):
    """A line through the points; a point without a number breaks it."""
    words, pen = [], "M"
    for x, y in points:
        if y is None:
            pen = "M"
            continue
        words.append(f"{pen}{frame.x(x):.1f} {frame.y(y):.1f}")
        pen = "L"
    return "".join(words)


def drawn(frame, label, fill, points, kind):
    """One line of a plot, or its marks."""
    name = html.escape(label)
    if kind == "dots":
        for x, y in points:
            if y is not None:
                words = f"<title>{name}: {shown(x)}, {y:,.1f}</title>"
                yield f"<circle cx='{frame.x(x):.1f}' cy='{frame.y(y):.1f}' r='3.2' fill='{fill}'>{words}</circle>"
        return
    wide = "1" if kind == "faint" else "1.6"
    stroke = f"fill='none' stroke='{fill}' stroke-width='{wide}' stroke-linejoin='round'"
    yield f"<path d='{path(frame, points)}' {stroke}><title>{name}</title></path>"


def spread(labels):
    """Moves labels at the lines' ends apart, so that none stands on another; labels are (y, name, colour)."""
    placed, last = [], -100.0
    for y, name, fill in sorted(labels):
        last = max(y, last + 11)
        placed.append([last, name, fill])
    over = max(0, placed[-1][0] - (HEIGHT - BOTTOM + 4)) if placed else 0
    for place in range(len(placed) - 1, -1, -1):
        top = placed[place + 1][0] - 11 if place + 1 < len(placed) else placed[place][0] - over
        placed[place][0] = min(placed[place][0], top)
    return placed


def chart(title, series, x_label="seconds", y_label="a second", most=None, dashes=(), x_from=None, name=""):
    """A plot. Series are (name, colour, points, kind), and a kind is line, dots or faint; dashes are (number, colour)."""
    values = [y for _, _, points, _ in series for _, y in points if y is not None] + [number for number, _ in dashes]
    frame = Frame([x for _, _, points, _ in series for x, _ in points], most or max([*values, 1e-9]), x_from)
    parts = [text(4, 14, title, 12, INK, more="font-weight='600'"), *axes(frame, x_label, y_label)]
    for number, fill in dashes:
        parts.append(line(LEFT, WIDTH - RIGHT, frame.y(number), frame.y(number), fill, "stroke-dasharray='2 4'"))
    labels = []
    for label, fill, points, kind in series:
        parts += drawn(frame, label, fill, points, kind)
        ends = [y for _, y in points if y is not None]
        if ends and label and kind != "faint":
            labels.append((frame.y(ends[-1]) + 4, label, fill))
    parts += [text(WIDTH - RIGHT + 6, y, label, 10, fill, more="font-weight='600'") for y, label, fill in spread(labels)]
    words = f"{title}: {', '.join(dict.fromkeys(one[0] for one in series if one[0]))}"
    return svg(WIDTH, HEIGHT, name, words, parts)

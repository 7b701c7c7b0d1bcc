"""Writes the page of the lab: for each experiment what the paper says, what we measure beside it, plots, what was assumed, and where
and why it parts from the paper. It stands by itself: plots are in it, and nothing is fetched."""
import parts
import plot
from check import equation_of
from describe import GATES, Curve, Totals
from parts import chip, escape, table
from values import common_table, plain_number, values_table

LABELS = {"rate": "a second", "latency": "ms", "reserved": "a second"}
COLUMNS = {3: "ours", 4: "sign"}
ONE_PHASE = ("sfq", "first-come")  # gates that know no reservation


def number_text(what, number):
    if number is None:
        return "–"
    return f"{number:,.2f}" if what == "ratio" else f"{number:,.1f}" if what == "latency" else f"{number:,.0f}"


# Plots.


def time_series(one, results):
    """The lines of a plot over time, one run behind the other where there are two."""
    series = []
    for place, guest in enumerate(one.run.guests):
        points, begins = [], one.begins
        for run in [one.run, one.then] if one.then else [one.run]:
            played = results[run.name, one.gate]
            points += [(begins + x, y) for x, y in played.series(one.what, guest.name)]
            begins += len(played.cells[0])
        series.append((guest.name, plot.colour(place), points, "line"))
    return series


def curve_series(one, results):
    """Marks of what was measured, and thin lines of equation (1)."""
    series = []
    for place, (name, points) in enumerate(one.points.items()):
        found = [(x, results[row.run.name, one.gate].measure(row.what, row.guest, row.part)) for x, row in points]
        reckoned = [(x, equation_of(results[row.run.name, row.run.ours()], row.part).get(row.guest, 0)) for x, row in points]
        series += [(name, plot.colour(place), reckoned, "faint"), (name, plot.colour(place), found, "dots")]
    return series


def total_series(one, results):
    played = [(gate, results[one.run.name, gate]) for gate in one.gates]
    return [(GATES[gate], plot.colour(place), own.series("rate", None), "line") for place, (gate, own) in enumerate(played)]


def series_of(one, results):
    kinds = {Curve: curve_series, Totals: total_series}
    return kinds.get(type(one), time_series)(one, results)


def dashes_of(one):
    """Reservations and limits, where the gate knows them and they are the same all the time."""
    if one.what != "rate" or one.gate in ONE_PHASE or one.then:
        return []
    guests = enumerate(one.run.guests)
    marks = [(value, plot.colour(place)) for place, guest in guests for value in (guest.reservation, guest.limit) if value]
    return [(value.number, fill) for value, fill in marks if value.number > 1]


def draw(one, results, name, most):
    """A plot of an experiment as SVG, up to a number that plots beside it have too."""
    series = series_of(one, results)
    if isinstance(one, Curve):
        return plot.chart(one.title, series, one.axis, "a second", most, x_from=0, name=name)
    if isinstance(one, Totals):
        return plot.chart(one.title, series, most=most, name=name)
    return plot.chart(one.title, series, "seconds", LABELS[one.what], most, dashes_of(one), name=name)


def highest(line, results):
    """The most that plots beside each other have to show, but for one second in a thousand: some begin with a burst."""
    series = [points for one in line for _, _, points, _ in series_of(one, results)]
    values = sorted(y for points in series for _, y in points if y is not None)
    return max(values[int(0.999 * (len(values) - 1))] if values else 1, 1)


def own_chart(chart, name):
    """A plot of a claim, from its points by name."""
    title, x_label, y_label, lines = chart
    series = []
    for place, (label, points) in enumerate(lines.items()):
        series += [(label, plot.colour(place), points, "line"), ("", plot.colour(place), points, "dots")]
    return plot.chart(title, series, x_label, y_label, x_from=0, name=name)


def plots_of(experiment, results):
    """The plots of an experiment by name, in rows."""
    count, rows = 0, []
    for line in experiment.plots:
        most, row = highest(line, results), {}
        for one in line:
            count += 1
            name = f"{experiment.name}-{count}"
            row[name] = draw(one, results, name, most)
        rows.append(row)
    charts = list(experiment.charts(results)) if experiment.charts else []
    names = [f"{experiment.name}-{count + place}" for place in range(1, len(charts) + 1)]
    return [*rows, {name: own_chart(chart, name) for name, chart in zip(names, charts)}]


# Tables.


def gate_columns(experiment):
    """The gates beside ours, in the order in which the runs have them."""
    found = {}
    for row in experiment.rows:
        found.update((gate, None) for gate in row.run.gates if gate != row.run.ours())
    return list(found)


def sign_of(row, reasons):
    """Whether a number is the paper's or the equation's, or parts from it, and for which reason."""
    if row.because:
        return chip("off", f"parts, {reasons.setdefault(row.because, len(reasons) + 1)}")
    if row.within is not None and row.paper is not None:
        return chip("good", f"within {row.within:.0%}")
    return chip("good", "equation, within 2%") if row.equation else ""


def other_cell(row, gate, results):
    """What a gate beside ours gives, and what the paper says of it."""
    if gate not in row.run.gates or gate == row.run.ours() or (row.what == "reserved" and gate in ONE_PHASE):
        return ""
    found = number_text(row.what, results[row.run.name, gate].measure(row.what, row.guest, row.part))
    said = gate in row.others and row.paper is not None
    return f"{found} <small>(paper: {plain_number(row.others[gate][0])})</small>" if said else found


def row_cells(row, columns, results, reasons):
    """The cells of a row: the paper's number, equation (1), ours, the other gates'."""
    played = results[row.run.name, row.run.ours()]
    paper = plain_number(row.paper) if row.paper is not None else ""
    reckoned = number_text("rate", equation_of(played, row.part).get(row.guest)) if row.equation else ""
    ours = number_text(row.what, played.measure(row.what, row.guest, row.part))
    others = [other_cell(row, gate, results) for gate in columns]
    return [escape(row.says), paper, reckoned, ours, sign_of(row, reasons), *others]


def rows_table(experiment, results):
    """The table of an experiment, and below it why numbers part from the paper."""
    rows, columns, reasons = [row for row in experiment.rows if row.shown], gate_columns(experiment), {}
    if not rows:
        return ""
    spread = any(row.run.ours() == "arrays" for row in rows)
    names = ["gates apart" if gate == "library" and spread else GATES[gate] for gate in columns]
    heads = ["", "the paper", "equation (1)", "our gate", "", *names]
    drawn = table(heads, [row_cells(row, columns, results, reasons) for row in rows], classes=COLUMNS.items())
    why = "".join(f"<li>{escape(reason)}</li>" for reason in reasons)
    return drawn + (f"<h3>Where it parts from the paper or its equation, and why</h3><ol class='why'>{why}</ol>" if why else "")


def own_table(experiment, results):
    """The table of a claim."""
    if not experiment.table:
        return ""
    caption, heads, rows = experiment.table(results)
    cells = [[escape(cell) for cell in row] for row in rows]
    return f"<p><small>{escape(caption)}</small></p>{table([escape(head) for head in heads], cells)}"


# The page.


def chips(experiment, verdicts):
    """How many checks hold, and in how many ways it parts from the paper."""
    held = sum(not verdict.why for verdict in verdicts)
    ways = len({row.because for row in experiment.rows if row.because})
    found = [chip("good" if held == len(verdicts) else "bad", f"{held} of {len(verdicts)} checks hold")] if verdicts else []
    if ways:
        found.append(chip("off", f"parts from the paper in {ways} way{'s' if ways > 1 else ''}"))
    return " ".join(found)


def checks_list(verdicts):
    lines = [f"<li>{escape(one.says)} {chip('bad', one.why) if one.why else ''}</li>" for one in verdicts]
    return f"<details><summary>{len(lines)} checks</summary><ul>{''.join(lines)}</ul></details>" if lines else ""


def section(experiment, results, verdicts):
    says = "".join(f"<blockquote>{escape(words)}</blockquote>" for words in experiment.says)
    notes = "".join(f"<p>{escape(note)}</p>" for note in experiment.notes)
    pieces = [
        f"<section id='{experiment.name}'><h2>{escape(experiment.title)}</h2>",
        f"<p>{chips(experiment, verdicts)} <small>lab/experiments/{experiment.name}.py</small></p>",
        f"<h3>What the paper says</h3>{says}",
        rows_table(experiment, results),
        own_table(experiment, results),
        *(parts.figures(row.values()) for row in plots_of(experiment, results)),
        f"<h3>What to see</h3>{notes}" if notes else "",
        values_table(experiment),
        checks_list(verdicts),
    ]
    return "".join([*pieces, "</section>"])


ABOUT = f"""<p>The experiments of the mClock paper on the proved library, in front of a simulated array. Beside our gate stand two plain
ones: SFQ(D), by shares alone, and first come, first served. Time is simulated and all is whole numbers, so that every machine gets
the same figures.</p>
<p>Each number of an experiment is {chip("stated", "stated")} by the paper, {chip("fitted", "fitted")} so that a number of the paper
comes out, or {chip("assumed", "assumed")} where the paper does not say it. Dashed lines are reservations and limits. The tables are
requests a second where nothing else is said.</p>"""
CLAIMS = """<h2 id='claims'>What these rules do</h2><p>Not in the paper, and good to know before the rules are sold;
docs/BEHAVIOUR.md draws the conclusions.</p>"""
FOOT = """<footer>Written by ./sgq lab. The numbers of each run are in the CSV files beside this page, its plots in the SVG
files.</footer>"""


def chain_words(results):
    chains = [played.chain for played in results.values() if played.chain]
    if not chains:
        return "<p>The runs were not recorded this time.</p>"
    return f"""<p>{len(chains)} runs of our gate with one array were recorded as traces of version 2, {sum(chains):,} events in all.
<code>decide</code> and <code>sheet</code> print what the simulator wrote down while it ran, byte for byte, and <code>judge</code>
accepts it. A trace has no place for what several arrays count, so those runs are held to a count of the simulator's own.</p>"""


def whole(experiments, results, judged, shorter):
    """The page of all experiments."""
    links = [[f"<a href='#{one.name}'>{escape(one.title)}</a>", chips(one, judged[one.name])] for one in experiments]
    short = f"<p>{chip('off', 'short runs')} The paper's times are divided by {shorter:g}.</p>" if shorter != 1 else ""
    common = f"<h3>In all experiments, where nothing else is said</h3>{common_table()}"
    header = f"{ABOUT}{short}{chain_words(results)}<nav>{table([], links)}</nav>{common}"
    papers, claims = ([one for one in experiments if one.paper is paper] for paper in (True, False))
    drawn = ["".join(section(one, results, judged[one.name]) for one in some) for some in (papers, claims)]
    return parts.page("The paper's experiments, replayed", header, drawn[0] + (CLAIMS + drawn[1] if claims else "") + FOOT)

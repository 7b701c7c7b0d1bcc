#!/usr/bin/env python3
"""Shows a sheet to people: reads the lines that 'sheet' prints on standard input, and writes them under a heading, in aligned columns, waits in
readable units. A line that is none of a sheet is passed on as it is.

    ./sgq sheet --table
"""
import sys

HEADING = ("guest", "arrivals", "completed", "by reservation", "by weight", "ahead of limit", "longest wait", "mean wait", "summed wait", "waiting", "in flight")
UNITS = ((3_600_000_000_000, "h"), (60_000_000_000, "min"), (1_000_000_000, "s"), (1_000_000, "ms"), (1_000, "us"))


def readable(nanoseconds):
    """A wait to three decimals of the largest unit that it reaches, cut off and not rounded up."""
    for size, unit in UNITS:
        if nanoseconds >= size:
            return f"{nanoseconds // size}.{nanoseconds % size * 1000 // size:03} {unit}"
    return f"{nanoseconds} ns" if nanoseconds else "0"


def row(line):
    """The columns of a line of a sheet; the mean is the sum over what was sent."""
    guest, arrivals, completions, reservation, weight, ahead, longest, upper, lower, waiting, flight = map(int, line.split(" "))
    summed, sends = (upper << 64) + lower, reservation + weight
    waits = [readable(longest), readable(summed // sends) if sends else "-", readable(summed)]
    return [str(n) for n in (guest, arrivals, completions, reservation, weight, ahead)] + waits + [str(waiting), str(flight)]


def main():
    lines = sys.stdin.read().splitlines()
    if not lines or not lines[0][:1].isdigit():
        print(*lines, sep="\n")
        return
    rows = [list(HEADING), *map(row, lines)]
    widths = [max(map(len, column)) for column in zip(*rows)]
    for cells in rows:
        print("  ".join(cell.rjust(width) for cell, width in zip(cells, widths)))


if __name__ == "__main__":
    main()

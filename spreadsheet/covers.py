#!/usr/bin/env python3
"""What the months of the spreadsheet cover: prints the list, and fails where a row is missing or
README.md has another list.

    spreadsheet/covers.py
"""

import sys
from fractions import Fraction
from pathlib import Path

from exact import (MOST_CENTS, MOST_ENERGY, MOST_HOURS, MOST_PRICE, Sums, added, bands, cents,
                   exact_lines, facts_within, priced, refusal, sides)
from table import SHEETS, months

HERE = Path(__file__).parent


def ends(sheet):
    """The figures of a sheet that stand at an end of their limits."""
    name = "dts, gts" if sheet.kind in ("dts", "gts") else sheet.kind
    for figure, value, (low, high) in zip(sheet.sheet.names, sheet.values(), sheet.sheet.limits):
        if value == low:
            yield f"{name} `{figure}` lowest"
        if value == high:
            yield f"{name} `{figure}` highest"


def half(exact):
    return (2 * exact).denominator == 1 and exact.denominator == 2


def sign(exact):
    return "up" if exact > 0 else "down, below zero"


def rate_traits(month):
    """What a priced month shows of its rate."""
    s, kind = Sums(month), month.rate.kind
    yield f"rate {kind}, " + ("published figures" if month.rate.given[0 if kind != "sts" else 2] is None
                              else "figures given")
    for line, exact in exact_lines(month).items():
        if half(exact):
            yield f"half of line {line} {sign(exact)}"
        elif exact.denominator > 1:
            yield f"line {line} rounded " + ("up" if exact % 1 > Fraction(1, 2) else "down")
    if kind in ("dts", "gts"):
        peak, ratchet, contract = 10 * month.peak, 9 * month.earlier, 9 * month.contract
        if peak > max(ratchet, contract):
            yield "billing capacity by the peak"
        if ratchet > max(peak, contract):
            yield "billing capacity by the ratchet"
        if contract > max(peak, ratchet):
            yield "billing capacity by the contract"
        if s.capacity.denominator > 1:
            yield "billing capacity not in whole kW"
        gap = 10 * month.peak - 9 * month.apparent
        if -9 <= gap < 0:
            yield "power factor just below 90%"
        if gap == 0:
            yield "power factor 90%"
        if 0 < gap <= 10:
            yield "power factor just above 90%"
    if kind in ("xts", "dos"):
        first, second = sides(month)
        names = {"xts": ("the energy", "what was scheduled"), "dos": ("the energy", "the minimum")}
        yield f"{kind} line 9 by " + (names[kind][0] if first > second
                                      else names[kind][1] if second > first else "either, both alike")
        if cents(first) == cents(second) and first != second:
            yield f"{kind} line 9, both sides within a cent"
        if kind == "dos" and first < 0:
            yield "dos line 9, the energy's side below 0"
    if kind == "dos" and any(h.scheduled == 0 and h.energy > 0 for h in month.hours):
        yield "dos with hours that are no transaction hours"
    loss = {"dos": 3, "sts": 0}.get(kind)
    if loss is not None:
        value = month.rate.values()[loss]
        yield f"{kind} loss factor " + ("below 0" if value < 0 else "0" if value == 0 else "above 0")
    if s.hours == MOST_HOURS:
        yield "744 hours"
    if s.hours == 0:
        yield "no hours"


def rider_traits(month, stages):
    """What a priced month shows of its riders."""
    for place, (rider, beneath) in enumerate(zip(month.riders, stages)):
        line, exact = added(rider, month, beneath)
        if half(exact):
            yield f"half of rider {rider.kind} {sign(exact)}"
        if exact:
            yield f"rider {rider.kind} " + ("adds" if exact > 0 else "takes off")
        if rider.kind == "psc":
            yield "psc, " + ("published figures" if rider.given[1] is None else "figures given")
            last = max(k for k, part in enumerate(bands(month), 1) if part > 0)
            yield f"psc up to band {last}"
            yield "psc, contract " + ("all" if month.contract == month.substation else "a share") \
                + " of the substation"
        if place > 0:
            yield f"{rider.kind} over {month.riders[place - 1].kind}"


def traits(month):
    """What a month covers."""
    answer = refusal(month)
    if answer is not None:
        number = answer.split()[1]
        if number == "18":
            outside = next(x for x in [month.rate, *month.riders] if x.first_outside())
            place = outside.first_outside()
            kind = "dts, gts" if outside.kind in ("dts", "gts") else outside.kind
            yield f"18 for {kind} `{outside.sheet.names[place - 1]}`"
        elif number == "10" and facts_within(month):
            yield "10 for an hour"
            over = [h for h in month.hours if h.energy > MOST_ENERGY]
            yield "10 for an hour's " + ("energy" if over else "price" if any(
                h.price > MOST_PRICE for h in month.hours) else "scheduled kW")
        elif number == "10":
            yield "10 for a fact"
        else:
            yield "8 for more than 744 hours"
        return
    stages, answer = priced(month)
    if answer is not None:
        yield "15 with line and rider"
        if len(stages) < len(month.riders):
            yield "15 with riders above it"
        return
    if any(abs(a) == MOST_CENTS for a in stages[-1]):
        yield "a line at the limit of an amount"
    for line, amount in enumerate(stages[-1], 1):
        if amount:
            yield f"line {line} not 0"
    yield from rate_traits(month)
    yield from rider_traits(month, stages)
    for sheet in [month.rate, *month.riders]:
        yield from ends(sheet)


# What the months have to cover, apart from the figures' limits.
ROUNDED = (1, 2, 3, 4, 5, 6, 7, 8, 9, 11, 12)
KINDS = ("energy", "percent", "psc")
WANTED = {
    "Rates": [f"rate {k}, {w}" for k in ("dts", "gts", "xts", "dos", "sts")
              for w in ("published figures", "figures given")],
    "Lines": [f"line {k} not 0" for k in range(1, 15)],
    "Billing capacity": [f"billing capacity by the {w}" for w in ("peak", "ratchet", "contract")]
    + ["billing capacity not in whole kW"],
    "Power factor": ["power factor just below 90%", "power factor 90%", "power factor just above 90%"],
    "Greater of": [f"xts line 9 by {w}" for w in ("the energy", "what was scheduled", "either, both alike")]
    + ["xts line 9, both sides within a cent"]
    + [f"dos line 9 by {w}" for w in ("the energy", "the minimum", "either, both alike")]
    + ["dos line 9, both sides within a cent", "dos line 9, the energy's side below 0",
       "dos with hours that are no transaction hours"],
    "Loss factors": [f"{k} loss factor {w}" for k in ("dos", "sts") for w in ("below 0", "0", "above 0")],
    "Halves": [f"half of line {k} up" for k in ROUNDED] + ["half of line 11 down, below zero"]
    + [f"half of rider {k} {w}" for k in ("energy", "percent") for w in ("up", "down, below zero")]
    + ["half of rider psc down, below zero"],
    "Roundings": [f"line {k} rounded {w}" for k in ROUNDED for w in ("up", "down")],
    "Riders": [f"rider {k} {w}" for k in ("energy", "percent") for w in ("adds", "takes off")]
    + ["rider psc takes off", "psc, published figures", "psc, figures given"]
    + [f"psc up to band {k}" for k in (1, 2, 3, 4)]
    + [f"psc, contract {w} of the substation" for w in ("all", "a share")]
    + [f"{a} over {b}" for a in KINDS for b in KINDS],
    "Hours": ["744 hours", "no hours"],
    "Amounts": ["a line at the limit of an amount"],
    "Refusals": ["8 for more than 744 hours", "10 for a fact", "10 for an hour's energy",
                 "10 for an hour's price", "10 for an hour's scheduled kW", "15 with line and rider",
                 "15 with riders above it"],
}
FIGURES = [(sheet, name) for sheet in SHEETS if sheet != "gts" for name in SHEETS[sheet].names]


def figure_traits(sheet, name):
    """What the months have to show of a figure: both ends of its limits, and past one of them."""
    figure = f"{'dts, gts' if sheet == 'dts' else sheet} `{name}`"
    return figure, [f"{figure} lowest", f"{figure} highest", f"18 for {figure}"]


def wanted():
    """All that the months have to show."""
    yield from (trait for group in WANTED.values() for trait in group)
    yield from (trait for figure in FIGURES for trait in figure_traits(*figure)[1])


def covered(table):
    """The rows, from 1, that show each thing."""
    rows = {}
    for row, month in enumerate(table, 1):
        for trait in set(traits(month)):
            rows.setdefault(trait, []).append(row)
    return rows


def some(rows):
    """The first rows of many, in print."""
    return ", ".join(map(str, rows[:4])) + (f" and {len(rows) - 4} more" if len(rows) > 4 else "")


def covers(table):
    """The list of what the months cover, as lines of Markdown."""
    rows = covered(table)
    for group, list_of in WANTED.items():
        yield f"| {group} | Rows |"
        yield "|---|---|"
        yield from (f"| {trait} | {some(rows.get(trait, []))} |" for trait in list_of)
        yield ""
    yield "| Figure | At its lowest | At its highest | Outside, refused with 18 |"
    yield "|---|---|---|---|"
    for figure, list_of in (figure_traits(*figure) for figure in FIGURES):
        yield f"| {figure} | " + " | ".join(some(rows.get(trait, [])) for trait in list_of) + " |"


def main():
    table = months((HERE / "months.txt").read_text())
    rows, listed = covered(table), "\n".join(covers(table))
    print(listed)
    missing = [trait for trait in wanted() if trait not in rows]
    for trait in missing:
        print(f"no row covers: {trait}", file=sys.stderr)
    known = listed in (HERE / "README.md").read_text()
    if not known:
        print("README.md has another list", file=sys.stderr)
    return bool(missing) or not known


if __name__ == "__main__":
    sys.exit(main())

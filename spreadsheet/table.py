"""The table of months, read from its text.

A line is a month: facts, hours, rate and riders, with a bar between.

    C S P A H | COUNTxENERGY@PRICE[/SCHEDULED] .. | RATE | RIDER | ..

`#` begins a comment: after a month it says what that month shows, alone on a line what those below
it do. Figures that are left out are the published ones.
"""

from dataclasses import dataclass

# Each sheet's figures in their order, with the limits and the published figures (None where the
# figure is the point's own), as docs/RATES.md has them.
PER_MWH = (0, 100_000)
PER_MW = (0, 10_000_000)
PER_MONTH = (0, 10_000_000)
OF_PRICE = (0, 10_000)
SIGNED = (-10_000, 10_000)

DTS_LIMITS = [PER_MW, PER_MWH, PER_MW, PER_MONTH, OF_PRICE, PER_MWH, PER_MW, PER_MW]
DTS_NAMES = ["system_demand", "system_energy", "delivery_demand", "delivery_fixed",
             "operating_reserve", "voltage_control", "other_support", "power_factor"]


@dataclass(frozen=True)
class Sheet:
    names: list
    limits: list
    published: list


SHEETS = {
    "dts": Sheet(DTS_NAMES, DTS_LIMITS, [161500, 141, 65800, 2274500, 374, 99, 6800, 40000]),
    "gts": Sheet(DTS_NAMES, DTS_LIMITS, [161500, 141, 520700, 0, 374, 99, 6800, 40000]),
    "xts": Sheet(["interconnection", "operating_reserve", "voltage_control", "other_support"],
                 [PER_MWH, OF_PRICE, PER_MWH, PER_MWH], [377, 374, 99, 10]),
    "dos": Sheet(["energy", "transaction_fee", "opportunity_capacity", "loss_factor"],
                 [PER_MWH, PER_MONTH, (1, 1_000_000), SIGNED], [528, 50000, None, None]),
    "sts": Sheet(["loss_factor", "unit_rating", "unit_connection"],
                 [SIGNED, (0, 1_000_000), PER_MW], [None, None, 25900]),
    "energy": Sheet(["number", "rate"], [(1, 65_535), (-100_000, 100_000)], [None, None]),
    "percent": Sheet(["number", "factor"], [(1, 65_535), SIGNED], [None, None]),
    "psc": Sheet(["number", "first", "second", "third", "last", "fixed"],
                 [(1, 65_535)] + 4 * [(0, 500_000)] + [PER_MONTH],
                 [None, 217500, 75200, 44100, 42500, 386700]),
}

# The places, in a sheet, of the figures of a line, where they are not simply in their order: DOS is
# written with what is the point's own first.
WRITTEN = {"dos": [2, 3, 0, 1]}


@dataclass(frozen=True)
class Figures:
    """A rate or a rider with the figures given, None for each that was left out."""
    kind: str
    given: list

    @property
    def sheet(self):
        return SHEETS[self.kind]

    def values(self):
        return [p if g is None else g for g, p in zip(self.given, self.sheet.published)]

    def first_outside(self):
        """The place of the first figure outside its limits, from 1; 0 where there is none."""
        for place, (value, (low, high)) in enumerate(zip(self.values(), self.sheet.limits), 1):
            if not low <= value <= high:
                return place
        return 0


@dataclass(frozen=True)
class Hours:
    """So many hours alike."""
    count: int
    energy: int
    price: int
    scheduled: int


@dataclass(frozen=True)
class Month:
    contract: int
    substation: int
    peak: int
    apparent: int
    earlier: int
    hours: list
    rate: Figures
    riders: list
    # what the months around it show, and what this one does
    group: str
    note: str


def figures(text):
    kind, *words = text.split()
    places = WRITTEN.get(kind, range(len(SHEETS[kind].names)))
    given = [None] * len(SHEETS[kind].names)
    for place, word in zip(places, words, strict=False):
        given[place] = int(word)
    own = [i for i, p in enumerate(SHEETS[kind].published) if p is None]
    if len(words) not in (len(own), len(given)) or any(given[i] is None for i in own):
        raise ValueError(f"figures: {text}")
    return Figures(kind, given)


def hours(word):
    count, rest = word.split("x")
    energy, rest = rest.split("@")
    price, _, scheduled = rest.partition("/")
    return Hours(int(count), int(energy), int(price), int(scheduled or 0))


def month(text, group, note):
    facts, groups, rate, *riders = text.split("|")
    return Month(*map(int, facts.split()), [hours(word) for word in groups.split()],
                 figures(rate), [figures(rider) for rider in riders], group, note)


def months(text):
    """The months of a table, in their order."""
    found, group = [], ""
    for line in text.splitlines():
        written, _, note = line.partition("#")
        if written.strip():
            found.append(month(written, group, note.strip()))
        elif note.strip():
            group = note.strip()
    return found

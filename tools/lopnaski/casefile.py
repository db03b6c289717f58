"""The case file: its records, its bounds, reading and writing it. docs/MANUAL.md describes it.

Every figure is kept by its bits, so that what is read is written back byte for byte.
"""

import struct

from lopnaski.figures import of_bits

MOST_BYTES = 65536
MOST_BUSES = 256
MOST_CORRIDORS = 256
MOST_GENERATORS = 128
MOST_LEVELS = 5
MOST_TARGET = 65536
MODES = ("Expand", "Reinforce", "Observe", "ExpandServing", "ReinforceServing", "ObserveServing")
EXPAND, REINFORCE, OBSERVE = range(3)
# Modes from here on plan as those this much lower, and idle units serve what the dispatch leaves of the load.
SERVING = 3
BASES = ("thermal", "loadability")

# A corridor's fields, as FIELDS has them.
CORRIDOR = (("a", "H"), ("b", "H"), ("circuits", "B"), ("length", "Q"), ("share", "Q"))
# A record: its mark, its fields in the file's order with their kinds (struct's letters; Q is a figure by its bits).
FIELDS = {
    "HD": (("mode", "B"), ("target", "I"), ("buses", "H"), ("corridors", "H"), ("generators", "H"), ("above", "B"), ("requested", "B")),
    "LV": (("kv", "Q"),),
    "BU": (("tier", "B"), ("load", "Q")),
    # A bus whose reading has a weight (document 02, K6), of which its load is the product. All buses of a file are BU, or all are BV.
    "BV": (("tier", "B"), ("reading", "Q"), ("weight", "Q")),
    "GE": (("bus", "H"), ("slack", "B"), ("pmin", "Q"), ("pmax", "Q"), ("c1", "Q"), ("c2", "Q")),
    "CO": CORRIDOR,
    # A corridor with a cap of its own (document 02, K5), which may stand for any CO.
    "CP": CORRIDOR + (("cap", "B"),),
    "LN": (("r", "Q"), ("x", "Q"), ("b", "Q"), ("rate", "Q"), ("basis", "B")),
}
# Marks that may stand where another is due.
OTHERS = {"BU": "BV", "CO": "CP"}
WIDEST = {"B": 0xFF, "H": 0xFFFF, "I": 0xFFFFFFFF}
# The fields of which reading refuses a number above a bound (16).
SMALL = {"HD": ("mode", 5), "GE": ("slack", 1), "LN": ("basis", 1)}
NAMES = {"HD": "header", "LV": "level", "BU": "bus", "GE": "generator", "CO": "corridor", "LN": "line sheet row"}


class Refusal(Exception):
    """A refusal of document 01: its number and its index."""

    def __init__(self, number, index):
        super().__init__("RF %d %d" % (number, index))
        self.number = number
        self.index = index


class Case:
    """What a case file holds. A record is the list of its fields, in the file's order; a bus has the fields of BU or of BV, a corridor those of CO or of CP."""

    def __init__(self, header):
        self.header = header
        self.records = {mark: [] for mark, _ in tables_of(header)}
        self.padding = 0

    def head(self, field):
        """A field of the header."""
        return self.header[place_of("HD", field)]

    def count(self, mark):
        """How many records of this mark the case has."""
        return len(self.records[mark])

    def levels(self):
        """The kV of every level, highest first as the file has them."""
        return [self.figure("LV", place, "kv") for place in range(self.count("LV"))]

    def figure(self, mark, place, field):
        """A figure of the record at `place` of its table."""
        return of_bits(self.records[mark][place][place_of(mark, field)])

    def whole(self, mark, place, field):
        """A whole number of the record at `place` of its table."""
        return self.records[mark][place][place_of(mark, field)]

    def is_weighed(self):
        """Whether the buses are BV."""
        return any(mark_of("BU", fields) == "BV" for fields in self.records["BU"])

    def reading(self, bus):
        """What the survey clerk called at a bus, MW; a BU's load."""
        return of_bits(self.records["BU"][bus][1])

    def weight(self, bus):
        """What a bus's reading counts for; 1 in a BU."""
        fields = self.records["BU"][bus]
        return of_bits(fields[2]) if mark_of("BU", fields) == "BV" else 1.0

    def load(self, bus):
        """A bus's load, MW."""
        return self.reading(bus) * self.weight(bus)

    def cap(self, corridor):
        """A corridor's own cap, 0 where it has none."""
        return self.records["CO"][corridor][-1] if self.is_capped(corridor) else 0

    def is_capped(self, corridor):
        """Whether a corridor is a CP."""
        return len(self.records["CO"][corridor]) > len(FIELDS["CO"])


def place_of(mark, field):
    """The place of a field in its record."""
    return [name for name, _ in FIELDS[mark]].index(field)


def layout(mark):
    """A record's fields as struct takes them."""
    return "<" + "".join(kind for _, kind in FIELDS[mark])


def size(mark):
    """A record's length with its mark, bytes."""
    return 2 + struct.calcsize(layout(mark))


def mark_of(mark, fields):
    """The mark that a record of a table is written with: a bus's and a corridor's by its fields."""
    return next(stands for stands in marks_of(mark) if len(fields) == len(FIELDS[stands]))


def marks_of(mark):
    """The marks that may stand where one is due."""
    return (mark, OTHERS[mark]) if mark in OTHERS else (mark,)


def tables_of(header):
    """The tables after the header in the file's order: mark and count."""
    _, _, buses, corridors, generators, above, requested = header
    levels = above + requested
    return (("LV", levels), ("BU", buses), ("GE", generators), ("CO", corridors), ("LN", corridors * levels))


def counts_fault(header):
    """What of the header is outside its bounds (refusal 2): its field and why, or None."""
    _, target, buses, corridors, generators, above, requested = header
    bounds = (
        ("target", target, MOST_TARGET),
        ("buses", buses, MOST_BUSES),
        ("corridors", corridors, MOST_CORRIDORS),
        ("generators", generators, MOST_GENERATORS),
        ("above", above + requested, MOST_LEVELS),
    )
    for field, count, most in bounds:
        if count > most:
            what = "above and requested together are" if field == "above" else "%s is" % field
            return field, "%s %d, and %d is the most" % (what, count, most)
    if requested < 1:
        return "requested", "no level is requested, and at least one must be"
    return None


def read_record(data, at, mark, record):
    """The fields of the record at byte `at`, or the refusal that reading gives it."""
    end = at + size(mark)
    if len(data) < end:
        raise Refusal(14, record)
    if data[at : at + 2] != mark.encode():
        raise Refusal(15, record)
    fields = list(struct.unpack(layout(mark), data[at + 2 : end]))
    if mark in SMALL:
        field, most = SMALL[mark]
        if fields[place_of(mark, field)] > most:
            raise Refusal(16, record)
    return fields, end


def read(data):
    """The case that the bytes of a file hold. Raises Refusal as reading refuses."""
    if len(data) > MOST_BYTES:
        raise Refusal(13, 0)
    header, at = read_record(data, 0, "HD", 0)
    if counts_fault(header):
        raise Refusal(2, 0)
    case = Case(header)
    record = 1
    for mark, count in tables_of(header):
        for _ in range(count):
            stands = next((other for other in marks_of(mark) if data[at : at + 2] == other.encode()), mark)
            fields, at = read_record(data, at, stands, record)
            case.records[mark].append(fields)
            if mark == "BU" and len(fields) != len(case.records[mark][0]):
                raise Refusal(15, record)
            record += 1
    for place in range(at, len(data)):
        if data[place] != 0:
            raise Refusal(17, place)
    case.padding = len(data) - at
    return case


def written(case):
    """The bytes of the file of `case`."""
    parts = [b"HD", struct.pack(layout("HD"), *case.header)]
    for mark, _ in tables_of(case.header):
        for fields in case.records[mark]:
            stands = mark_of(mark, fields)
            parts += [stands.encode(), struct.pack(layout(stands), *fields)]
    parts.append(bytes(case.padding))
    return b"".join(parts)


def record_name(header, record):
    """What stands at the place `record` of a file with this header: its mark and its place in its table."""
    if record == 0:
        return "HD", 0
    place = record - 1
    for mark, count in tables_of(header):
        if place < count:
            return mark, place
        place -= count
    return None


def header_of(data):
    """The header of a file, where it has one that can be read."""
    try:
        return read_record(data, 0, "HD", 0)[0]
    except Refusal:
        return None

"""What planning asks of the tables of a case (refusals 3 to 7), said field by field."""

import math

from lopnaski.figures import shortest, text_of_bits

LEAST_STEP_KV = 1e-6


class Fault:
    """A record that planning refuses: the number, the record's mark and place in its table, the field and why."""

    def __init__(self, number, mark, place, field, why):
        self.number = number
        self.mark = mark
        self.place = place
        self.field = field
        self.why = why


def shown(case, mark, place, field):
    return text_of_bits(case.whole(mark, place, field))


def outside(case, mark, place, field, least, most, bounds):
    """Why a figure is not in [least, most]; None where it is. A NaN is never in it."""
    if least <= case.figure(mark, place, field) <= most:
        return None
    return "%s is %s, and must be %s" % (field, shown(case, mark, place, field), bounds)


def level_faults(case, place):
    kv = case.figure("LV", place, "kv")
    if not (0 < kv <= 10000):
        yield "kv", "kv is %s, and must be above 0 and at most 10,000" % shown(case, "LV", place, "kv")
    elif place + 1 < case.count("LV"):
        below = case.figure("LV", place + 1, "kv")
        if not kv > below + LEAST_STEP_KV:
            yield "kv", "kv is %s, and must be above that of the next level, %s: levels stand highest first" % (
                shown(case, "LV", place, "kv"),
                shown(case, "LV", place + 1, "kv"),
            )


def bus_faults(case, place):
    tier = case.whole("BU", place, "tier")
    if tier >= case.head("requested"):
        yield "tier", "tier is %d, and the requested levels are 0 to %d" % (tier, case.head("requested") - 1)
    fields = case.records["BU"][place]
    field = "reading" if case.is_weighed() else "load"
    if not 0.0 <= case.reading(place) <= 1e6:
        yield field, "%s is %s, and must be 0 to 1,000,000 MW" % (field, text_of_bits(fields[1]))
    elif not 0.0 < case.weight(place) <= 1e3:
        yield "weight", "weight is %s, and must be above 0 and at most 1,000" % text_of_bits(fields[2])
    elif not case.load(place) <= 1e6:
        yield "weight", "reading times weight is %s, and must be at most 1,000,000 MW" % shortest(case.load(place))


def no_bus(case, mark, place, field):
    """Why a field names no bus; None where it does."""
    bus, count = case.whole(mark, place, field), case.count("BU")
    if bus < count:
        return None
    return "%s is %d, and %s" % (field, bus, "there is no bus" if count == 0 else "the buses are 0 to %d" % (count - 1))


def generator_faults(case, place):
    why = no_bus(case, "GE", place, "bus")
    if why:
        yield "bus", why
    pmin, pmax = case.figure("GE", place, "pmin"), case.figure("GE", place, "pmax")
    if not 0 <= pmin:
        yield "pmin", "pmin is %s, and must be 0 or more" % shown(case, "GE", place, "pmin")
    if not pmax <= 1e6:
        yield "pmax", "pmax is %s, and must be at most 1,000,000 MW" % shown(case, "GE", place, "pmax")
    if pmin > pmax:
        yield "pmin", "pmin is %s, above pmax, %s" % (shown(case, "GE", place, "pmin"), shown(case, "GE", place, "pmax"))
    why = outside(case, "GE", place, "c1", 0.0, 1e6, "0 to 1,000,000")
    if why:
        yield "c1", why
    c2 = case.figure("GE", place, "c2")
    if not (math.isfinite(c2) and c2 >= 0):
        yield "c2", "c2 is %s, and must be finite and 0 or more" % shown(case, "GE", place, "c2")


def corridor_faults(case, place):
    for field in ("a", "b"):
        why = no_bus(case, "CO", place, field)
        if why:
            yield field, why
    if case.whole("CO", place, "a") == case.whole("CO", place, "b"):
        yield "b", "both ends are bus %d, and must be two different buses" % case.whole("CO", place, "a")
    if case.whole("CO", place, "circuits") > 64:
        yield "circuits", "circuits is %d, and 64 is the most" % case.whole("CO", place, "circuits")
    why = outside(case, "CO", place, "length", 0.0, 1e4, "0 to 10,000 km")
    if why:
        yield "length", why
    why = outside(case, "CO", place, "share", 0.5, 1.0, "0.5 to 1")
    if why:
        yield "share", why
    if case.cap(place) > 6:
        yield "cap", "cap is %d, and 6 is the most" % case.cap(place)


def line_faults(case, place):
    for field, least in (("r", "0 or more"), ("x", "above 0"), ("b", "0 or more")):
        figure = case.figure("LN", place, field)
        good = math.isfinite(figure) and (figure > 0 if field == "x" else figure >= 0)
        if not good:
            yield field, "%s is %s, and must be finite and %s" % (field, shown(case, "LN", place, field), least)
    why = outside(case, "LN", place, "rate", 0.001, 1e6, "0.001 to 1,000,000 MVA")
    if why:
        yield "rate", why


TABLES = (
    (3, "LV", level_faults),
    (4, "BU", bus_faults),
    (5, "GE", generator_faults),
    (6, "CO", corridor_faults),
    (7, "LN", line_faults),
)


def faults(case):
    """Every fault, in the order in which planning looks for them."""
    for number, mark, of_record in TABLES:
        for place in range(case.count(mark)):
            for field, why in of_record(case, place):
                yield Fault(number, mark, place, field, why)

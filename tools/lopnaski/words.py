"""Refusals in words, from docs/refusals.txt."""

import os

from lopnaski import casefile, checks

TABLE = os.path.join(os.path.dirname(os.path.abspath(__file__)), "..", "..", "docs", "refusals.txt")
# The refusals whose index is a row of the line sheet, and those whose index is a record's place in the file.
OF_ROWS, OF_RECORDS = (7,), (14, 15, 16)


class Entry:
    """A line of the table."""

    def __init__(self, number, meaning, index, remedy):
        self.number = int(number)
        self.meaning = meaning
        self.index = index
        self.remedy = remedy


def table():
    """The entries by their number."""
    with open(TABLE, encoding="ascii") as file:
        lines = [line.rstrip("\n") for line in file if not line.startswith("#")]
    return {entry.number: entry for entry in (Entry(*line.split("\t")) for line in lines)}


def named_row(data, row):
    """A row of the line sheet, with its corridor and its level: 20 (corridor 6, level 2)."""
    header = casefile.header_of(data)
    levels = header and header[casefile.place_of("HD", "above")] + header[casefile.place_of("HD", "requested")]
    return "%d (corridor %d, level %d)" % (row, row // levels, row % levels) if levels else str(row)


def named(data, record):
    """A record's place, with what it is where the header tells it: 7 (bus 4)."""
    if record == 0:
        return "0 (the header)"
    header = casefile.header_of(data)
    known = header and casefile.record_name(header, record)
    return "%d (%s %d)" % (record, casefile.NAMES[known[0]], known[1]) if known else str(record)


def meaning(refusal, data=b""):
    """What is wrong, with its index."""
    name = named_row if refusal.number in OF_ROWS else named if refusal.number in OF_RECORDS else lambda _, index: str(index)
    index = name(data, refusal.index)
    return table()[refusal.number].meaning.replace("{i}", index)


def sentence(refusal, data=b""):
    """One sentence: number, what is wrong, what to do."""
    return "refusal %d: %s; %s" % (refusal.number, meaning(refusal, data), table()[refusal.number].remedy)


def details(refusal, case):
    """Which fields of the refused record are wrong, where planning refuses a record of the tables (3 to 7)."""
    return [fault.why for fault in checks.faults(case) if (fault.number, fault.place) == (refusal.number, refusal.index)]

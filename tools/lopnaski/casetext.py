"""A case as text: a record a line, its mark and its fields, `#` comments, figures in decimals."""

import re

from lopnaski import casefile
from lopnaski.casefile import FIELDS, NAMES, SMALL, WIDEST
from lopnaski.figures import bits_of_text, text_of_bits

# A whole number; longer ones than any field can hold are none.
WHOLE = re.compile(r"\+?[0-9]{1,20}\Z")


class Wrong(Exception):
    """What is wrong in a text, with the line from 1 (0: the text as a whole)."""

    def __init__(self, line, why):
        super().__init__(why)
        self.line = line
        self.why = why


def whole_of(text, widest):
    """The whole number that a text says."""
    if not WHOLE.match(text):
        raise ValueError("'%s' is no whole number" % text if text else "there is no number")
    if int(text) > widest:
        raise ValueError("%s is too large: at most %d can be written" % (text, widest))
    return int(text)


def field_of(text, kind):
    """A field from its text."""
    return bits_of_text(text) if kind == "Q" else whole_of(text, WIDEST[kind])


def text_of(value, kind):
    """A field's text."""
    return text_of_bits(value) if kind == "Q" else str(value)


def line_of(mark, fields):
    """A record's line."""
    return " ".join([mark] + [text_of(value, kind) for value, (_, kind) in zip(fields, FIELDS[mark])])


def heading(mark):
    """The comment that stands before a table: the names of its fields."""
    return "# " + " ".join([mark] + [name for name, _ in FIELDS[mark]])


def remark(case, mark, place):
    """What a reader wants to know beside a record."""
    if mark == "LN":
        levels = case.count("LV")
        kv = text_of_bits(case.records["LV"][place % levels][0])
        return "corridor %d at %s kV" % (place // levels, kv)
    return "%s %d" % (NAMES[mark], place)


def shown(case):
    """The text of a case. `case_of` reads it back to the same bytes."""
    lines = [heading("HD"), line_of("HD", case.header)]
    for mark, _ in casefile.tables_of(case.header):
        marks = [casefile.mark_of(mark, fields) for fields in case.records[mark]]
        lines += [heading(stands) for stands in casefile.marks_of(mark) if stands in marks]
        for place, fields in enumerate(case.records[mark]):
            lines.append("%s  # %s" % (line_of(marks[place], fields), remark(case, mark, place)))
    if case.padding:
        lines += ["# zero bytes after the last record", "PAD %d" % case.padding]
    return "\n".join(lines) + "\n"


def records_of(text):
    """The lines that say something: number from 1, words."""
    for number, line in enumerate(text.split("\n"), 1):
        words = line.split("#", 1)[0].split()
        if words:
            yield number, words


def parsed(number, words, mark):
    """The fields of one line, whose mark is to be `mark`."""
    fields = FIELDS[mark]
    if len(words) - 1 != len(fields):
        names = " ".join(name for name, _ in fields)
        raise Wrong(number, "%s has %d fields (%s), and here are %d" % (mark, len(fields), names, len(words) - 1))
    values = []
    for word, (name, kind) in zip(words[1:], fields):
        try:
            values.append(field_of(word, kind))
        except ValueError as error:
            raise Wrong(number, "%s, %s: %s" % (mark, name, error)) from None
    return values


def small_fault(mark, values):
    """A field that reading would refuse (16): its name and why, or None."""
    if mark not in SMALL:
        return None
    field, most = SMALL[mark]
    value = values[casefile.place_of(mark, field)]
    return None if value <= most else "%s, %s: %d is above %d" % (mark, field, value, most)


def record_of(number, words, mark):
    values = parsed(number, words, mark)
    why = small_fault(mark, values)
    if why:
        raise Wrong(number, why)
    return values


def header_of(lines):
    number, words = next(lines, (0, None))
    if words is None:
        raise Wrong(0, "there is no record: the first is HD")
    if words[0] != "HD":
        raise Wrong(number, "the first record is HD, and here is %s" % words[0])
    header = record_of(number, words, "HD")
    fault = casefile.counts_fault(header)
    if fault:
        raise Wrong(number, "HD, %s: %s" % fault)
    return header


def table_of(lines, mark, count, where):
    """`count` records with this mark, and their lines in `where`."""
    due = casefile.marks_of(mark)
    for place in range(count):
        number, words = next(lines, (0, None))
        if words is None:
            raise Wrong(0, "the text ends after %d of %d %s records, as HD counts them" % (place, count, mark))
        if words[0] not in due:
            why = "here is %s, and %s record %d of %d is due, as HD counts them" % (words[0], " or ".join(due), place + 1, count)
            both = mark == "BU" and words[0] in casefile.marks_of(mark)
            raise Wrong(number, why + (": the buses of a case are all BU, or all BV" if both else ""))
        if mark == "BU":
            due = (words[0],)
        where[mark, place] = number
        yield record_of(number, words, words[0])


def padding_of(lines, room):
    """The zero bytes that a line PAD asks for; nothing may follow it."""
    number, words = next(lines, (0, None))
    if words is None:
        return 0
    if words[0] != "PAD":
        raise Wrong(number, "here is %s, and all records that HD counts have been read" % words[0])
    if len(words) != 2 or not WHOLE.match(words[1]) or int(words[1]) > room:
        raise Wrong(number, "PAD wants one whole number, here at most %d: a file has at most %d bytes" % (room, casefile.MOST_BYTES))
    after = next(lines, None)
    if after:
        raise Wrong(after[0], "nothing follows PAD, and here is %s" % after[1][0])
    return int(words[1])


def case_of(text):
    """The case that a text says, and the line of each record. Raises Wrong."""
    lines = iter(list(records_of(text)))
    case = casefile.Case(header_of(lines))
    where = {}
    for mark, count in casefile.tables_of(case.header):
        case.records[mark] = list(table_of(lines, mark, count, where))
    case.padding = padding_of(lines, casefile.MOST_BYTES - len(casefile.written(case)))
    return case, where

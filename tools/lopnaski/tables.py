"""A case as a folder of CSV tables, as a survey office keeps them. docs/MANUAL.md names the columns.

What is wrong is gathered, each with its file, line and column, so that a clerk can correct all of it at once.
"""

import csv
import io
import os
import re

from lopnaski import casefile, checks, sheet as sheets, words
from lopnaski.casefile import BASES, FIELDS, MODES, WIDEST
from lopnaski.casetext import WHOLE, text_of, whole_of
from lopnaski.figures import DECIMAL, bits_of_text, text_of_bits

# The columns of each table in the order in which they are written; those in brackets may be left out. Of a bus there is its load, or its
# reading and the weight of that.
COLUMNS = {
    "case": ("mode", "target"),
    "levels": ("[level]", "kv", "requested"),
    "buses": ("[bus]", "level", "[load]", "[reading]", "[weight]"),
    "generators": ("[generator]", "bus", "slack", "pmin", "pmax", "c1", "c2"),
    "corridors": ("[corridor]", "a", "b", "circuits", "length", "share", "[cap]", "[spread]"),
    "lines": ("corridor", "level", "r", "x", "b", "rate", "basis"),
}
# lines.csv has a row for each corridor and level, which is looked for row by row.
MOST_ROWS = {
    "case": 1,
    "levels": casefile.MOST_LEVELS,
    "buses": casefile.MOST_BUSES,
    "generators": casefile.MOST_GENERATORS,
    "corridors": casefile.MOST_CORRIDORS,
}
TABLE_OF = {"LV": "levels", "BU": "buses", "GE": "generators", "CO": "corridors", "LN": "lines"}
YES_NO = {"yes": 1, "y": 1, "true": 1, "1": 1, "no": 0, "n": 0, "false": 0, "0": 0}
KV = re.compile(r"(.*?)\s*kv\Z", re.IGNORECASE)
# A column that is only read: a case file does not hold it.
ONLY_READ = ("[spread]",)
# Of a sheet that cannot be worked out: the table and the column at fault, by the refusal's number.
AT_FAULT = {3: ("levels", "kv"), 6: ("corridors", "length"), 22: ("corridors", "spread")}
# As many missing rows are named one by one.
FEW = 5


class Faulty(Exception):
    """What is wrong with the tables: one line each, with file, line and column."""

    def __init__(self, faults):
        super().__init__("\n".join(faults))
        self.faults = faults


class Row:
    """A row of a table: its line from 1 and its cells by column."""

    def __init__(self, line, cells):
        self.line = line
        self.cells = cells


class Folder:
    """The tables of a folder, and what was found wrong in them."""

    def __init__(self, path):
        self.path = path
        self.faults = []
        self.rows = {}

    def wrong(self, table, why, line=None, column=None):
        where = table + ".csv"
        if line:
            where += ", line %d" % line
        if column:
            where += ", column %s" % column
        self.faults.append("%s: %s" % (where, why))

    def cell(self, table, row, column, meaning):
        """What a cell says by `meaning`, which raises ValueError with a reason; 0 where it says nothing."""
        try:
            return meaning(row.cells[column])
        except ValueError as error:
            self.wrong(table, str(error), row.line, column)
            return 0

    def end_if_faulty(self):
        if self.faults:
            raise Faulty(self.faults)


def bare(column):
    return column.strip("[]")


def is_optional(column):
    return column.startswith("[")


def delimiter_of(text):
    """The mark between cells: a comma, or the semicolon or tab that some offices' programs write; the header tells."""
    header = next((line for line in text.split("\n") if line.strip()), "")
    return next((mark for mark in (",", ";", "\t") if mark in header), ",")


def text_of_file(folder, table):
    """A table's text, or None with a fault."""
    path = os.path.join(folder.path, table + ".csv")
    try:
        with open(path, "rb") as file:
            data = file.read()
    except FileNotFoundError:
        folder.wrong(table, missing(table))
        return None
    except OSError as error:
        folder.wrong(table, "it cannot be read: %s" % error.strerror)
        return None
    try:
        return data.decode("utf-8-sig")
    except UnicodeDecodeError as error:
        line = data[: error.start].count(b"\n") + 1
        folder.wrong(table, "it is not UTF-8 text: save it as CSV UTF-8", line)
        return None


def missing(table):
    if table == "lines":
        return "it is missing, and the line sheet is needed: a row for each corridor and level with r, x, b, rate and basis; or a spread for each corridor in corridors.csv"
    columns = ", ".join(bare(column) for column in COLUMNS[table])
    return "it is missing; its columns are %s" % columns


def header_columns(folder, table, line, names):
    """The columns that a header names, in its order; None with a fault."""
    known = [bare(column) for column in COLUMNS[table]]
    before = len(folder.faults)
    for name in names:
        if name not in known:
            folder.wrong(table, "column '%s' is not one of %s" % (name, ", ".join(known)), line)
        elif names.count(name) > 1:
            folder.wrong(table, "column '%s' stands twice" % name, line)
            break
    for column in COLUMNS[table]:
        if not is_optional(column) and column not in names:
            folder.wrong(table, "column '%s' is missing" % column, line)
    if table == "buses" and len(folder.faults) == before:
        for why in load_columns(names):
            folder.wrong(table, why, line)
    return names if len(folder.faults) == before else None


def load_columns(names):
    """What is wrong with the columns that say the load: it is there, or both reading and weight."""
    if "load" in names:
        more = [name for name in ("reading", "weight") if name in names]
        if more:
            yield "column '%s' beside 'load': a bus has a load, or a reading and its weight" % more[0]
    elif "reading" in names and "weight" not in names:
        yield "column 'weight' is missing beside 'reading'"
    elif "weight" in names and "reading" not in names:
        yield "column 'reading' is missing beside 'weight'"
    elif "reading" not in names:
        yield "column 'load' is missing"


def width_fault(cells, names):
    why = "%d cells, and the header has %d" % (len(cells), len(names))
    return why + ": is there a comma in a number?" if len(cells) > len(names) else why


def is_left_out(folder, table):
    """Whether a table may be missing and is: the line sheet, where every corridor has a spread."""
    if table != "lines" or os.path.exists(os.path.join(folder.path, "lines.csv")):
        return False
    return all(row.cells.get("spread") for row in folder.rows["corridors"]) and not folder.faults


def read_rows(folder, table):
    """The rows of a table; none with faults."""
    if is_left_out(folder, table):
        return []
    text = text_of_file(folder, table)
    if text is None:
        return []
    reader = csv.reader(io.StringIO(text, newline=""), delimiter=delimiter_of(text), strict=True)
    names, rows = None, []
    try:
        for cells in reader:
            cells = [cell.strip() for cell in cells]
            if not any(cells):
                continue
            if names is None:
                names = header_columns(folder, table, reader.line_num, [cell.lower() for cell in cells])
                if names is None:
                    return []
            elif len(cells) != len(names):
                folder.wrong(table, width_fault(cells, names), reader.line_num)
            else:
                rows.append(Row(reader.line_num, dict(zip(names, cells))))
    except csv.Error as error:
        folder.wrong(table, "it is no CSV here: %s" % error, reader.line_num)
    if names is None and not any(fault.startswith(table + ".csv") for fault in folder.faults):
        folder.wrong(table, "it is empty; its header is %s" % ",".join(bare(column) for column in COLUMNS[table]), 1)
    return rows


def count_rows(folder, table):
    """A fault where a table has more rows than its bound, or none where one is needed."""
    rows, most = folder.rows[table], MOST_ROWS.get(table, len(folder.rows[table]))
    if len(rows) > most:
        folder.wrong(table, "this is row %d, and %d is the most" % (most + 1, most), rows[most].line)
    if table == "case" and not rows and not folder.faults:
        folder.wrong(table, "it has no row: mode and target are needed")
    if table == "levels" and not rows and not folder.faults:
        folder.wrong(table, "it has no row: at least one requested level is needed")


def choice(words):
    """A meaning: one of some words, or its number."""

    def meaning(text):
        for number, word in enumerate(words):
            if text.lower() == word.lower() or text == str(number):
                return number
        raise ValueError("'%s' is none of %s" % (text, ", ".join("%s (%d)" % (w, n) for n, w in enumerate(words))))

    return meaning


def yes_no(text):
    if text.lower() not in YES_NO:
        raise ValueError("'%s' is neither yes (1) nor no (0)" % text)
    return YES_NO[text.lower()]


def field_meaning(mark, field):
    """A meaning: what a field of this record can hold."""
    kind = dict(FIELDS[mark])[field]
    if field == "slack":
        return yes_no
    if field == "basis":
        return choice(BASES)
    if kind == "Q":
        return bits_of_text
    return lambda text: whole_of(text, WIDEST[kind])


class Names:
    """The rows of one table, to which other tables refer by name or by number from 0."""

    def __init__(self, folder, table, column, numbers):
        """`numbers`: how many numbers may be used; more than there are rows where a case is written as it is."""
        self.what, self.count, self.numbers = column, len(folder.rows[table]), numbers
        self.by_name = {}
        for place, row in enumerate(folder.rows[table]):
            name = row.cells.get(column, "").lower()
            why = self.fault(name, place)
            if why:
                folder.wrong(table, why, row.line, column)
            if name:
                self.by_name.setdefault(name, place)

    def fault(self, name, place):
        """Why a name cannot be this row's."""
        if name in self.by_name:
            return "the name '%s' stands twice" % name
        if WHOLE.match(name) and int(name) != place:
            return "'%s' cannot name this row, which is %d counted from 0: a name that is a number must be the row's own" % (name, place)
        return None

    def __call__(self, text):
        """A meaning: the row that a cell names."""
        if text.lower() in self.by_name:
            return self.by_name[text.lower()]
        if WHOLE.match(text) and int(text) < self.numbers:
            return int(text)
        raise ValueError(self.unknown(text))

    def unknown(self, text):
        """Why a cell names no row."""
        if not text:
            return "no %s is named" % self.what
        return "there is no %s '%s': %s" % (self.what, text, self.known())

    def known(self):
        """What may be named."""
        if not self.count:
            return "the table has no row"
        names = any(not WHOLE.match(name) for name in self.by_name)
        return "they are 0 to %d%s" % (self.count - 1, ", or the names of the table" if names else "")


class Levels(Names):
    """Levels by name, by number or by their kV: '69 kV'."""

    def __init__(self, folder, kv, numbers):
        super().__init__(folder, "levels", "level", numbers)
        self.kv = kv

    def __call__(self, text):
        match = KV.match(text)
        if match and text.lower() not in self.by_name and DECIMAL.match(match.group(1)):
            bits = bits_of_text(match.group(1))
            if self.kv.count(bits) == 1:
                return self.kv.index(bits)
        return super().__call__(text)

    def known(self):
        return "they are " + ", ".join("%d (%s kV)" % (place, text_of_bits(kv)) for place, kv in enumerate(self.kv))


def levels_of(folder):
    """The levels' kV, how many stand above the request and how many are requested."""
    kv, above, requested = [], 0, 0
    for row in folder.rows["levels"]:
        kv.append(folder.cell("levels", row, "kv", bits_of_text))
        if folder.cell("levels", row, "requested", yes_no):
            requested += 1
        elif requested:
            why = "a level that is not requested follows one that is: those above the request come first"
            folder.wrong("levels", why, row.line, "requested")
        else:
            above += 1
    if folder.rows["levels"] and not requested:
        folder.wrong("levels", "no level is requested, and at least one must be", column="requested")
    return kv, above, requested


def tier_of(levels, above):
    """A meaning: the tier of a bus at a level."""

    def meaning(text):
        level = levels(text)
        if level < above:
            raise ValueError("level '%s' stands above the request, and a bus is at a requested level" % text)
        return level - above

    return meaning


def plain(mark, *but):
    """The fields of a record but some, each by its own name and meaning."""
    return tuple((field, field_meaning(mark, field)) for field, _ in FIELDS[mark] if field not in but)


def records_of(folder, table, meanings):
    """The records of a table: each field by its column and meaning."""
    return [[folder.cell(table, row, column, meaning) for column, meaning in meanings] for row in folder.rows[table]]


def sheet_of(folder, corridors, levels):
    """The line sheet, from rows in any order: the records by their place in the file, and the rows likewise."""
    sheet, rows = {}, {}
    places = records_of(folder, "lines", (("corridor", corridors), ("level", levels)))
    records = records_of(folder, "lines", plain("LN"))
    for row, (corridor, level), record in zip(folder.rows["lines"], places, records):
        place = corridor * levels.count + level
        if place in rows and not folder.faults:
            why = "corridor %d has a row for level %d already, in line %d" % (corridor, level, rows[place].line)
            folder.wrong("lines", why, row.line)
        rows.setdefault(place, row)
        sheet.setdefault(place, record)
    if not folder.faults:
        work_out(folder, sheet, levels)
    if not folder.faults:
        say_missing_rows(folder, sheet, corridors, levels)
    return sheet, rows


def work_out(folder, sheet, levels):
    """Adds the rows of each corridor that has a spread and no row."""
    surveyed = {place // levels.count for place in sheet}
    corridors = folder.rows["corridors"]
    lacking = [k for k, row in enumerate(corridors) if row.cells.get("spread") and k not in surveyed]
    figures = [[folder.cell("corridors", corridors[k], column, bits_of_text) for column in ("length", "spread")] for k in lacking]
    if not lacking or folder.faults:
        return
    try:
        records = sheets.worked(levels.kv, figures)
    except casefile.Refusal as refusal:
        table, column = AT_FAULT[refusal.number]
        row = folder.rows["levels"][refusal.index] if table == "levels" else corridors[lacking[refusal.index]]
        folder.wrong(table, "the line sheet cannot be worked out: %s" % words.meaning(refusal), row.line, column)
        return
    for place, record in enumerate(records):
        sheet[lacking[place // levels.count] * levels.count + place % levels.count] = record


def say_missing_rows(folder, sheet, corridors, levels):
    lacking = [place for place in range(corridors.count * levels.count) if place not in sheet]
    for place in lacking[:FEW]:
        corridor, level = divmod(place, levels.count)
        kv = text_of_bits(levels.kv[level])
        folder.wrong("lines", "the sheet has no row for corridor %d at level %d (%s kV)" % (corridor, level, kv))
    if len(lacking) > FEW:
        folder.wrong("lines", "and %d more rows are missing: there is one for each corridor and level" % (len(lacking) - FEW))


def header_fields(folder, above, requested):
    """The header's fields from case.csv and the counts of the other tables."""
    row = folder.rows["case"][0]
    mode = folder.cell("case", row, "mode", choice(MODES))
    target = folder.cell("case", row, "target", lambda text: whole_of(text, WIDEST["I"]))
    if target > casefile.MOST_TARGET:
        folder.wrong("case", "target is %d, and %d is the most" % (target, casefile.MOST_TARGET), row.line, "target")
    counts = [len(folder.rows[table]) for table in ("buses", "corridors", "generators")]
    return [mode, target] + counts + [above, requested]


def say_bounds(folder, case, sheet_rows):
    """A fault for each field that planning would refuse."""
    for fault in checks.faults(case):
        table = TABLE_OF[fault.mark]
        if table == "lines" and fault.place not in sheet_rows:
            corridor, level = divmod(fault.place, case.count("LV"))
            why = "at level %d its worked-out row cannot be used: %s" % (level, fault.why)
            folder.wrong("corridors", why, folder.rows["corridors"][corridor].line)
            continue
        row = sheet_rows[fault.place] if table == "lines" else folder.rows[table][fault.place]
        folder.wrong(table, fault.why, row.line, "level" if fault.field == "tier" else fault.field)


def case_of(path, as_is=False):
    """The case of a folder of tables. Raises Faulty. `as_is`: also one that planning will refuse."""
    folder = Folder(path)
    for table in COLUMNS:
        folder.rows[table] = read_rows(folder, table)
        count_rows(folder, table)
    folder.end_if_faulty()
    kv, above, requested = levels_of(folder)
    levels = Levels(folder, kv, above + WIDEST["B"] + 1 if as_is else len(kv))
    buses = Names(folder, "buses", "bus", WIDEST["H"] + 1 if as_is else len(folder.rows["buses"]))
    corridors = Names(folder, "corridors", "corridor", len(folder.rows["corridors"]))
    Names(folder, "generators", "generator", 0)
    case = casefile.Case(header_fields(folder, above, requested))
    case.records["LV"] = [[bits] for bits in kv]
    weighed = any("weight" in row.cells for row in folder.rows["buses"])
    case.records["BU"] = records_of(folder, "buses", (("level", tier_of(levels, above)),) + plain("BV" if weighed else "BU", "tier"))
    case.records["GE"] = records_of(folder, "generators", (("bus", buses),) + plain("GE", "bus"))
    case.records["CO"] = records_of(folder, "corridors", (("a", buses), ("b", buses)) + plain("CO", "a", "b"))
    for row, record in zip(folder.rows["corridors"], case.records["CO"]):
        if row.cells.get("cap"):
            record.append(folder.cell("corridors", row, "cap", field_meaning("CP", "cap")))
    folder.end_if_faulty()
    levels.numbers = levels.count
    sheet, sheet_rows = sheet_of(folder, corridors, levels)
    folder.end_if_faulty()
    case.records["LN"] = [sheet[place] for place in range(len(sheet))]
    if not as_is:
        say_bounds(folder, case, sheet_rows)
        folder.end_if_faulty()
    return case


def level_names(case):
    """How the tables call each level: by its kV where that is a decimal and only it has it, else by its number."""
    kv = [fields[0] for fields in case.records["LV"]]
    names = []
    for place, bits in enumerate(kv):
        text = text_of_bits(bits)
        names.append(text + " kV" if DECIMAL.match(text) and kv.count(bits) == 1 else str(place))
    return names


def rows_of(case, mark):
    """The rows of a table but lines.csv, without its header."""
    names = level_names(case)
    for place, fields in enumerate(case.records[mark]):
        cells = [text_of(value, kind) for value, (_, kind) in zip(fields, FIELDS[casefile.mark_of(mark, fields)])]
        if mark == "LV":
            cells += ["yes" if place >= case.head("above") else "no"]
        if mark == "BU":
            level = case.head("above") + fields[0]
            cells[0] = names[level] if level < len(names) else str(level)
        if mark == "GE":
            cells[1] = "yes" if fields[1] else "no"
        yield [str(place)] + cells


def line_rows(case):
    """The rows of lines.csv."""
    names = level_names(case)
    for place, fields in enumerate(case.records["LN"]):
        corridor, level = divmod(place, len(names))
        cells = [text_of(value, kind) for value, (_, kind) in zip(fields, FIELDS["LN"])]
        yield [str(corridor), names[level]] + cells[:-1] + [BASES[fields[-1]]]


def written_columns(case, table):
    """The columns of a table that are written: caps where some corridor has one, reading and weight where the buses are BV, and nothing that a case file does not hold."""
    caps = any(case.is_capped(k) for k in range(case.count("CO")))
    without = ONLY_READ + (() if caps else ("[cap]",)) + (("[load]",) if case.is_weighed() else ("[reading]", "[weight]"))
    return [bare(column) for column in COLUMNS[table] if column not in without]


def texts(case):
    """The text of each table of a case, by its name."""
    content = {table: rows_of(case, mark) for mark, table in TABLE_OF.items() if mark != "LN"}
    content["case"] = [[MODES[case.head("mode")], str(case.head("target"))]]
    content["lines"] = line_rows(case)
    made = {}
    for table in COLUMNS:
        columns = written_columns(case, table)
        out = io.StringIO(newline="")
        writer = csv.writer(out, lineterminator="\n")
        writer.writerow(columns)
        writer.writerows(row + [""] * (len(columns) - len(row)) for row in content[table])
        made[table] = out.getvalue()
    return made

"""The command ./report: a plan as one page or as plain text."""

import math
import os
import subprocess
import sys
import textwrap
from html import escape

from lopnaski import casefile, drawing, layout, listing, tables, words
from lopnaski.case import Failure, bytes_of, write_out
from lopnaski.casefile import EXPAND, MODES, OBSERVE, SERVING
from lopnaski.figures import rounded, shortest

USAGE = """usage: ./report [--text | --svg] [--exact] [--listing LISTING] [--names FOLDER] FILE
  FILE                 a case file, - for standard input; ./plan is run on it
  --text               plain text for a terminal, and not a page
  --svg                the drawing alone
  --exact              every figure as the shortest decimal that reads back to it, and none rounded
  --listing LISTING    the plan from what ./plan printed before, and not from a run now
  --names FOLDER       the names of the buses from the tables in FOLDER, beside their numbers
Exit status: 0 a plan, 1 a refusal (the page says what is wrong and what to do), 2 everything else."""

STYLE = """body{font-family:sans-serif;max-width:75em;margin:1.5em auto;padding:0 1em;color:#111;background:#fff;line-height:1.4}
h1{font-size:1.5em}h2{font-size:1.15em;margin-top:1.8em}.draw{overflow:auto;border:1px solid #ccc}.draw svg{display:block;margin:auto}
#fit:checked~.draw svg{max-width:100%;height:auto}
table{border-collapse:collapse;font-variant-numeric:tabular-nums}th,td{padding:.2em .7em;text-align:right;border-bottom:1px solid #ddd}
th{background:#f2f2f2;vertical-align:bottom}.t{overflow-x:auto}.bad{color:#c4001a;font-weight:bold}.note{color:#555;font-size:.9em}
@media print{.draw{border:0;overflow:visible}.draw svg{max-width:100%;height:auto}tr{break-inside:avoid}}"""

MOST_ROUNDS = 64
TEXT_WIDTH = 120
DRAWING_NOTE = (
    "Places are chosen for the drawing: a case has none. A bus is called by its number; "
    "a pointer held over a bus or a corridor shows its figures."
)
# What a plan of each mode is.
DONE = (
    "a plan that may raise voltages and add circuits",
    "a plan that adds circuits and transformers and keeps every voltage",
    "the network as it is, only measured",
)
SERVES = ", where idle units serve what the dispatch leaves of the load"
# A difference of load and output below this share of the load is rounding.
NOTHING = 1e-6


class Table:
    """A table of a report: its title, what it says of rounding, its columns and rows of text."""

    def __init__(self, title, note, columns, rows):
        self.title = title
        self.note = note
        self.columns = columns
        self.rows = rows


class Report:
    """A plan beside its case, as sentences and tables."""

    def __init__(self, case, plan, exact, names=None):
        """`names`: how each bus is called; by its number where there is none."""
        self.case, self.plan, self.exact = case, plan, exact
        self.names = names or [str(bus) for bus in range(case.count("BU"))]

    def figure(self, value, places):
        return shortest(value) if self.exact else rounded(value, places)

    def rounding(self, text):
        return "Figures are shortest decimals that read back to the same value" if self.exact else text

    def initial(self, corridor):
        return max(1, self.case.whole("CO", corridor, "circuits"))

    # ---- sentences

    def sentences(self):
        """What the plan did, in a few sentences."""
        return [self.what(), self.supply(), self.rounds(), self.changes(), self.loadings()]

    def what(self):
        case = self.case
        mode = case.head("mode")
        fills = mode % SERVING == EXPAND and case.head("target")
        target = ", with a target of %s" % count(case.head("target"), "circuit") if fills else ""
        return "%s: %s, for %s, %s and %s%s." % (
            MODES[mode],
            DONE[mode % SERVING] + (SERVES if mode >= SERVING else ""),
            count(case.count("BU"), "bus", "buses"),
            count(case.count("CO"), "corridor"),
            count(case.count("GE"), "generator"),
            target,
        )

    def supply(self):
        case, plan = self.case, self.plan
        load = math.fsum(case.load(bus) for bus in range(case.count("BU")))
        given = math.fsum(plan.dispatch)
        islands = count(len(plan.grounds), "island")
        text = "The load is %s MW in %s; the generators give %s MW at a cost of %s an hour." % (
            self.figure(load, 2),
            islands,
            self.figure(given, 2),
            self.figure(self.cost(), 2),
        )
        unserved, beyond = self.imbalance()
        if unserved:
            text += " %s MW are not served." % self.figure(unserved, 2)
        if beyond:
            text += " %s MW are given beyond the load of their island." % self.figure(beyond, 2)
        return text + (" The ground of an island takes up the difference." if unserved or beyond else "")

    def imbalance(self):
        """The load that islands lack in MW, and what they are given beyond it; what is rounding alone is nothing."""
        case, lacking, beyond = self.case, [], []
        ends = [(case.whole("CO", k, "a"), case.whole("CO", k, "b")) for k in range(case.count("CO"))]
        for members in layout.islands_of(case.count("BU"), ends):
            load = math.fsum(case.load(bus) for bus in members)
            given = math.fsum(p for k, p in enumerate(self.plan.dispatch) if case.whole("GE", k, "bus") in members)
            if abs(load - given) > NOTHING * max(1.0, load):
                (lacking if load > given else beyond).append(abs(load - given))
        return math.fsum(lacking), math.fsum(beyond)

    def cost(self):
        """c1 p + c2 p^2 over all generators; what a unit costs at standstill is not in a case."""
        case = self.case
        return math.fsum(
            case.figure("GE", k, "c1") * p + case.figure("GE", k, "c2") * p * p for k, p in enumerate(self.plan.dispatch)
        )

    def rounds(self):
        tallies = self.plan.tallies
        if self.case.head("mode") % SERVING == OBSERVE:
            return "No round was run."
        if not self.case.count("CO"):
            return "There is no corridor, so no round was run."
        ran = count(tallies["rounds"], "round")
        angles = self.case.head("mode") % SERVING == EXPAND
        if tallies["converged"]:
            within = "every corridor was within 90 % of its rating" + (" and every island's angles within their limit" if angles else "")
            return "After %s the plan settled: %s%s." % (ran, within, ", before the filling" if tallies["filler"] else "")
        if tallies["rounds"] == MOST_ROUNDS:
            return "The plan did not settle: all %s were used." % ran
        left = "a corridor needs more circuits than it may have" + (", or the angles of an island spread too wide" if angles else "")
        return "After %s nothing more could be done, and the plan did not settle: %s." % (ran, left)

    def changes(self):
        tallies = self.plan.tallies
        changes = []
        if tallies["promoted"]:
            changes.append("%s of a bus to a higher level" % count(tallies["promoted"], "move"))
        if tallies["upsized"]:
            changes.append("larger transformers on %s" % count(tallies["upsized"], "corridor"))
        for tally, why in (("capacity", "for capacity"), ("stiffening", "to narrow the angles"), ("filler", "to reach the target")):
            if tallies[tally]:
                changes.append("%s added %s" % (count(tallies[tally], "circuit"), why))
        if not changes:
            return "No voltage was raised, no transformer enlarged and no circuit added."
        return "Changed: " + ", ".join(changes) + "."

    def loadings(self):
        plan = self.plan
        text = "The heaviest loading is %s %% of a rating, the widest spread of angles in an island %s degrees." % (
            self.figure(100.0 * plan.loading, 1),
            self.figure(math.degrees(plan.spread), 2),
        )
        for tally, word in (("overloaded", "overloaded"), ("capped", "capped, with a flow that needs more circuits than the corridor may have")):
            if plan.tallies[tally]:
                text += " %s %s." % (count(plan.tallies[tally], "corridor is", "corridors are"), word)
        return text

    # ---- tables

    def tables(self):
        made = [self.corridors(), self.units(), self.buses()]
        return made + [self.added()] if self.plan.added else made

    def corridors(self):
        rows = []
        for k in range(self.case.count("CO")):
            start, end = self.plan.ends(self.case, k)
            rows.append(
                [str(k), self.names[start], self.names[end], shortest(self.plan.kv(self.case, start))]
                + [str(self.case.whole("CO", k, "circuits")), str(self.plan.circuits[k])]
                + [self.figure(self.plan.flows[k], 2), self.figure(self.plan.rates[k], 2)]
                + [self.figure(100.0 * self.plan.loading_of(k), 1), self.mark(k)]
            )
        note = (
            "A flow is that of all circuits, above 0 from the first end to the second; a rating is one circuit's; "
            "loading is the flow as a share of all circuits' ratings. "
        ) + self.rounding("Flow and rating are rounded to 0.01, loading to 0.1")
        columns = ("corridor", "from", "to", "kV", "circuits before", "circuits after", "flow, MW", "rating, MVA", "loading, %", "marks")
        return Table("Corridors", note, columns, rows)

    def mark(self, corridor):
        marks = ["overloaded"] if self.plan.is_overloaded(corridor) else []
        marks += ["capped"] if self.plan.is_capped(self.case, corridor) else []
        added = self.plan.circuits[corridor] - self.initial(corridor)
        marks += ["%d added" % added] if added else []
        return ", ".join(marks)

    def units(self):
        case, rows = self.case, []
        for k, p in enumerate(self.plan.dispatch):
            price = case.figure("GE", k, "c1") + 2.0 * case.figure("GE", k, "c2") * p
            rows.append(
                [str(k), self.names[case.whole("GE", k, "bus")], self.figure(p, 2)]
                + [shortest(case.figure("GE", k, field)) for field in ("pmin", "pmax")]
                + [self.figure(price, 4), "slack" if case.whole("GE", k, "slack") else ""]
            )
        note = "The price is c1 + 2 c2 p at the unit's output. " + self.rounding("MW are rounded to 0.01, prices to 0.0001")
        return Table("Generators", note, ("generator", "bus", "output, MW", "least, MW", "most, MW", "price", "marks"), rows)

    def buses(self):
        case, plan, rows = self.case, self.plan, []
        levels = case.levels()[case.head("above") :]
        for bus in range(case.count("BU")):
            before, after = levels[case.whole("BU", bus, "tier")], plan.kv(case, bus)
            marks = ["raised"] if after > before else []
            marks += ["ground"] if bus in plan.grounds else []
            called = [shortest(case.reading(bus)), shortest(case.weight(bus))] if case.is_weighed() else []
            rows.append(
                [self.names[bus], shortest(before), shortest(after)]
                + called
                + [shortest(case.load(bus)), self.figure(math.degrees(plan.angles[bus]), 2), ", ".join(marks)]
            )
        note = self.rounding("Angles are rounded to 0.01 degrees") + "; the ground of an island has angle 0"
        called = ()
        if case.is_weighed():
            note += "; a load is the reading times its weight, rounded once"
            called = ("reading, MW", "weight")
        return Table("Buses", note, ("bus", "kV before", "kV after") + called + ("load, MW", "angle, degrees", "marks"), rows)

    def added(self):
        return Table("Added levels", "Levels above the request that the plan raised a bus to", ("kV",), [[shortest(kv)] for kv in self.plan.added])


def count(number, one, many=None):
    return "%d %s" % (number, one if number == 1 else many or one + "s")


# ---- as a page


def page(title, body):
    return (
        '<!DOCTYPE html>\n<html lang="en"><head><meta charset="utf-8"><meta name="viewport" content="width=device-width, initial-scale=1">'
        "<title>%s</title><style>%s</style></head>\n<body>\n<h1>%s</h1>\n%s</body></html>\n" % (escape(title), STYLE, escape(title), body)
    )


def html_cell(cell):
    bad = ' class="bad"' if cell.startswith(("overloaded", "capped")) else ""
    return "<td%s>%s</td>" % (bad, escape(cell))


def html_table(table):
    head = "".join("<th>%s</th>" % escape(column) for column in table.columns)
    rows = ["<tr>%s</tr>" % "".join(html_cell(cell) for cell in row) for row in table.rows]
    return '<h2>%s</h2><p class="note">%s.</p><div class="t"><table><thead><tr>%s</tr></thead><tbody>\n%s\n</tbody></table></div>\n' % (
        escape(table.title),
        escape(table.note),
        head,
        "\n".join(rows),
    )


def plan_page(name, report):
    body = "<p>%s</p>\n" % escape(" ".join(report.sentences()))
    fit = '<input type="checkbox" id="fit"><label for="fit">the whole drawing at once</label>'
    body += '<h2>The network</h2>%s<div class="draw">%s</div>\n' % (fit, plan_drawing(name, report))
    body += '<p class="note">%s</p>\n' % DRAWING_NOTE
    return page("Plan of " + name, body + "".join(html_table(table) for table in report.tables()))


def plan_drawing(_, report):
    return drawing.Drawing(report.case, report.plan, report.names).svg()


def refusal_page(name, refusal, data, details):
    lines = refusal_lines(refusal, data, details)
    return page("No plan of " + name, "".join("<p>%s</p>\n" % escape(line) for line in lines))


# ---- as text


def text_table(table):
    grid = [table.columns] + table.rows
    widths = [max(len(row[k]) for row in grid) for k in range(len(table.columns))]
    lines = ["  ".join(cell.rjust(width) for cell, width in zip(row, widths)).rstrip() for row in grid]
    return "%s\n%s\n\n%s\n" % (table.title, wrapped(table.note + "."), "\n".join(lines))


def wrapped(text):
    return textwrap.fill(text, TEXT_WIDTH)


def plan_text(name, report):
    title = "Plan of " + name
    parts = [title + "\n" + "=" * len(title) + "\n", "\n".join(wrapped(line) for line in report.sentences()) + "\n"]
    return "\n".join(parts + [text_table(table) for table in report.tables()])


def refusal_text(name, refusal, data, details):
    return "\n".join(["No plan of " + name, ""] + [wrapped(line) for line in refusal_lines(refusal, data, details)]) + "\n"


def refusal_lines(refusal, data, details):
    """What is wrong, where, and what to do."""
    entry = words.table()[refusal.number]
    lines = ["The case was refused: %s." % words.meaning(refusal, data)]
    lines += ["In detail: %s." % "; ".join(details)] if details else []
    lines.append("What to do: %s." % entry.remedy)
    lines.append("(Refusal %d, index %d: %s.)" % (refusal.number, refusal.index, entry.index))
    return lines


# ---- the command


class Options:
    def __init__(self, arguments):
        self.text = self.svg = self.exact = False
        self.listing = self.names = self.file = None
        rest = list(arguments)
        while rest:
            word = rest.pop(0)
            if word in ("--text", "--svg", "--exact"):
                setattr(self, word[2:], True)
            elif word in ("--listing", "--names") and rest:
                setattr(self, word[2:], rest.pop(0))
            elif self.file is None and (word == "-" or not word.startswith("-")):
                self.file = word
            else:
                raise Failure(USAGE, 2)
        if self.file is None or self.text and self.svg:
            raise Failure(USAGE, 2)


def listing_of(options, data):
    """What ./plan prints of a case file."""
    if options.listing:
        return bytes_of(options.listing, listing_most()).decode("ascii", "replace")
    plan = os.path.join(os.path.dirname(os.path.abspath(__file__)), "..", "..", "plan")
    run = subprocess.run([plan, "-"], input=data, stdout=subprocess.PIPE, stderr=None, check=False)
    if run.returncode not in (0, 1):
        raise Failure("./plan gave no listing (status %d)" % run.returncode, 2)
    return run.stdout.decode("ascii", "replace")


def listing_most():
    """A listing has at most 903 lines of at most 213 bytes."""
    return 903 * 213


def planned(data, text):
    """The case and the plan. Raises Refusal; Failure where the two do not belong together."""
    try:
        plan = listing.parse(text)
    except ValueError as error:
        raise Failure("the listing cannot be used: %s" % error, 2) from None
    case = casefile.read(data)
    if not listing.fits(plan, case):
        raise Failure("the listing is not of this case", 2)
    return case, plan


def details_of(refusal, data):
    """What exactly is wrong, where the case can be read so far."""
    header = casefile.header_of(data)
    if refusal.number == 2 and header and casefile.counts_fault(header):
        return [casefile.counts_fault(header)[1]]
    try:
        return words.details(refusal, casefile.read(data))
    except casefile.Refusal:
        return []


def names_of(folder, case):
    """How the tables of a folder call the buses of a case: number and name."""
    read = tables.Folder(folder)
    rows = tables.read_rows(read, "buses")
    if read.faults:
        raise Failure("\n".join(read.faults), 2)
    if len(rows) != case.count("BU"):
        raise Failure("buses.csv has %d rows, and the case %d buses" % (len(rows), case.count("BU")), 2)
    names = [row.cells.get("bus", "") for row in rows]
    return [str(bus) if name in ("", str(bus)) else "%d %s" % (bus, name) for bus, name in enumerate(names)]


def run(options):
    data = bytes_of(options.file)
    name = "standard input" if options.file == "-" else os.path.basename(options.file)
    try:
        case, plan = planned(data, listing_of(options, data))
        report = Report(case, plan, options.exact, options.names and names_of(options.names, case))
    except casefile.Refusal as refusal:
        make = refusal_page if not (options.text or options.svg) else refusal_text
        write_out(make(name, refusal, data, details_of(refusal, data)).encode())
        return 1
    make = plan_text if options.text else plan_drawing if options.svg else plan_page
    write_out(make(name, report).encode())
    return 0


def main(arguments):
    try:
        if arguments in (["help"], ["--help"], ["-h"]):
            write_out((USAGE + "\n").encode())
            return 0
        return run(Options(arguments))
    except Failure as failure:
        for line in str(failure).split("\n"):
            print("report: %s" % line, file=sys.stderr)
        return failure.status

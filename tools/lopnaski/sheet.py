"""Line sheets, worked out by the proved program `answers` from the levels' kV and each corridor's length and spread."""

import os
import subprocess
import sys

from lopnaski import casefile, casetext, words
from lopnaski.casefile import Refusal
from lopnaski.casetext import Wrong
from lopnaski.figures import bits_of_text, of_bits, text_of_bits

PROGRAM = os.path.join(os.path.dirname(os.path.abspath(__file__)), "..", "..", "target", "bin", "answers")
ROW = len(casefile.FIELDS["LN"])
# The records of a table: marks and the names of their figures, in the order in which they stand.
FIGURES = {"LV": ("kv",), "SP": ("length", "spread")}


class Failure(Exception):
    """Why the program gave no answer."""


def request(kv, corridors):
    """The program's line; one past a bound is enough for it to refuse a count."""
    kv = kv[: casefile.MOST_LEVELS + 1]
    corridors = corridors[: casefile.MOST_CORRIDORS + 1]
    figures = lambda bits: ["%016X" % b for b in bits]
    fields = [str(len(kv))] + figures(kv) + [str(len(corridors))]
    return " ".join(["SHEET"] + fields + figures(b for corridor in corridors for b in corridor)) + "\n"


def asked(line):
    """The program's answer to a line."""
    try:
        run = subprocess.run([PROGRAM], input=line.encode(), stdout=subprocess.PIPE, check=False)
    except OSError as error:
        raise Failure("target/bin/answers cannot be run (%s): `tools/build-programs answers` proves and builds it" % error.strerror) from None
    if run.returncode != 0 or not run.stdout.endswith(b"\n"):
        raise Failure("target/bin/answers gave no whole answer")
    return run.stdout.decode("ascii", "replace").split()


def worked(kv, corridors):
    """The sheet's records, all levels of the first corridor first, from bits. Raises Refusal."""
    answer = asked(request(kv, corridors))
    if answer[:1] == ["RF"] and len(answer) == 3:
        raise Refusal(int(answer[1]), int(answer[2]))
    if answer[:1] != ["OK"] or len(answer) != 1 + ROW * len(kv) * len(corridors):
        raise Failure("target/bin/answers gave another answer than a sheet: is it older than this tool?")
    figures = [int(word, 16) for word in answer[1:]]
    rows = [figures[at : at + ROW] for at in range(0, len(figures), ROW)]
    return [row[:-1] + [int(of_bits(row[-1]))] for row in rows]


def table_of(text):
    """The levels' kV and the corridors of a table, by their bits, and the line of each. Raises Wrong."""
    records, where = {"LV": [], "SP": []}, {}
    for number, line in casetext.records_of(text):
        mark = line[0]
        if mark not in FIGURES:
            raise Wrong(number, "here is %s, and a record is LV kv or SP length spread" % mark)
        if mark == "LV" and records["SP"]:
            raise Wrong(number, "here is LV, and all levels stand before the corridors")
        where[mark, len(records[mark])] = number
        records[mark].append(figures_of(number, mark, line[1:]))
    return [kv for kv, in records["LV"]], records["SP"], where


def figures_of(number, mark, fields):
    names = FIGURES[mark]
    if len(fields) != len(names):
        raise Wrong(number, "%s has %d figures (%s), and here are %d" % (mark, len(names), " ".join(names), len(fields)))
    bits = []
    for name, field in zip(names, fields):
        try:
            bits.append(bits_of_text(field))
        except ValueError as error:
            raise Wrong(number, "%s, %s: %s" % (mark, name, error)) from None
    return bits


def shown(kv, rows):
    """The rows as LN records of a case's text."""
    lines = [casetext.heading("LN")]
    for place, fields in enumerate(rows):
        corridor, level = divmod(place, len(kv))
        lines.append("%s  # corridor %d at %s kV" % (casetext.line_of("LN", fields), corridor, text_of_bits(kv[level])))
    return "\n".join(lines) + "\n"


def text_of(name):
    with sys.stdin.buffer if name == "-" else open(name, "rb") as file:
        return file.read().decode("utf-8-sig")


def sentence(name, where, refusal):
    """A refusal in words, with the line of the table where a record is refused."""
    if refusal.number == 2:
        return "%s: refusal 2: it has not 1 to %d levels and at most %d corridors" % (name, casefile.MOST_LEVELS, casefile.MOST_CORRIDORS)
    line = where["LV" if refusal.number == 3 else "SP", refusal.index]
    return "%s, line %d: %s" % (name, line, words.sentence(refusal))


def answer(name):
    """What goes to standard output, and the exit status."""
    kv, corridors, where = table_of(text_of(name))
    try:
        return shown(kv, worked(kv, corridors)), 0
    except Refusal as refusal:
        say(sentence(name, where, refusal))
        return "%s\n" % refusal, 1


def main(arguments):
    """`./plan sheet TABLE`: 0 for a sheet, 1 for a refusal, 2 for everything else."""
    name = arguments[0]
    try:
        text, status = answer(name)
        write_out(text.encode())
        return status
    except Wrong as wrong:
        say("%s, line %d: %s" % (name, wrong.line, wrong.why))
    except UnicodeDecodeError:
        say("%s is not UTF-8 text" % name)
    except OSError as error:
        say("%s: %s" % (name, error.strerror))
    except Failure as failure:
        say(str(failure))
    return 2


def write_out(data):
    try:
        sys.stdout.buffer.write(data)
        sys.stdout.buffer.flush()
    except OSError as error:
        os.dup2(os.open(os.devnull, os.O_WRONLY), sys.stdout.fileno())
        raise Failure("standard output: %s" % error.strerror) from None


def say(message):
    print("plan: %s" % message, file=sys.stderr)

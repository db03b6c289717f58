"""The command ./case."""

import os
import sys

from lopnaski import casefile, casetext, checks, sheet, tables, words

USAGE = """usage:
  ./case make SOURCE > FILE    the case file of SOURCE: a text, - for one on standard input, or a folder of CSV tables
  ./case show FILE             the case as text, which make reads back to the same bytes
  ./case csv FILE FOLDER       the case as CSV tables in FOLDER
make --as-is also takes tables that planning will refuse. docs/MANUAL.md describes the text, the tables and the file."""
MOST_FAULTS = 25


class Failure(Exception):
    """A message and the exit status: 1 for what is wrong with a case, 2 for everything else."""

    def __init__(self, message, status=1):
        super().__init__(message)
        self.status = status


def bytes_of(name, most=casefile.MOST_BYTES):
    """A file's bytes, at most one more than `most`; - is standard input."""
    try:
        if name == "-":
            return sys.stdin.buffer.read(most + 1)
        with open(name, "rb") as file:
            return file.read(most + 1)
    except OSError as error:
        raise Failure("%s: %s" % (name, error.strerror), 2) from None


def text_of(name):
    """A text file, whole."""
    try:
        if name == "-":
            data = sys.stdin.buffer.read()
        else:
            with open(name, "rb") as file:
                data = file.read()
    except OSError as error:
        raise Failure("%s: %s" % (name, error.strerror), 2) from None
    if data[:2] == b"HD" and b"\0" in data[:15]:
        raise Failure("%s is a case file already; ./case show prints it" % name)
    try:
        return data.decode("utf-8-sig")
    except UnicodeDecodeError as error:
        line = data[: error.start].count(b"\n") + 1
        raise Failure("%s, line %d: it is not UTF-8 text" % (name, line)) from None


def read(name):
    """The case of a file; its refusal in words."""
    data = bytes_of(name)
    try:
        return casefile.read(data)
    except casefile.Refusal as refusal:
        raise Failure("%s: %s" % (name, words.sentence(refusal, data))) from None


def from_text(name):
    """The case of a text; what planning will refuse is only noted, so that such a case can be written."""
    try:
        case, where = casetext.case_of(text_of(name))
    except casetext.Wrong as wrong:
        place = ", line %d" % wrong.line if wrong.line else ""
        raise Failure("%s%s: %s" % (name, place, wrong.why)) from None
    for fault in list(checks.faults(case))[:MOST_FAULTS]:
        line = where[fault.mark, fault.place]
        say("%s, line %d: note: planning will refuse this (%d): %s" % (name, line, fault.number, fault.why))
    return case


def from_tables(name, as_is):
    try:
        return tables.case_of(name, as_is)
    except tables.Faulty as faulty:
        shown = faulty.faults[:MOST_FAULTS]
        if len(faulty.faults) > MOST_FAULTS:
            shown.append("and %d more" % (len(faulty.faults) - MOST_FAULTS))
        raise Failure("\n".join(os.path.join(name, "") + line for line in shown)) from None
    except sheet.Failure as failure:
        raise Failure(str(failure), 2) from None


def make(source, as_is=False):
    if sys.stdout.isatty():
        raise Failure("the case file goes to standard output: add > FILE", 2)
    case = from_tables(source, as_is) if os.path.isdir(source) else from_text(source)
    write_out(casefile.written(case))


def show(name):
    write_out(casetext.shown(read(name)).encode())


def to_tables(name, folder):
    made = tables.texts(read(name))
    paths = {table: os.path.join(folder, table + ".csv") for table in made}
    for path in paths.values():
        if os.path.exists(path):
            raise Failure("%s is there already: name another folder, or remove it" % path, 2)
    try:
        os.makedirs(folder, exist_ok=True)
        for table, text in made.items():
            with open(paths[table], "w", encoding="utf-8", newline="") as file:
                file.write(text)
    except OSError as error:
        raise Failure("%s: %s" % (error.filename, error.strerror), 2) from None


def write_out(data):
    try:
        sys.stdout.buffer.write(data)
        sys.stdout.buffer.flush()
    except OSError as error:
        os.dup2(os.open(os.devnull, os.O_WRONLY), sys.stdout.fileno())
        raise Failure("standard output: %s" % error.strerror, 2) from None


def say(message):
    for line in message.split("\n"):
        print("case: %s" % line, file=sys.stderr)


def run(arguments):
    if arguments in (["help"], ["--help"], ["-h"]):
        write_out((USAGE + "\n").encode())
    elif len(arguments) == 2 and arguments[0] == "make":
        make(arguments[1])
    elif len(arguments) == 3 and arguments[:2] == ["make", "--as-is"]:
        make(arguments[2], True)
    elif len(arguments) == 2 and arguments[0] == "show":
        show(arguments[1])
    elif len(arguments) == 3 and arguments[0] == "csv":
        to_tables(arguments[1], arguments[2])
    else:
        raise Failure(USAGE, 2)


def main(arguments):
    try:
        run(arguments)
    except Failure as failure:
        say(str(failure))
        return failure.status
    return 0

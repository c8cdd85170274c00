"""Read by the tools of this folder: how they read texts and numbers, refuse, and write tables.

A refusal is a sentence with its place: the file, the line as an editor counts it, and the column of
the text where the file is no table of named columns. Statuses are those of dta: 0 done, 2 usage, 3
an input isn't accepted, 4 an input can't be read, 5 an output can't be written.
"""
import argparse
import csv
import io
import os
import re
import sys
import tempfile
from decimal import Decimal, getcontext

USAGE, REFUSED, UNREAD, UNWRITTEN = 2, 3, 4, 5
MOST_BYTES = 268_435_456
MOST_QUANTITY = 1_000_000_000
MOST_IDENTIFIER = 9_223_372_036_854_775_807
IDENTIFIER = re.compile(r"([0-9]+)(?:\.0+)?")
# So many digits that sums and products of quantities are exact.
getcontext().prec = 200
QUANTITY = re.compile(r"[+-]?(?:[0-9]+\.?[0-9]*|\.[0-9]+)(?:[eE][+-]?[0-9]{1,3})?")


class Refusal(Exception):
    """What isn't accepted, in a sentence, and the status with which a tool ends."""

    def __init__(self, sentence, status=REFUSED):
        super().__init__(sentence)
        self.status = status


class Place:
    """Where something stands: a file, a line from 1, and a column: a name or a number from 1."""

    def __init__(self, path, line, column=None):
        self.path, self.line, self.column = path, line, column

    def __str__(self):
        column = f" column {self.column}" if self.column is not None else ""
        return f"{self.path} line {self.line}{column}"

    def refuse(self, sentence):
        raise Refusal(f"{self}: {sentence}")


def quoted(text):
    """A text as it is shown: in quotes, on one line, and not too long."""
    shown = "".join(sign if sign.isprintable() else "?" for sign in text)
    return f"'{shown[:57]}...'" if len(shown) > 60 else f"'{shown}'"


# ---- numbers

def identifier(text, place, name):
    """The value of an identifier, as dta reads it."""
    text = text.strip(" \t")
    if not text:
        place.refuse(f"{name} is missing.")
    found = IDENTIFIER.fullmatch(text)
    if not found:
        place.refuse(f"{quoted(text)} is no {name}: it has digits alone.")
    if len(found[1].lstrip("0")) > 19 or int(found[1]) > MOST_IDENTIFIER:
        place.refuse(f"{quoted(text)} is too large for {name}.")
    return int(found[1])


def quantity(text, place, name):
    """The exact value of a quantity from 0 to 1,000,000,000, as a Decimal."""
    text = text.strip(" \t")
    if not text:
        place.refuse(f"{name} is missing.")
    if not QUANTITY.fullmatch(text) or len(text) > 64:
        hint = " Write a decimal point." if "," in text else ""
        place.refuse(f"{quoted(text)} is no number for {name}.{hint}")
    value = Decimal(text)
    if value < 0:
        place.refuse(f"{name} is {text}, below 0.")
    if value > MOST_QUANTITY:
        place.refuse(f"{name} is {text}, above {MOST_QUANTITY:,}.")
    return value


def plain(value):
    """A Decimal without an exponent and without zeros at its end."""
    text = f"{value:f}"
    return text.rstrip("0").rstrip(".") if "." in text else text


class Thousandths:
    """Rounds values to thousandths one after another, so that their sum is right to half a
    thousandth wherever one stops."""

    def __init__(self):
        self.exact, self.written = Decimal(0), Decimal(0)

    def next(self, value):
        self.exact += value
        rounded = self.exact.quantize(Decimal("0.001")) - self.written
        self.written += rounded
        return rounded


# ---- texts and tables

def read_text(path):
    """The text of a file, without a byte order mark."""
    try:
        with open(path, "rb") as file:
            content = file.read(MOST_BYTES + 1)
    except OSError as error:
        raise Refusal(f"{path} can't be read: {error.strerror}.", UNREAD) from None
    if len(content) > MOST_BYTES:
        raise Refusal(f"{path} has more than {MOST_BYTES:,} bytes.")
    try:
        return content.decode("utf-8-sig")
    except UnicodeDecodeError as error:
        before = content[:error.start]
        line, column = before.count(b"\n") + 1, error.start - before.rfind(b"\n")
        Place(path, line, column).refuse("this byte isn't UTF-8. Save the file as UTF-8.")


def records(path, separator=","):
    """The line and the fields of each record of a text of separated values that isn't empty."""
    csv.field_size_limit(MOST_BYTES)
    reader = csv.reader(io.StringIO(read_text(path), newline=""), delimiter=separator, strict=True)
    line = 1
    try:
        for fields in reader:
            if fields:
                yield line, [field.strip(" \t") for field in fields]
            line = reader.line_num + 1
    except csv.Error:
        Place(path, line).refuse("a quote that begins here isn't closed, or has text behind it.")


class Table:
    """A table of named columns, all of whose texts are kept."""

    def __init__(self, path, needed):
        self.path = path
        rows = list(records(path))
        if not rows:
            raise Refusal(f"{path} line 1: the file is empty.")
        self.columns, self.rows = rows[0][1], rows[1:]
        for name in needed:
            if name not in self.columns:
                raise Refusal(f"{path} line 1: there is no column {name}.")
        for line, fields in self.rows:
            if len(fields) != len(self.columns):
                Place(path, line).refuse(f"the row has {len(fields)} fields, and the header has "
                                         f"{len(self.columns)}.")

    def place(self, row, name):
        return Place(self.path, row[0], name)

    def text(self, row, name):
        return row[1][self.columns.index(name)] if name in self.columns else ""

    def identifier(self, row, name):
        return identifier(self.text(row, name), self.place(row, name), name)

    def add_columns(self, *names):
        """Adds the columns that aren't there, with empty fields."""
        for name in names:
            if name not in self.columns:
                self.columns.append(name)
                for _, fields in self.rows:
                    fields.append("")

    def add_row(self, values):
        """Adds a row with these texts, by the names of their columns, and empty ones else."""
        fields = [""] * len(self.columns)
        for name, value in values.items():
            fields[self.columns.index(name)] = str(value)
        self.rows.append((None, fields))

    def written(self):
        return table_text(self.columns, [fields for _, fields in self.rows])


def table_text(columns, rows):
    text = io.StringIO()
    writer = csv.writer(text, lineterminator="\n")
    writer.writerow(columns)
    writer.writerows(rows)
    return text.getvalue()


# ---- outputs and words

def write_all(folder, tables, replace):
    """Writes texts to files of a folder, all of them or, where one can't be made, none."""
    there = [name for name in tables if os.path.lexists(os.path.join(folder, name))]
    if there and not replace:
        raise Refusal(f"{os.path.join(folder, there[0])} is there already. With --replace it is "
                      "written over.", UNWRITTEN)
    try:
        os.makedirs(folder, exist_ok=True)
        with tempfile.TemporaryDirectory(prefix=".tables", dir=folder) as made:
            for name, text in tables.items():
                with open(os.path.join(made, name), "w", encoding="utf-8", newline="") as file:
                    file.write(text)
            for name in tables:
                os.replace(os.path.join(made, name), os.path.join(folder, name))
    except OSError as error:
        raise Refusal(f"{error.filename or folder} can't be written: {error.strerror}.",
                      UNWRITTEN) from None


class Words(argparse.ArgumentParser):
    """The words of a tool, whose help is a text."""

    def __init__(self, name, told):
        super().__init__(prog=name, add_help=False, allow_abbrev=False)
        self.told = told
        self.add_argument("--help", action="store_true")
        self.add_argument("--to", default=".")
        self.add_argument("--replace", action="store_true")

    def read(self):
        if "--help" in sys.argv[1:]:
            print(self.told.strip())
            sys.exit(0)
        return self.parse_args()

    def error(self, message):
        raise Refusal(f"{message}. {self.prog} --help shows the words.", USAGE)

    def number(self, name, usual, least, most):
        """An option with a number."""
        def read(text):
            place = Words.Option()
            value = quantity(text, place, name)
            if not least <= value <= most:
                place.refuse(f"it goes from {plain(least)} to {plain(most)}")
            return value
        self.add_argument(name, type=read, default=usual)

    class Option:
        """The place of an option's value."""

        @staticmethod
        def refuse(sentence):
            raise argparse.ArgumentTypeError(sentence.rstrip("."))


class Notes:
    """Sentences on what was made up, rounded or left out. They are told once all is written."""

    said = []

    @classmethod
    def add(cls, sentence):
        cls.said.append(sentence)


def run(name, work):
    """Runs a tool, and tells its notes, or why it refused, on standard error."""
    try:
        work()
        sys.stdout.flush()
        for sentence in Notes.said:
            print(f"{name}: {sentence}", file=sys.stderr)
    except Refusal as refusal:
        print(f"{name}: {refusal}", file=sys.stderr)
        sys.exit(refusal.status)
    except BrokenPipeError:
        os.dup2(os.open(os.devnull, os.O_WRONLY), sys.stdout.fileno())
        sys.exit(UNWRITTEN)

#!/usr/bin/env python3
"""Makes a stream for rpq of rows of CSV, TSV or JSON lines.

    to-stream.py --time COLUMN --from COLUMN --to COLUMN (--label COLUMN | --as LABEL) [FILE ..]

A column is a name of the first row, or a number from 1; of a JSON line it is a key, or a path of
keys such as user.id. Whether a file is JSON lines, and what separates its columns, its first line
says. Files may be compressed with gzip, begin with a byte order mark, be in UTF-16 if they do, and
end their lines as on Windows. Without a file the rows come from the standard input; each is written
as it comes.

A time is a number, or a date and a time of ISO 8601, in UTC where it names no zone. Blanks and
control characters of a name become %HH. A row that makes no tuple is reported on standard error
with its file and line, and left out. The status is 0 if every row was taken, 1 if one was left
out, and 2 if the words or a file can't be read.
"""
import argparse
import codecs
import csv
import datetime
import decimal
import gzip
import io
import json
import os
import signal
import sys

UNITS = {"seconds": 1, "milliseconds": 1000, "microseconds": 1000000}
GREATEST_TIME = 4611686018427387903
# in seconds this is the year 5138, in milliseconds 1973
MILLISECONDS_FROM = 100000000000
LONGEST_NAME = 255
DELETES = {"-", "delete"}
INSERTS = {"", "+", "insert"}


class Fault(Exception):
    """Why a row makes no tuple."""


class FileFault(Exception):
    """Why the rows of a file can't be read."""


def parsed_words():
    parser = argparse.ArgumentParser(
        description=__doc__, formatter_class=argparse.RawDescriptionHelpFormatter
    )
    add = parser.add_argument
    add("--time", required=True, metavar="COLUMN", help="when the edge is there")
    add("--from", required=True, dest="source", metavar="COLUMN", help="where it begins")
    add("--to", required=True, dest="target", metavar="COLUMN", help="where it ends")
    label = parser.add_mutually_exclusive_group(required=True)
    label.add_argument("--label", metavar="COLUMN", help="its label")
    label.add_argument("--as", dest="constant", type=not_empty, metavar="LABEL", help="one for all")
    add("--until", metavar="COLUMN", help="when it ends by itself; nothing where it is empty")
    add("--change", metavar="COLUMN", help="- or delete: a delete; +, insert or empty: an insert")
    add("--prefix", default="", help="what each vertex begins with, such as acct:")
    add("--delimiter", type=one_sign, help="what separates columns, if the first line doesn't say")
    add("--given", choices=UNITS, default="seconds", help="the unit of numbers (seconds)")
    add("--unit", choices=UNITS, default="seconds", help="the unit of the stream (seconds)")
    add("--sort", action="store_true", help="reads all rows, and writes them in order of time")
    add("files", nargs="*", metavar="FILE")
    return parser.parse_args()


def not_empty(word):
    """A word that isn't empty."""
    if not word:
        raise argparse.ArgumentTypeError("it is empty")
    return word


def one_sign(word):
    """What separates columns."""
    sign = "\t" if word == "\\t" else word
    if len(sign) != 1:
        raise argparse.ArgumentTypeError("it isn't one sign, nor \\t")
    return sign


def opened(name):
    """The text of the file of this name, or of the standard input for none."""
    raw = open(name, "rb") if name else sys.stdin.buffer
    if raw.peek(2)[:2] == b"\x1f\x8b":
        raw = gzip.open(raw)
    is_utf_16 = raw.peek(2)[:2] in (codecs.BOM_UTF16_LE, codecs.BOM_UTF16_BE)
    encoding, errors = ("utf-16", "replace") if is_utf_16 else ("utf-8-sig", "surrogateescape")
    return io.TextIOWrapper(raw, encoding, errors=errors, newline="")


def delimiter_of(first):
    """What separates the columns of a file with this first line."""
    if "\t" in first:
        return "\t"
    return ";" if first.count(";") > first.count(",") else ","


def rows_of(file, words):
    """Each row with the number of its first line: its columns by name and by number."""
    first = file.readline()
    if first.lstrip().startswith("{"):
        yield from json_rows(first, file)
        return
    if first.lstrip().startswith("["):
        raise FileFault("a JSON array: make lines of its members, as by jq -c '.[]'")
    lines = csv.reader(
        chained(first, file), delimiter=words.delimiter or delimiter_of(first), strict=True
    )
    names = next(lines, [])
    for column in columns_of(words):
        if column not in names and not column.isdigit():
            raise FileFault(f"no column {column} in the first line, which has {', '.join(names)}")
    for number, fields in fields_of(lines):
        if isinstance(fields, Fault):
            yield number, fields
        elif fields:
            row = {str(place): field for place, field in enumerate(fields, 1)}
            row.update(zip(names, fields))
            yield number, row


def fields_of(lines):
    """The fields of each row of CSV, or why it has none, with the number of its first line."""
    while True:
        number = lines.line_num + 1
        try:
            yield number, next(lines)
        except StopIteration:
            return
        except csv.Error as error:
            yield number, Fault(f"not CSV: {error}, up to line {lines.line_num}")


def columns_of(words):
    """The columns that are named by the words."""
    columns = (words.time, words.source, words.target, words.label, words.until, words.change)
    return [column for column in columns if column]


def chained(first, file):
    yield first
    yield from file


def json_rows(first, file):
    for number, line in enumerate(chained(first, file), 1):
        if line.strip():
            try:
                row = json.loads(line)
            except ValueError as error:
                row = Fault(f"not JSON: {error}")
            yield number, row


def optional_field(row, column):
    """What the row has in the column, as text, and nothing if it isn't there or none is named.

    A path of keys leads into a JSON object.
    """
    found = row.get(column)
    if column and column not in row:
        found = row
        for key in column.split("."):
            found = found.get(key) if isinstance(found, dict) else None
    if isinstance(found, (dict, list, bool)):
        raise Fault(f"no text or number in {column}")
    return "" if found is None else str(found).strip()


def field(row, column):
    """What the row has in the column, as text."""
    found = optional_field(row, column)
    if not found:
        raise Fault(f"nothing in column {column}")
    return found


def time_of(text, given, unit):
    """The time in the stream's unit, cut to a whole number."""
    try:
        seconds = decimal.Decimal(text) / UNITS[given]
    except decimal.InvalidOperation:
        seconds = seconds_of_date(text)
    if not seconds.is_finite():
        raise Fault(f"time {text}")
    time = int(seconds * UNITS[unit])
    if not 0 <= time <= GREATEST_TIME:
        raise Fault(f"time {text}")
    return time


def seconds_of_date(text):
    try:
        moment = datetime.datetime.fromisoformat(text.replace("Z", "+00:00"))
    except ValueError:
        raise Fault(f"time {text}") from None
    if moment.tzinfo is None:
        moment = moment.replace(tzinfo=datetime.timezone.utc)
    since = moment - datetime.datetime(1970, 1, 1, tzinfo=datetime.timezone.utc)
    return decimal.Decimal(since // datetime.timedelta(microseconds=1)) / 1000000


def name_of(text):
    """The bytes of a name, in which no blank and no control character is left."""
    given = text.encode("utf-8", "surrogateescape")
    name = b"".join(
        b"%%%02X" % byte if byte <= 0x20 or byte == 0x7F else bytes([byte]) for byte in given
    )
    if len(name) > LONGEST_NAME:
        raise Fault(f"a name of {len(name)} bytes")
    return name


def ending_of(words, row):
    """What stands behind the edge: the mark of a delete, or an insert's own end."""
    change = optional_field(row, words.change)
    if change in DELETES:
        return b" -"
    if change not in INSERTS:
        raise Fault(f"change {change}")
    until = optional_field(row, words.until)
    return b" until %d" % time_of(until, words.given, words.unit) if until else b""


def tuple_of(words, row):
    """The time of the row's tuple, and its line."""
    if isinstance(row, Fault):
        raise row
    if not isinstance(row, dict):
        raise Fault("no JSON object")
    time = time_of(field(row, words.time), words.given, words.unit)
    label = field(row, words.label) if words.label else words.constant
    source = words.prefix + field(row, words.source)
    target = words.prefix + field(row, words.target)
    edge = (name_of(source), name_of(label), name_of(target))
    return time, b"%d %s %s %s" % (time, *edge) + ending_of(words, row) + b"\n"


def tuples_of(words, name, left_out):
    """The tuples of a file. Rows that make none are reported, and added to those left out."""
    try:
        for number, row in rows_of(opened(name), words):
            try:
                yield tuple_of(words, row)
            except Fault as fault:
                left_out.append(number)
                print(f"{name or 'standard input'}:{number}: left out: {fault}", file=sys.stderr)
    except (EOFError, csv.Error, UnicodeError) as error:
        raise FileFault(error) from None
    except OSError as error:
        raise FileFault(error.strerror or error) from None


def write(line):
    try:
        sys.stdout.buffer.write(line)
        sys.stdout.buffer.flush()
    except OSError as error:
        end(f"write failed: {error.strerror}")


def end(fault):
    """Ends the program, which can't go on for this."""
    print(f"rpq-to-stream: {fault}", file=sys.stderr)
    # what is left of the output is given up
    os._exit(2)


def main():
    # a reader that ends, such as head, ends this program too
    signal.signal(signal.SIGPIPE, signal.SIG_DFL)
    words = parsed_words()
    left_out, kept, greatest = [], [], 0
    for name in words.files or [None]:
        try:
            for time, line in tuples_of(words, name, left_out):
                greatest = max(greatest, time)
                if words.sort:
                    kept.append((time, line))
                else:
                    write(line)
        except FileFault as fault:
            end(f"{name or 'standard input'}: {fault}")
    # rows of one time stay in their order
    write(b"".join(line for _, line in sorted(kept, key=lambda pair: pair[0])))
    if words.given == words.unit == "seconds" and greatest >= MILLISECONDS_FROM:
        hint = "if these are milliseconds, say --given milliseconds"
        print(f"rpq-to-stream: a time of {greatest} seconds; {hint}", file=sys.stderr)
    return 1 if left_out else 0


if __name__ == "__main__":
    sys.exit(main())

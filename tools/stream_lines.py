"""What the lines of a stream give, by docs/formats.md alone: tuples, nothing, or faults.

tools/live-runs.py and tools/hostile-runs.py take this for what rpq has to make of a stream, and of
its faulty lines where it tells them apart.
"""
import collections
import re

LONGEST = 1024
MOST = (1 << 62) - 1
DIGITS = re.compile(rb"[0-9]+")
NAME = re.compile(rb"[!-~\x80-\xff]{1,255}")

# A tuple of a stream: `act` is `+`, `-`, or empty for a tick, which has no edge; and a faulty line,
# with what is wrong with it and the bytes that are told of it. Both have the number of their line.
Tuple = collections.namedtuple("Tuple", "line time act edge until")
Fault = collections.namedtuple("Fault", "line wrong text")


class Faulty(Exception):
    """What is wrong with a line."""


def number_of(field):
    """The value of a digit text, or none."""
    return int(field) if DIGITS.fullmatch(field) else None


def time_of(field):
    value = number_of(field)
    if value is None:
        raise Faulty("time")
    if value > MOST:
        raise Faulty("time range")
    return value


def end_of(word, field):
    value = number_of(field)
    if word != b"until" or value is None or value > MOST:
        raise Faulty("until")
    return value


def tuple_of(line, number):
    """The tuple of a line, without its line feed and its carriage return, or none."""
    fields = [field for field in re.split(rb"[ \t]+", line) if field]
    if not fields or fields[0].startswith(b"#"):
        return None
    if len(fields) not in (1, 4, 5, 6, 7):
        raise Faulty("fields %d" % len(fields))
    time = time_of(fields[0])
    if len(fields) == 1:
        return Tuple(number, time, "", None, None)
    for place in (1, 2, 3):
        if not NAME.fullmatch(fields[place]):
            raise Faulty("name %d" % (place + 1))
    sign = fields[4] if len(fields) in (5, 7) else b"+"
    if sign != b"+" and (sign != b"-" or len(fields) == 7):
        raise Faulty("operation")
    until = end_of(*fields[-2:]) if len(fields) > 5 else None
    return Tuple(number, time, sign.decode(), tuple(fields[1:4]), until)


def lines_of(text):
    """The lines of a text, without their line feeds."""
    lines = text.split(b"\n")
    return lines[:-1] if lines[-1] == b"" else lines


def items_of(text):
    """The tuples and the faulty lines of a text, in their order."""
    for number, line in enumerate(lines_of(text), 1):
        if len(line) > LONGEST:
            yield Fault(number, "too long", line[:LONGEST])
            continue
        line = line.removesuffix(b"\r")
        try:
            found = tuple_of(line, number)
        except Faulty as fault:
            yield Fault(number, str(fault), line)
            continue
        if found is not None:
            yield found


def written(item):
    """A tuple as rpq writes it."""
    if item.edge is None:
        return b"%d" % item.time
    line = b" ".join([b"%d" % item.time, *item.edge, item.act.encode()])
    return line if item.until is None else line + b" until %d" % item.until


def told_of(fault):
    """What is written of a faulty line."""
    return b"line %d: %s: %s\n" % (fault.line, fault.wrong.encode(), fault.text)


def told_before(items, taken):
    """What is told of the faulty lines before the tuple that comes behind so many, or of all."""
    told = []
    for item in items:
        if isinstance(item, Fault):
            told.append(told_of(item))
            continue
        if taken == 0:
            break
        taken -= 1
    return b"".join(told)


def good_lines(text):
    """The text without its faulty lines; each line ends with a line feed."""
    faulty = {item.line for item in items_of(text) if isinstance(item, Fault)}
    return b"".join(line + b"\n" for number, line in enumerate(lines_of(text), 1)
                    if number not in faulty)

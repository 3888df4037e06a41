#!/usr/bin/env python3
"""Finds from scratch what a run with joins of queries writes, outside the gate.

    bindings.py QUERIES JOINS STREAM

After each tuple of the stream the answers of each query are found over its window by following
paths, and the bindings of each join by trying every pair of answers for every atom; what differs
from the tuple before is written as `rpq --joins JOINS QUERIES STREAM` has to write it. Nothing is
kept from one tuple to the next but these answers and bindings.

The joins file is read with all its faults: the first is written on standard error, as rpq writes
it, and the status is 10. The queries file has to be right. The stream ends before its first line
that is no tuple; the status is then 4, and no line says why.

tools/live-runs.py takes from here how joins are read, and what their bindings are.
"""

import re
import sys
from pathlib import Path

QUERY = re.compile(rb"query (\S+) window (\d+) slide (\d+) (arbitrary|simple): ?(.*)")
NAME = re.compile(rb"[\x21-\x7e\x80-\xff]{1,255}")
SIGNS = b"()|/*+?"
LONGEST_TIME = 2**62 - 1
MOST_JOINS = 32


# ---- joins


class Join:
    """A join: its name, how many variables it has, and its atoms. An atom is the place of a query
    and two ends, each the number of a variable or the name of a vertex."""

    def __init__(self, name, count, atoms):
        self.name = name
        self.count = count
        self.atoms = atoms

    def bindings(self, pairs):
        """The bindings, where these are the pairs of each query: each lists a name for each
        variable."""
        found = {(None,) * self.count}
        for place, *ends in self.atoms:
            further = set()
            for binding in found:
                for pair in pairs[place]:
                    longer = list(binding)
                    if all(fits(end, name, longer) for end, name in zip(ends, pair)):
                        further.add(tuple(longer))
            found = further
        return found


def fits(end, name, binding):
    """Whether the end of an atom may have this name, which its variable then has."""
    if not isinstance(end, int):
        return end == name
    if binding[end] is None:
        binding[end] = name
    return binding[end] == name


class Fault(Exception):
    """A fault of a joins file: the number of its line, and its text."""

    def __init__(self, line, text):
        super().__init__("line %d: %s" % (line, text))
        self.line = line
        self.text = text


def lines_of(text):
    """The numbers and the fields of the lines of a text that are neither blank nor comments."""
    for number, line in enumerate(text.split(b"\n"), 1):
        fields = re.findall(rb"[^ \t]+", line.removesuffix(b"\r"))
        if fields and not fields[0].startswith(b"#"):
            yield number, fields


def is_name(field):
    return NAME.fullmatch(field) is not None


def fault_of(fields, names, queries):
    """The first fault of a join with these fields behind joins of these names, if it has one."""
    ends = [end for place, end in enumerate(fields[2:]) if place % 3 > 0]
    is_shaped = (
        fields[0] == b"join"
        and len(fields) in (5, 8, 11, 14)
        and is_name(fields[1])
        and b"?" not in ends
        and any(end.startswith(b"?") for end in ends)
    )
    if not is_shaped:
        return "shape"
    if fields[1] in names:
        return "name twice"
    if len(names) >= MOST_JOINS:
        return "too many"
    if any(query not in queries for query in fields[2::3]):
        return "unknown query"
    if not all(is_name(end.removeprefix(b"?")) for end in ends):
        return "bad name"
    return None


def read_joins(text, queries):
    """The joins of a joins file, over queries of these names."""
    joins = []
    for number, fields in lines_of(text):
        fault = fault_of(fields, [join.name for join in joins], queries)
        if fault:
            raise Fault(number, fault)
        variables, atoms = [], []
        for place in range(2, len(fields), 3):
            atom = [queries.index(fields[place])]
            for end in fields[place + 1 : place + 3]:
                if not end.startswith(b"?"):
                    atom.append(end)
                    continue
                if end not in variables:
                    variables.append(end)
                atom.append(variables.index(end))
            atoms.append(atom)
        joins.append(Join(fields[1], len(variables), atoms))
    return joins


def join_lines(joins, before, after):
    """The lines of what the bindings lose and gain, where these are the pairs of each query."""
    lines = []
    for join in joins:
        old, new = join.bindings(before), join.bindings(after)
        for sign, changed in ((b"--", old - new), (b"++", new - old)):
            lines += [b" ".join([sign, join.name, *binding]) for binding in sorted(changed)]
    return lines


# ---- queries


class Query:
    """A query of a queries file."""

    def __init__(self, name, size, slide, mode, text):
        self.name = name
        self.size = int(size)
        self.slide = int(slide)
        self.is_simple = mode == b"simple"
        self.expression = Reader(text).alternative()

    def deadline(self, insert):
        """The clock at which an insert leaves the window."""
        of_time = -(-(insert.time + self.size) // self.slide) * self.slide
        return of_time if insert.end is None else min(of_time, insert.end)

    def pairs(self, history):
        """The answers over the history: the pairs that a path in the window joins."""
        edges = self.window(history)
        found = set()
        for source in {edge[0] for edge in edges}:
            starts = {(source, frozenset([source]) if self.is_simple else False)}
            for target, way in self.ends(self.expression, edges, starts):
                if target != source if self.is_simple else way:
                    found.add((source, target))
        return found

    def window(self, history):
        """The edges of the inserts that are neither deleted nor too old."""
        clock = max((tuple_.time for tuple_ in history), default=0)
        edges = set()
        for place, insert in enumerate(history):
            if insert.sign != b"+" or self.deadline(insert) <= clock:
                continue
            later = history[place + 1 :]
            if not any(each.sign == b"-" and each.edge == insert.edge for each in later):
                edges.add(insert.edge)
        return edges

    def ends(self, expression, edges, starts):
        """Where paths end that begin at these places and have a word of the expression. A place is
        a vertex, and for simple paths the vertices of the path up to it, else whether it has an
        edge."""
        sign, part = expression
        if sign == "label":
            return self.one_edge_on(part, edges, starts)
        if sign == "|":
            return set().union(*(self.ends(one, edges, starts) for one in part))
        if sign == "/":
            for one in part:
                starts = self.ends(one, edges, starts)
            return starts
        if sign == "?":
            return starts | self.ends(part, edges, starts)
        found = set(starts) if sign == "*" else set()
        fresh = set(starts)
        while fresh:
            fresh = self.ends(part, edges, fresh) - found
            found |= fresh
        return found

    def one_edge_on(self, label, edges, starts):
        """Where the edges with this label lead from these places."""
        found = set()
        for vertex, way in starts:
            for source, other, target in edges:
                if source != vertex or other != label:
                    continue
                if not self.is_simple:
                    found.add((target, True))
                elif target not in way:
                    found.add((target, way | {target}))
        return found


class Reader:
    """Reads an expression: each is a sign and its parts."""

    def __init__(self, text):
        self.signs = list(self.cut(text))

    @staticmethod
    def cut(text):
        """The signs and labels of a text."""
        for found in re.finditer(rb'[()|/*+?]|"((?:\\.|[^"\\])+)"|[^\s()|/*+?"]+', text):
            if found.group() in SIGNS:
                yield found.group().decode(), None
            elif found.group(1) is not None:
                yield "label", re.sub(rb"\\(.)", rb"\1", found.group(1))
            else:
                yield "label", found.group()

    def sees(self, sign):
        return bool(self.signs) and self.signs[0][0] == sign

    def alternative(self):
        parts = [self.sequence()]
        while self.sees("|"):
            self.signs.pop(0)
            parts.append(self.sequence())
        return "|", parts

    def sequence(self):
        parts = [self.element()]
        while self.sees("/"):
            self.signs.pop(0)
            parts.append(self.element())
        return "/", parts

    def element(self):
        sign, label = self.signs.pop(0)
        if sign == "(":
            part = self.alternative()
            self.signs.pop(0)
        else:
            part = ("label", label)
        for again in ("*", "+", "?"):
            if self.sees(again):
                self.signs.pop(0)
                return again, part
        return part


def read_queries(text):
    """The queries of a queries file without a fault."""
    queries = []
    for _, fields in lines_of(text):
        queries.append(Query(*QUERY.fullmatch(b" ".join(fields)).groups()))
    return queries


# ---- tuples


class Tuple:
    """A tuple of a stream. Its sign is `+` for an insert, `-` for a delete, empty for a tick."""

    def __init__(self, time, edge, sign, end):
        self.time = time
        self.edge = edge
        self.sign = sign
        self.end = end

    def written(self):
        parts = [b"%d" % self.time]
        if self.sign:
            parts += [*self.edge, self.sign]
        if self.end is not None:
            parts += [b"until", b"%d" % self.end]
        return b" ".join(parts)


def number_of(field):
    """The number that a field writes, if it is a time."""
    is_time = re.fullmatch(rb"[0-9]+", field) and int(field) <= LONGEST_TIME
    return int(field) if is_time else None


def tuple_of(fields):
    """The tuple with these fields, or none where they are faulty."""
    time, end, rest = number_of(fields[0]), None, fields[1:]
    if len(rest) >= 5 and rest[-2] == b"until":
        end, rest = number_of(rest[-1]), rest[:-2]
        if end is None or rest[3:] not in ([], [b"+"]):
            return None
    if time is None or not all(is_name(field) for field in rest[:3]):
        return None
    if not rest and end is None:
        return Tuple(time, None, b"", None)
    if len(rest) == 3:
        return Tuple(time, tuple(rest), b"+", end)
    if len(rest) == 4 and rest[3] in (b"+", b"-"):
        return Tuple(time, tuple(rest[:3]), rest[3], end)
    return None


def read_stream(text):
    """The tuples of a stream, and whether no line is faulty."""
    history = []
    for _, fields in lines_of(text):
        taken = tuple_of(fields)
        if taken is None:
            return history, False
        history.append(taken)
    return history, True


# ---- the text


def blocks(queries, joins, history):
    """The lines of a run over the history."""
    before, lines = [set() for _ in queries], []
    for count, taken in enumerate(history, 1):
        after = [query.pairs(history[:count]) for query in queries]
        lines.append(b"@%d 1 %s" % (count, taken.written()))
        for query, old, new in zip(queries, before, after):
            for sign, changed in ((b"-", old - new), (b"+", new - old)):
                lines += [b" ".join([sign, query.name, *pair]) for pair in sorted(changed)]
        lines += join_lines(joins, before, after)
        before = after
    return lines


def main():
    if len(sys.argv) != 4:
        sys.exit("usage: bindings.py QUERIES JOINS STREAM")
    try:
        texts = [Path(name).read_bytes() for name in sys.argv[1:]]
    except OSError as error:
        sys.exit("bindings.py: %s: %s" % (error.filename, error.strerror))
    queries = read_queries(texts[0])
    try:
        joins = read_joins(texts[1], [query.name for query in queries])
    except Fault as fault:
        print("rpq: joins", fault, file=sys.stderr)
        return 10
    history, is_whole = read_stream(texts[2])
    for line in blocks(queries, joins, history):
        sys.stdout.buffer.write(line + b"\n")
    return 0 if is_whole else 4


if __name__ == "__main__":
    sys.exit(main())

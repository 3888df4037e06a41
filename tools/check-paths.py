#!/usr/bin/env python3
"""Checks the paths that `rpq --paths` wrote, from its output alone.

    rpq --paths QUERIES STREAM | check-paths.py QUERIES [--program RPQ --each N]

The tuples are those of the `@` lines. For each line `= D P P ...` behind a gained pair it asks
whether the entries at these positions are live in the query's window, lead from the one vertex of
the pair to the other, and have a word of the query's expression; whether they visit no vertex twice
where the query takes simple paths; and whether D is the least of their deadlines. It asks whether
each gained pair has such a line, and no other line has one.

That no other path lasts longer isn't seen so. With --program it is asked of readers: for each N-th
entry that gains a pair, rpq is run without --paths over the tuples up to this entry, and asked
until when the pairs last that the entry gains.

It prints how many lines it checked, or the first one that is wrong, with status 1.
"""

import argparse
import re
import subprocess
import sys
import tempfile
from pathlib import Path

QUERY = re.compile(rb"query (\S+) window (\d+) slide (\d+) (arbitrary|simple): ?(.*)")
SIGNS = b"()|/*+?"


class Query:
    """A query of a queries file."""

    def __init__(self, size, slide, simple, text):
        self.size = size
        self.slide = slide
        self.simple = simple
        self.expression = Reader(text).alternative()

    def deadline(self, insert):
        """The clock at which an insert leaves the window."""
        of_time = -(-(insert.time + self.size) // self.slide) * self.slide
        return of_time if insert.end is None else min(of_time, insert.end)


class Reader:
    """Reads an expression into a tuple: its sign and its parts."""

    def __init__(self, text):
        self.signs = self.cut(text)

    @staticmethod
    def cut(text):
        """The signs and labels of a text."""
        parts, at = [], 0
        while at < len(text):
            byte = text[at : at + 1]
            if byte.isspace():
                at += 1
            elif byte in SIGNS and byte:
                parts.append((byte, None))
                at += 1
            elif byte == b'"':
                label, at = bytearray(), at + 1
                while text[at : at + 1] != b'"':
                    at += text[at : at + 1] == b"\\"
                    label += text[at : at + 1]
                    at += 1
                parts.append((b"label", bytes(label)))
                at += 1
            else:
                bare = re.match(rb'[^\s()|/*+?"]+', text[at:]).group()
                parts.append((b"label", bare))
                at += len(bare)
        return parts

    def sees(self, sign):
        return bool(self.signs) and self.signs[0][0] == sign

    def alternative(self):
        parts = [self.sequence()]
        while self.sees(b"|"):
            self.signs.pop(0)
            parts.append(self.sequence())
        return ("|", parts)

    def sequence(self):
        parts = [self.element()]
        while self.sees(b"/"):
            self.signs.pop(0)
            parts.append(self.element())
        return ("/", parts)

    def element(self):
        sign, label = self.signs.pop(0)
        if sign == b"(":
            part = self.alternative()
            self.signs.pop(0)
        else:
            part = ("label", label)
        for again in (b"*", b"+", b"?"):
            if self.sees(again):
                self.signs.pop(0)
                return (again.decode(), part)
        return part


def ends(expression, word, starts):
    """The places of the word up to which the expression matches from one of these places."""
    sign, part = expression
    if sign == "label":
        return {place + 1 for place in starts if place < len(word) and word[place] == part}
    if sign == "|":
        return set().union(*(ends(one, word, starts) for one in part))
    if sign == "/":
        for one in part:
            starts = ends(one, word, starts)
        return starts
    if sign == "?":
        return starts | ends(part, word, starts)
    found = set(starts) if sign == "*" else set()
    fresh = set(starts)
    while fresh:
        fresh = ends(part, word, fresh) - found
        found |= fresh
    return found


class Insert:
    """An insert of the stream."""

    def __init__(self, time, edge, end):
        self.time = time
        self.edge = edge
        self.end = end


class Entries:
    """The entries that the output told so far."""

    def __init__(self):
        self.clock = 0
        self.live = {}
        self.edges = {}
        self.lines = []

    def take(self, line):
        position, _, *fields = line[1:].split(b" ")
        self.lines.append(b" ".join(fields))
        position = int(position)
        self.clock = max(self.clock, int(fields[0]))
        if len(fields) == 1:
            return
        edge = tuple(fields[1:4])
        if fields[4] == b"-":
            for old in self.edges.pop(edge, []):
                self.live.pop(old)
            return
        end = int(fields[6]) if len(fields) == 7 else None
        self.live[position] = Insert(int(fields[0]), edge, end)
        self.edges.setdefault(edge, []).append(position)

    def fault(self, query, source, target, line):
        """What is wrong with the line of a path, if anything is."""
        until, *positions = (int(field) for field in line.split(b" ")[1:])
        inserts = [self.live.get(position) for position in positions]
        if not inserts or None in inserts:
            return "no insert, or a deleted one"
        deadlines = [query.deadline(insert) for insert in inserts]
        if min(deadlines) <= self.clock:
            return "not in the window"
        if min(deadlines) != until:
            return f"the least deadline is {min(deadlines)}"
        vertices = [source]
        for insert in inserts:
            if insert.edge[0] != vertices[-1]:
                return "the edges aren't joined"
            vertices.append(insert.edge[2])
        if vertices[-1] != target:
            return "the path ends elsewhere"
        if query.simple and len(set(vertices)) != len(vertices):
            return "a vertex is visited twice"
        word = [insert.edge[1] for insert in inserts]
        if len(word) not in ends(query.expression, word, {0}):
            return "the word isn't in the language"
        return None


def queries_of(path):
    queries = {}
    for line in path.read_bytes().splitlines():
        found = QUERY.fullmatch(line.strip())
        if found:
            name, size, slide, mode, text = found.groups()
            queries[name] = Query(int(size), int(slide), mode == b"simple", text)
    return queries


def ends_by_readers(program, queries, entries, told):
    """The first of these pairs whose end a reader is told otherwise, if there is one."""
    with tempfile.TemporaryDirectory() as place:
        folder = Path(place)
        (folder / "stream").write_bytes(b"\n".join(entries.lines) + b"\n")
        asks = [b"session", b"wait %d" % len(entries.lines)]
        asks += [b"until " + pair for pair, _ in told]
        (folder / "asks").write_bytes(b"\n".join(asks) + b"\n")
        words = ["--asks", folder / "asks", "--replies", folder / "replies"]
        subprocess.run(
            [program, *words, queries, folder / "stream"], stdout=subprocess.DEVNULL, check=True
        )
        replies = (folder / "replies").read_bytes().splitlines()[2:]
    for (pair, until), reply in zip(told, replies, strict=True):
        if reply.split(b" ")[-1] != until:
            return pair, until, reply
    return None


def main():
    words = argparse.ArgumentParser(
        description=__doc__, formatter_class=argparse.RawDescriptionHelpFormatter
    )
    words.add_argument("queries", type=Path)
    words.add_argument("--program")
    words.add_argument("--each", type=int, default=100)
    given = words.parse_args()
    queries = queries_of(given.queries)
    entries, gained, checked, asked, gaining = Entries(), None, 0, 0, 0
    told = []

    def ask():
        nonlocal asked, gaining
        if not told:
            return
        gaining += 1
        if given.program and gaining % given.each == 0:
            # a session has at most 1,024 asks
            wrong = ends_by_readers(given.program, given.queries, entries, told[:1000])
            if wrong:
                sys.exit(f"entry {len(entries.lines)}: {wrong}")
            asked += len(told[:1000])
        told.clear()

    for line in sys.stdin.buffer.read().splitlines():
        if gained is not None and line[:2] != b"= ":
            sys.exit(f"entry {len(entries.lines)}: no path behind {gained}")
        if line[:1] == b"@":
            ask()
            entries.take(line)
        elif line[:2] == b"+ ":
            gained = line[2:]
        elif line[:2] == b"= ":
            if gained is None:
                sys.exit(f"entry {len(entries.lines)}: a path behind no pair")
            name, source, target = gained.split(b" ")
            fault = entries.fault(queries[name], source, target, line)
            if fault:
                sys.exit(f"entry {len(entries.lines)}: {gained} {line}: {fault}")
            told.append((gained, line.split(b" ")[1]))
            gained = None
            checked += 1
    ask()
    if gained is not None:
        sys.exit(f"entry {len(entries.lines)}: no path behind {gained}")
    print(f"{checked} paths are right, and the ends of {asked} of them are those that readers get")


if __name__ == "__main__":
    main()

#!/usr/bin/env python3
"""Writes alerts of what `rpq --paths` writes: each gained pair with the tuples that join it.

    rpq --paths QUERIES STREAM | alerts.py [--query NAME ..] [--rings] [--rising]

With --rings only pairs of a vertex with itself count, and each ring is written once, from its first
tuple on. With --rising only paths count along which the times don't fall. rpq shows one path of a
pair, one that lasts longest: where another path of it rises, this can't be seen here. How many were
left out for that is said at the end, on standard error, and which queries of --query gained no pair.

The status is 0 if all lines were taken, and 2 if one isn't a line of rpq, or if a pair has no path,
which is reported.
"""
import argparse
import collections
import signal
import sys


def parsed_words():
    parser = argparse.ArgumentParser(
        description=__doc__, formatter_class=argparse.RawDescriptionHelpFormatter
    )
    add = parser.add_argument
    add("--query", action="append", metavar="NAME", help="alerts of this query alone; may repeat")
    add("--rings", action="store_true", help="pairs of a vertex with itself, each ring once")
    add("--rising", action="store_true", help="paths along which the times don't fall")
    add(
        "--keep",
        type=at_least_one,
        default=1000000,
        metavar="N",
        help="how many of the last tuples are kept (1000000)",
    )
    return parser.parse_args()


def at_least_one(word):
    number = int(word)
    if number < 1:
        raise ValueError
    return number


class Fault(Exception):
    """Why a line isn't one of a run with paths."""


class Alerts:
    """The last tuples, the pair whose path comes next, and the rings that were written."""

    def __init__(self, words):
        self.words = words
        self.tuples = collections.OrderedDict()
        self.position = 0
        self.pair = None
        self.rings = set()
        self.queries = set()
        self.falling = 0

    def take(self, line):
        """Takes a line of rpq, and gives the lines of the alert that it completes."""
        fields = line.split(" ")
        if (fields[0] == "=") != (self.pair is not None):
            raise Fault
        if fields[0].startswith("@"):
            self.note(fields)
        elif fields[0] == "+":
            self.pair = fields[1:]
            self.queries.add(self.pair[0])
        elif fields[0] == "=":
            return self.alert(int(fields[1]), [int(field) for field in fields[2:]])
        elif fields[0] != "-":
            raise Fault
        return []

    def note(self, fields):
        self.position = int(fields[0][1:])
        self.tuples[self.position] = fields[2:]
        if len(self.tuples) > self.words.keep:
            self.tuples.popitem(last=False)

    def alert(self, until, path):
        query, source, target = self.pair
        self.pair = None
        if self.words.query and query not in self.words.query:
            return []
        if self.words.rings:
            ring = (query, frozenset(path))
            if source != target or ring in self.rings:
                return []
            first = path.index(min(path, key=self.time_at))
            path = path[first:] + path[:first]
        times = [self.time_at(position) for position in path]
        if self.words.rising and times != sorted(times):
            self.falling += 1
            return []
        if self.words.rings:
            self.rings.add(ring)
        head = f"{query}: {source} -> {target}, found at @{self.position}, holds until {until}"
        return [head] + [f"    @{at} {' '.join(self.tuples.get(at, ['-']))}" for at in path]

    def time_at(self, position):
        """The time of a tuple; of one that isn't kept any more it is the least."""
        return int(self.tuples[position][0]) if position in self.tuples else 0


def main():
    # a reader that ends, such as head, ends this program too
    signal.signal(signal.SIGPIPE, signal.SIG_DFL)
    words = parsed_words()
    alerts = Alerts(words)
    for number, line in enumerate(sys.stdin.buffer, 1):
        text = line.decode("utf-8", "backslashreplace").rstrip("\n")
        try:
            for said in alerts.take(text):
                print(said)
        except (Fault, ValueError, IndexError):
            print(f"rpq-alerts: line {number} isn't a line of rpq --paths: {text}", file=sys.stderr)
            return 2
        sys.stdout.flush()
    if alerts.pair:
        print("rpq-alerts: no path behind the last pair: rpq wants --paths", file=sys.stderr)
        return 2
    if alerts.falling:
        print(f"{alerts.falling} left out, whose times fall along the path", file=sys.stderr)
    for query in words.query or []:
        if query not in alerts.queries:
            print(f"no pair of {query} was gained", file=sys.stderr)
    return 0


if __name__ == "__main__":
    sys.exit(main())

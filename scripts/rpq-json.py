#!/usr/bin/env python3
"""Writes what rpq writes as lines of JSON, each as it comes.

    rpq QUERIES STREAM | rpq-json.py
    rpq --paths QUERIES STREAM | rpq-json.py --paths
    rpq --joins JOINS QUERIES STREAM | rpq-json.py --joins JOINS

There is an object for each tuple, each pair that is gained or lost, and each binding of a join. Its
"kind" is "tuple", "pair" or "binding". With --paths a gained pair has the time "until" which its
path lasts, and the "path": the tuples that join it. With --joins the values of a binding stand under
the names of their variables. A byte of a name that is no UTF-8 is written as \\xHH.

The status is 0 if all lines were taken, and 2 if one isn't a line of such a run, which is reported.
"""
import argparse
import collections
import json
import signal
import sys


def parsed_words():
    parser = argparse.ArgumentParser(
        description=__doc__, formatter_class=argparse.RawDescriptionHelpFormatter
    )
    add = parser.add_argument
    add("--paths", action="store_true", help="rpq was run with --paths")
    add("--joins", metavar="FILE", help="the joins file that rpq was run with")
    add(
        "--keep",
        type=int,
        default=1000000,
        metavar="N",
        help="how many of the last tuples are kept for paths (1000000); of an older one a path has "
        "the position alone",
    )
    return parser.parse_args()


class Fault(Exception):
    """Why a line isn't one of the run that the words tell of."""


def variables_of(name):
    """The variables of each join of the file, in the order in which they are first named."""
    found = {}
    try:
        with open(name, encoding="utf-8", errors="backslashreplace") as lines:
            for line in lines:
                fields = line.split()
                if fields[:1] == ["join"] and len(fields) > 1:
                    vertices = [field for field in fields[2:] if field.startswith("?")]
                    found[fields[1]] = [vertex[1:] for vertex in dict.fromkeys(vertices)]
    except OSError as error:
        print(f"rpq-json: {name}: {error.strerror}", file=sys.stderr)
        sys.exit(2)
    return found


def tuple_of(fields):
    """The object of a tuple, of the fields of its line."""
    found = {"kind": "tuple", "at": int(fields[0][1:]), "stream": int(fields[1])}
    found["time"] = int(fields[2])
    if len(fields) == 3:
        return found | {"change": "tick"}
    source, label, target, sign = fields[3:7]
    found |= {"change": "insert" if sign == "+" else "delete"}
    found |= {"from": source, "label": label, "to": target}
    if len(fields) > 7:
        found["until"] = int(fields[8])
    return found


class Translator:
    """Makes objects of lines. It keeps the last tuples, and a gained pair whose path is to come."""

    def __init__(self, words):
        self.shows_paths = words.paths
        self.joins = words.joins
        self.variables = variables_of(words.joins) if words.joins else {}
        self.keep = words.keep
        self.tuples = collections.OrderedDict()
        self.last = {}
        self.waiting = None

    def objects_of(self, line):
        """The objects that are complete with this line."""
        fields = line.split(" ")
        sign = fields[0]
        if sign == "=" and not self.shows_paths:
            raise Fault("is a path: rpq-json needs --paths, too")
        if sign != "=" and self.waiting:
            raise Fault("is no path, and a pair was gained: rpq-json was given --paths, rpq wasn't")
        if sign == "=":
            yield self.with_path(fields)
        elif sign in ("+", "-"):
            pair = self.pair_of(fields)
            if self.shows_paths and sign == "+":
                self.waiting = pair
            else:
                yield pair
        elif sign in ("++", "--"):
            yield self.binding_of(fields)
        else:
            self.last = tuple_of(fields)
            self.note(self.last)
            yield self.last

    def note(self, tuple_):
        if self.shows_paths:
            self.tuples[tuple_["at"]] = tuple_
            if len(self.tuples) > self.keep:
                self.tuples.popitem(last=False)

    def head(self, kind, sign):
        change = "gained" if sign.startswith("+") else "lost"
        return {"kind": kind, "at": self.last["at"], "time": self.last["time"], "change": change}

    def pair_of(self, fields):
        sign, query, source, target = fields
        return self.head("pair", sign) | {"query": query, "from": source, "to": target}

    def with_path(self, fields):
        positions = [int(field) for field in fields[2:]]
        path = [self.tuples.get(position, {"at": position}) for position in positions]
        pair, self.waiting = self.waiting, None
        return pair | {"until": int(fields[1]), "path": path}

    def binding_of(self, fields):
        sign, join, *values = fields
        if self.joins and join not in self.variables:
            raise Fault(f"has a binding of {join}, and {self.joins} has no such join")
        names = self.variables.get(join) or [str(place) for place in range(1, len(values) + 1)]
        binding = dict(zip(names, values, strict=True))
        return self.head("binding", sign) | {"join": join, "binding": binding}


def main():
    # a reader that ends, such as head, ends this program too
    signal.signal(signal.SIGPIPE, signal.SIG_DFL)
    translator = Translator(parsed_words())
    for number, line in enumerate(sys.stdin.buffer, 1):
        text = line.decode("utf-8", "backslashreplace").rstrip("\n")
        try:
            for found in translator.objects_of(text):
                sys.stdout.write(json.dumps(found, separators=(",", ":")) + "\n")
        except Fault as fault:
            print(f"rpq-json: line {number} {fault}: {text}", file=sys.stderr)
            return 2
        except (ValueError, IndexError, KeyError, TypeError):
            print(f"rpq-json: line {number} isn't a line of rpq: {text}", file=sys.stderr)
            return 2
        sys.stdout.flush()
    if translator.waiting:
        print("rpq-json: no path behind the last pair: rpq wants --paths, too", file=sys.stderr)
        return 2
    return 0


if __name__ == "__main__":
    sys.exit(main())

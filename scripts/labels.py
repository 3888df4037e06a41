#!/usr/bin/env python3
"""Lists the labels of each query of a queries file: labels.py QUERIES [STREAM ..]

With streams it marks with ! each label that no tuple of them has. So a{2}, .* and 'a' are seen,
which are labels in rpq and no repetition, wildcard or quotes. The status is 1 if a label is marked,
and 2 if a file can't be read, a line is no query, or a stream has lines and no edge.

What else `rpq --check` finds wrong with a query it doesn't see.
"""
import re
import signal
import sys

# a quoted label, in which " and \ have a \ before them, or a longest run of other name bytes
LABEL = re.compile(r'"((?:[^"\\]|\\.)+)"|([^/|*+?()^!"\\\s]+)', re.ASCII)
QUERY = re.compile(
    r"\s*query\s+(\S+)\s+window\s+\S+\s+slide\s+\S+\s+(?:arbitrary|simple):(.*)", re.ASCII
)


class Fault(Exception):
    """Why there are no labels."""


def lines_of(name):
    """The lines of a file that are neither blank nor comments, each with its number."""
    try:
        with open(name, encoding="utf-8", errors="surrogateescape", newline="\n") as file:
            lines = file.read().split("\n")
    except OSError as error:
        raise Fault(f"{name}: {error.strerror}") from None
    for number, line in enumerate(lines, 1):
        if line.strip() and not line.strip().startswith("#"):
            yield number, line


def labels_of(expression):
    """The labels of the expression, each once, in the order in which they come."""
    found = [re.sub(r"\\(.)", r"\1", quoted) or bare for quoted, bare in LABEL.findall(expression)]
    return list(dict.fromkeys(found))


def labels_in(name):
    """The labels of all edges of this stream."""
    tuples = [re.findall(r"[^ \t\r]+", line) for _, line in lines_of(name)]
    labels = {fields[2] for fields in tuples if len(fields) > 3}
    if tuples and not labels:
        raise Fault(f"{name}: no edge in it, so it is no stream")
    return labels


def list_labels(queries, streams):
    there = set().union(*(labels_in(name) for name in streams))
    status = 0
    for number, line in lines_of(queries):
        query = QUERY.match(line)
        if not query:
            raise Fault(f"{queries} line {number}: no query")
        labels = labels_of(query[2])
        marked = ["!" + label if streams and label not in there else label for label in labels]
        status = 1 if marked != labels else status
        print(query[1], "labels", *marked)
    return status


def main():
    # a reader that ends, such as head, ends this program too
    signal.signal(signal.SIGPIPE, signal.SIG_DFL)
    words = sys.argv[1:]
    if not words or words[0].startswith("-"):
        is_asked_for = words in (["-h"], ["--help"])
        print(__doc__, file=sys.stdout if is_asked_for else sys.stderr)
        return 0 if is_asked_for else 2
    sys.stdout.reconfigure(errors="surrogateescape")
    try:
        return list_labels(words[0], words[1:])
    except Fault as fault:
        sys.stdout.flush()
        print(f"rpq-labels: {fault}", file=sys.stderr)
        return 2


if __name__ == "__main__":
    sys.exit(main())

#!/usr/bin/env python3
"""Times what joins add to a run, outside the gate.

    joins.py PROGRAM [--joins two-chain,hub] [--sizes 1000,10000,100000] [--changes 40000]
                     [--runs 5] [--instructions]

The streams are those that workloads.py has for joins: so many pairs for each query, and then tuples
of which each changes one pair, and with it one binding. Each comes through a pipe, and is run with
the joins and without, by one worker. What the processor takes from the last of the first pairs on
with the joins, less what it takes without, is what joins add to a tuple. It is printed for each
size in microseconds, the least of so many runs; with how many times as much the last size takes as
the first; and what a tuple takes without joins at the last size. With --instructions all this is
told in instructions by valgrind's callgrind, of a run with these tuples less those of one without
them.

First it is asked whether each of these tuples changes one binding. The status is 1 where one
doesn't. The join dead-ends, whose searches come to nothing, is measured where it is named.
"""

import argparse
import os
import subprocess
import sys
import threading
import time

import workloads
from programs import FOLDER, instructions, line_count


def changes_one_each(program, name, changes):
    """Whether each change changes one binding, where each query has a hundred pairs."""
    queries, joins, _, _, stream = workloads.write_joined(name, 100, changes, FOLDER)
    words = [program, "--joins", joins, queries, stream]
    output = subprocess.run(words, capture_output=True, check=True).stdout
    counts = []
    for line in output.splitlines():
        if line.startswith(b"@"):
            counts.append(0)
        elif line[:2] in (b"++", b"--"):
            counts[-1] += 1
    return counts[-changes:] == [1] * changes


def processor_time(process):
    """The seconds of processor time that a process took so far."""
    # the number that Linux has for the clock of all threads of a process
    return time.clock_gettime((~process.pid << 3) | 2)


def feed(pipe, path):
    with open(path, "rb") as stream:
        pipe.write(stream.read())
    pipe.flush()


def seconds_of_changes(words, first, changes):
    """The processor time of a run from its last block of the first stream on."""
    words = [*words, "/dev/stdin"]
    process = subprocess.Popen(words, stdin=subprocess.PIPE, stdout=subprocess.PIPE)
    times, count = [], 0
    for path in (first, changes):
        feeder = threading.Thread(target=feed, args=(process.stdin, path))
        feeder.start()
        count += line_count(path)
        last = b"@%d " % count
        for line in process.stdout:
            if line.startswith(last):
                break
        feeder.join()
        times.append(processor_time(process))
    process.communicate()
    return times[1] - times[0]


def added_time(joined, plain, first, changes, given):
    """The microseconds that joins add to a change, and those that it takes without them."""
    rounds = [
        [seconds_of_changes(words, first, changes) for words in (joined, plain)]
        for _ in range(given.runs)
    ]
    own, other = (min(column) / given.changes * 1e6 for column in zip(*rounds))
    return own - other, other


def added_instructions(joined, plain, first, whole, given):
    """The instructions that joins add to a change, and those that it takes without them."""
    own, other = (
        (instructions([*words, whole]) - instructions([*words, first])) / given.changes
        for words in (joined, plain)
    )
    return own - other, other


def added(program, name, size, given):
    """What joins add to a change, and what it takes without them."""
    paths = workloads.write_joined(name, size, given.changes, FOLDER)
    queries, joins, first, changes, whole = paths
    plain = [program, "--workers", "1", queries]
    joined = [program, "--workers", "1", "--joins", joins, queries]
    if given.instructions:
        return added_instructions(joined, plain, first, whole, given)
    return added_time(joined, plain, first, changes, given)


def main():
    words = argparse.ArgumentParser(
        description=__doc__, formatter_class=argparse.RawDescriptionHelpFormatter
    )
    words.add_argument("program")
    usual = [name for name in workloads.JOINS if name != "dead-ends"]
    words.add_argument("--joins", default=",".join(usual))
    words.add_argument("--sizes", default="1000,10000,100000")
    words.add_argument("--changes", type=int, default=40000)
    words.add_argument("--runs", type=int, default=5)
    words.add_argument("--instructions", action="store_true")
    given = words.parse_args()
    program, names = os.path.abspath(given.program), given.joins.split(",")
    sizes = [int(size) for size in given.sizes.split(",")]
    for name in names:
        if not changes_one_each(program, name, 60):
            sys.exit(f"{name}: a change doesn't change one binding")
    columns = " | ".join(f"{size:,}" for size in sizes)
    print(f"| join | {columns} | growth | without joins |")
    print("|---" * (3 + len(sizes)) + "|")
    for name in names:
        row = [added(program, name, size, given) for size in sizes]
        numbers = [each for each, _ in row] + [row[-1][1]]
        *cells, without = (f"{each:,.{0 if given.instructions else 2}f}" for each in numbers)
        growth = f"{row[-1][0] / row[0][0]:.2f}"
        print(f"| {' | '.join([name, *cells, growth, without])} |", flush=True)


if __name__ == "__main__":
    main()

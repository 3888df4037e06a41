#!/usr/bin/env python3
"""Measures all that docs/performance.md has a table of, with one build, outside the gate.

    report.py PROGRAM OTHER FOLDER [--only growth,beside] [--runs 3]

Each table goes to a file of its own in the folder, FOLDER/NAME.md, as Markdown. OTHER is another
program of the same command line, with which rpq is compared. All but the instructions wants a
machine with nothing beside; the whole takes a quarter of an hour on one.
"""

import argparse
import contextlib
import os
import subprocess
import sys
import time
from types import SimpleNamespace

import joins
import live
import measure
import workloads
from programs import attack_files, files, instructions, least, least_in_turn

EVERY = measure.KINDS
# the streams that grow, and `netflow`, of whose (A|B)* the other program makes seconds a thousand
GROWING = ["uniform", "so", "social", "yago"]
FEW = {"netflow": 20_000}


def tuples_of(kind):
    return FEW.get(kind, 100_000)


def growth(given):
    """Microseconds a tuple over the length of the stream."""
    programs = measure.Programs(given.program, None, "")
    sizes = [10_000, 30_000, 100_000, 300_000]
    measure.table(programs, GROWING, ["q1", "all"], sizes, given.runs)


def beside(given):
    """Processor time and peak of memory, against the other program."""
    programs = measure.Programs(given.program, given.other, "--workers 1")
    print("| stream | queries | seconds | other's | ratio | MB | other's MB | ratio |")
    print("|---" * 8 + "|")
    ratios = {"single": [], "all": []}
    for query in ("q1", "q4", "all"):
        for kind in EVERY:
            commands = programs.each(*files(kind, tuples_of(kind), query))
            own, other = least_in_turn(commands, given.runs)
            ratios["all" if query == "all" else "single"].append(own.busy / other.busy)
            print(
                f"| {kind} | {query} | {own.busy:.3f} | {other.busy:.3f} "
                f"| {own.busy / other.busy:.2f} | {own.peak:.1f} | {other.peak:.1f} "
                f"| {own.peak / other.peak:.2f} |",
                flush=True,
            )
    for what, found in ratios.items():
        print(f"geometric mean, {what}: {measure.geometric_mean(found):.2f}")


def counted(given):
    """Instructions over the first 5,000 tuples, against the other program."""
    programs = measure.Programs(given.program, given.other, "--workers 1")
    measure.beside(programs, EVERY, ["q1", "q4", "all"], [5000], 1, True)


def attacks(given):
    """Streams that attack."""
    programs = measure.Programs(given.program, given.other, "")
    names = list(workloads.ATTACKS)
    small = [name for name in names if name == "states-apart"]
    measure.attacks(programs, [it for it in names if it not in small], [1000, 8000], given.runs)
    measure.attacks(programs, small, [64, 512], 1)


def states(given):
    """Automata of 10 and 513 states, and queries that are slow to compile."""
    programs = measure.Programs(given.program, given.other, "")
    measure.many_states(programs, given.runs)
    stream = workloads.write_states(measure.FOLDER, 5000)
    for count in workloads.STATES:
        queries = os.path.join(measure.FOLDER, f"states-{count}.queries")
        millions = instructions(programs.first(queries, stream)) / 1e6
        print(f"{count} states: {millions:,.0f} million instructions", flush=True)
    measure.before_the_first_tuple(programs, 2)


def workers(given):
    """One worker and four, all eleven queries."""
    print("| stream | one worker: wall, processor | four: wall, processor | wall, of one |")
    print("|---" * 4 + "|")
    for kind in EVERY:
        queries, stream = files(kind, tuples_of(kind), "all")
        commands = [[given.program, queries, stream, "--workers", count] for count in ("1", "4")]
        one, four = least_in_turn(commands, given.runs)
        print(
            f"| {kind} | {one.seconds:.2f}, {one.busy:.2f} | {four.seconds:.2f}, {four.busy:.2f} "
            f"| {four.seconds / one.seconds:.2f} |",
            flush=True,
        )


def writes(given):
    """Calls of `write` for 100,000 tuples that are there at once."""
    for kind in ("uniform", "social"):
        queries, stream = files(kind, 100_000, "q1")
        traced = ["strace", "-f", "-c", "-e", "trace=write", given.program, queries, stream]
        done = subprocess.run(traced, stdout=subprocess.DEVNULL, stderr=subprocess.PIPE, text=True)
        calls = [line.split()[3] for line in done.stderr.splitlines() if line.endswith(" write")]
        print(f"{kind}: {calls[0] if calls else '?'} calls of write", flush=True)


def readers(given):
    """Several streams, readers, a run in which nothing comes, and the way of a line."""
    live.table(given.program, None, GROWING, 100_000, given.runs)
    live.idle(given.program)
    live.delay(given.program)


def options(given):
    """What --two-way and --paths take of a run without them, and ends of inserts of none."""
    print("| stream | what | processor time | instructions | MB |")
    print("|---" * 5 + "|")
    for kind in EVERY:
        small = files(kind, 5000, "all")
        plain = [given.program, *small, "--workers", "1"]
        base, count = least(plain, given.runs), instructions(plain)
        for option in ("--two-way", "--paths"):
            words = [*plain, option]
            taken = least(words, given.runs)
            print(
                f"| {kind} | {option} | {taken.busy / base.busy:.2f} "
                f"| {instructions(words) / count:.2f} | {taken.peak / base.peak:.2f} |",
                flush=True,
            )
    for query in ("q1", "all"):
        own, other = (
            instructions([given.program, *files(kind, 5000, query), "--workers", "1"])
            for kind in ("ends", "uniform")
        )
        print(f"| ends | {query}, of uniform | | {own / other:.2f} | |", flush=True)


def joined(given):
    """What joins add to a tuple that changes one binding."""
    names = [name for name in workloads.JOINS if name != "dead-ends"]
    for counts, sizes in ((True, [1000, 10_000]), (False, [1000, 10_000, 100_000])):
        words = SimpleNamespace(instructions=counts, changes=4000 if counts else 40_000, runs=3)
        print("instructions" if counts else "microseconds", sizes)
        for name in names:
            row = [joins.added(given.program, name, size, words) for size in sizes]
            cells = [f"{own:,.2f}" for own, _ in row] + [f"{row[-1][0] / row[0][0]:.2f}"]
            print(f"| {' | '.join([name, *cells, f'{row[-1][1]:,.2f}'])} |", flush=True)
    words = SimpleNamespace(instructions=False, changes=4000, runs=3)
    for size in (100, 1000, 4000):
        own, other = joins.added(given.program, "dead-ends", size, words)
        print(f"| dead-ends | {size} | {own:.2f} | {other:.2f} |", flush=True)


def memory(given):
    """Memory in use when the window has moved on."""
    measure.memory_given_back(given.program, EVERY)


def dear(given):
    """What costs most: a hub with 100,000 leaves, and all edges among 100 vertices."""
    for name in ("names-255", "names-16"):
        queries, stream = attack_files(name, 8000)
        taken = least([given.program, queries, stream], given.runs)
        print(f"{name}: {taken.busy:.2f} s, {taken.peak:.0f} MB", flush=True)


def sql(given):
    """Recursive SQL."""
    measure.against_sqlite(given.program)


TABLES = [
    growth, beside, counted, attacks, states, workers, writes, readers, options, joined, memory,
    dear, sql,
]


def main():
    words = argparse.ArgumentParser(
        description=__doc__, formatter_class=argparse.RawDescriptionHelpFormatter
    )
    words.add_argument("program", type=os.path.abspath)
    words.add_argument("other", type=os.path.abspath)
    words.add_argument("folder", type=os.path.abspath)
    words.add_argument("--only", default=",".join(table.__name__ for table in TABLES))
    words.add_argument("--runs", type=int, default=3)
    given = words.parse_args()
    os.makedirs(given.folder, exist_ok=True)
    wanted = given.only.split(",")
    for table in TABLES:
        if table.__name__ not in wanted:
            continue
        start = time.monotonic()
        with open(os.path.join(given.folder, f"{table.__name__}.md"), "w", encoding="utf-8") as out:
            with contextlib.redirect_stdout(out):
                print(table.__doc__)
                table(given)
        print(f"{table.__name__}: {time.monotonic() - start:.0f} s", file=sys.stderr, flush=True)


if __name__ == "__main__":
    main()

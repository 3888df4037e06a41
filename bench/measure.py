#!/usr/bin/env python3
"""Times rpq on streams of workloads.py, outside the gate.

    measure.py PROGRAM [--kinds uniform,so] [--queries all,q1] [--tuples 10000,30000]
    measure.py PROGRAM --beside OTHER [--kinds ..] [--queries ..] [--tuples ..] [--instructions]
    measure.py PROGRAM --attacks [--kinds leaf-toggled] [--sizes 1000,8000] [--beside OTHER]
    measure.py PROGRAM --states [--beside OTHER]
    measure.py PROGRAM --hostile [--beside OTHER]
    measure.py PROGRAM --fronts FRONTS [--kinds ..] [--tuples 5000] [--same | --times]
    measure.py PROGRAM --sqlite
    measure.py PROGRAM --workers
    measure.py PROGRAM --memory [--kinds so,social]

Times are the least of three runs, or of as many as --runs says, with the output to /dev/null.
--words "--workers 1" is handed on to the programs.

The first form prints for each stream the seconds, those of processor time, the tuples a second and
the microseconds a tuple by processor time, and the peak of memory. With --beside it runs another
program of the same command line in turn, and prints both times of the processor, their ratio, both
peaks and whether the output is the same; with --instructions, those of both by valgrind's callgrind
in place of the times.

--attacks prints the microseconds a line of the streams that attack, at each size, and how many
times as much the last size takes as the first one. --states compares two queries with the same
answers, whose automata have 10 and 513 states. --hostile tells how long 64 queries take before the
first tuple, whose automata have 505 states.

--fronts runs the program of fronts.rattle: it asks whether fronts of 1, 7 and 256 entries with 1,
2, 8 and 64 workers give the bytes of rpq, on all streams, and then prints the times of rpq and of
fronts of 256 with one worker, with two and with four, and of OTHER where --beside names one. With
--same it only asks, and with --times it asks nothing.

--sqlite answers a stream of 2,000 tuples over 200 vertices by rpq and by recursive SQL in sqlite,
evaluated again after each tuple, and compares the pairs at the end and the times. --workers asks
whether 20,000 tuples give the same bytes with 1, 2 and 8 workers. --memory tells by valgrind's
massif how much memory is in use at most over 20,000 tuples with all eleven queries, and how much
when the window has moved past them and 1,000 others came, one in a window.

The peak of memory is what /usr/bin/time says, where it is there. Without it a peak below 25 MB is
that of the interpreter that starts the program.
"""

import argparse
import math
import os
import sqlite3
import subprocess
import tempfile
import threading
import time

import workloads
from programs import FOLDER, attack_files, digest_of, files, instructions, least, least_in_turn
from programs import line_count

# The kinds of streams that are measured where none are named.
KINDS = ["uniform", "so", "social", "yago", "netflow"]


def table(programs, kinds, queries, sizes, times):
    print("| stream | queries | tuples | seconds | processor | tuples a second | us a tuple | MB |")
    print("|---|---|---|---|---|---|---|---|")
    for kind in kinds:
        for query in queries:
            for tuples in sizes:
                taken = least(programs.first(*files(kind, tuples, query)), times)
                print(
                    f"| {kind} | {query} | {tuples} | {taken.seconds:.2f} | {taken.busy:.2f} "
                    f"| {tuples / taken.busy:,.0f} | {taken.busy / tuples * 1e6:.1f} "
                    f"| {taken.peak:.0f} |",
                    flush=True,
                )


class Programs:
    """A program, and perhaps another one beside it, with the words that both get."""

    def __init__(self, program, other, words):
        self.paths = [os.path.abspath(path) for path in (program, other) if path]
        self.words = words.split()

    def first(self, *arguments):
        return [self.paths[0], *arguments, *self.words]

    def each(self, *arguments):
        return [[path, *arguments, *self.words] for path in self.paths]


def geometric_mean(ratios):
    return math.exp(sum(map(math.log, ratios)) / len(ratios))


def sameness(commands):
    return "the same" if len({digest_of(words) for words in commands}) == 1 else "DIFFERENT"


def beside(programs, kinds, queries, sizes, times, counted):
    unit = "million instructions" if counted else "seconds of processor time"
    print(f"| stream | queries | tuples | {unit} | other's | ratio | MB | other's MB | output |")
    print("|---|---|---|---|---|---|---|---|---|")
    ratios = {query: [] for query in queries}
    for tuples in sizes:
        for query in queries:
            for kind in kinds:
                commands = programs.each(*files(kind, tuples, query))
                taken = least_in_turn(commands, times)
                if counted:
                    own, others = (instructions(words) / 1e6 for words in commands)
                else:
                    own, others = (each.busy for each in taken)
                ratios[query].append(own / others)
                print(
                    f"| {kind} | {query} | {tuples} | {own:.3f} | {others:.3f} "
                    f"| {own / others:.2f} | {taken[0].peak:.1f} | {taken[1].peak:.1f} "
                    f"| {sameness(commands)} |",
                    flush=True,
                )
    single = [ratio for query, found in ratios.items() if query != "all" for ratio in found]
    if single:
        print(f"geometric mean of single queries: {geometric_mean(single):.2f}")
    if ratios.get("all"):
        print(f"geometric mean of all eleven: {geometric_mean(ratios['all']):.2f}")


def attacks(programs, names, sizes, times):
    """The microseconds a line of each attack, less what an empty stream takes."""
    columns = " | ".join(f"{size:,}" for size in sizes)
    others = f" | other's {columns} | other's growth | output" if len(programs.paths) > 1 else ""
    print(f"| attack | {columns} | growth{others} |")
    print("|---" * (2 + len(sizes) + (len(sizes) + 2 if others else 0)) + "|")
    for name in names:
        rows = [[] for _ in programs.paths]
        for size in sizes:
            queries, stream = attack_files(name, size)
            empty = least_in_turn(programs.each(queries, "/dev/null"), max(times, 5))
            taken = least_in_turn(programs.each(queries, stream), times)
            lines = line_count(stream)
            for row, full, start in zip(rows, taken, empty):
                row.append(max(full.busy - start.busy, 1e-6) / lines * 1e6)
        cells = [name]
        for row in rows:
            cells += [f"{each:.2f}" for each in row] + [f"{row[-1] / row[0]:.2f}"]
        if others:
            cells.append(sameness(programs.each(*attack_files(name, sizes[0]))))
        print(f"| {' | '.join(cells)} |", flush=True)


def many_states(programs, times):
    stream = workloads.write_states(FOLDER, 5000)
    queries = [os.path.join(FOLDER, f"states-{states}.queries") for states in workloads.STATES]
    for each in range(len(programs.paths)):
        commands = [programs.each(path, stream)[each] for path in queries]
        few, many = least_in_turn(commands, times)
        print(
            f"{programs.paths[each]}: 10 states {few.busy:.3f} s, 513 states {many.busy:.3f} s, "
            f"{many.busy / few.busy:.2f} times; output: {sameness(commands)}",
            flush=True,
        )


def before_the_first_tuple(programs, times):
    queries = workloads.write_slow_to_compile(FOLDER, 64)
    for words in programs.each(queries, "/dev/null"):
        print(f"{words[0]}: {least(words, times).busy:.2f} s before the first tuple", flush=True)


def every_stream(kinds, tuples, size):
    for kind in kinds:
        yield kind, files(kind, tuples, "all")
    for name in workloads.ATTACKS:
        yield name, attack_files(name, size)


def same_by_fronts(program, fronts, kinds, tuples):
    for name, (queries, stream) in every_stream(kinds, tuples, 300):
        digests = {digest_of([program, queries, stream, "--workers", "1"])}
        for front in ("1", "7", "256"):
            for workers in ("1", "2", "8", "64"):
                digests.add(digest_of([fronts, queries, stream, front, workers]))
        print(f"{name}: {'the same bytes' if len(digests) == 1 else 'DIFFERENT'}", flush=True)


def time_of_fronts(programs, fronts, kinds, tuples, times):
    print("Seconds, and seconds of processor time, for all eleven queries:")
    print()
    columns = ["stream", "rpq, one worker", "one by one", "fronts of 256", "with two", "with four"]
    columns += ["other"] * (len(programs.paths) - 1)
    print(f"| {' | '.join(columns)} |")
    print("|---" * len(columns) + "|")
    for kind in kinds:
        queries, stream = files(kind, tuples, "all")
        own, *others = [[path, queries, stream, "--workers", "1"] for path in programs.paths]
        commands = [own]
        for front, workers in (("1", "1"), ("256", "1"), ("256", "2"), ("256", "4")):
            commands.append([fronts, queries, stream, front, workers])
        taken = least_in_turn(commands + others, times)
        cells = [f"{each.seconds:.2f}, {each.busy:.2f}" for each in taken]
        print(f"| {kind} | {' | '.join(cells)} |", flush=True)


# The automaton of a/b*: steps from a state by a label to a state, and the final states.
STEPS = [(0, "a", 1), (1, "b", 1)]
FINAL = [1]

REACHED = """
WITH RECURSIVE reached(source, vertex, state) AS (
    SELECT edge.source, edge.target, step.next FROM edge
    JOIN step ON step.state = 0 AND step.label = edge.label
    UNION
    SELECT reached.source, edge.target, step.next FROM reached
    JOIN edge ON edge.source = reached.vertex
    JOIN step ON step.state = reached.state AND step.label = edge.label
)
SELECT DISTINCT source, vertex FROM reached JOIN final ON final.state = reached.state
"""


def by_sqlite(path, window, slide):
    """The lines that rpq would write for a/b* as query q2, by SQL evaluated after each tuple."""
    base = sqlite3.connect(":memory:")
    base.executescript(
        "CREATE TABLE edge(source, label, target, deadline, PRIMARY KEY(source, label, target));"
        "CREATE TABLE step(state, label, next); CREATE TABLE final(state);"
        "CREATE INDEX by_deadline ON edge(deadline);"
    )
    base.executemany("INSERT INTO step VALUES (?, ?, ?)", STEPS)
    base.executemany("INSERT INTO final VALUES (?)", [(state,) for state in FINAL])
    clock, held, lines = 0, set(), []
    for line in open(path):
        at, source, label, target, sign = line.split()
        clock = max(clock, int(at))
        base.execute("DELETE FROM edge WHERE deadline <= ?", (clock,))
        if sign == "-":
            base.execute(
                "DELETE FROM edge WHERE source = ? AND label = ? AND target = ?",
                (source, label, target),
            )
        else:
            deadline = -(-(int(at) + window) // slide) * slide
            if deadline > clock:
                base.execute(
                    "INSERT INTO edge VALUES (?, ?, ?, ?) ON CONFLICT DO UPDATE "
                    "SET deadline = max(deadline, excluded.deadline)",
                    (source, label, target, deadline),
                )
        pairs = set(base.execute(REACHED))
        for pair in sorted(held - pairs):
            lines.append(("-", *pair))
        for pair in sorted(pairs - held):
            lines.append(("+", *pair))
        held = pairs
    return lines


def against_sqlite(program):
    queries, stream = files("uniform", 2000, "q2", vertices=200)
    _, window, slide, _ = workloads.KINDS["uniform"]
    start = time.monotonic()
    expected = by_sqlite(stream, window, slide)
    slow = time.monotonic() - start
    fast = least([program, queries, stream], 5).seconds
    output = subprocess.run([program, queries, stream], capture_output=True, text=True).stdout
    changes = [line.split() for line in output.splitlines()]
    found = [(words[0], words[-2], words[-1]) for words in changes if words[0] in "+-"]
    print(f"sqlite {slow:.2f} s, rpq {fast:.4f} s, {slow / fast:,.0f} times")
    print(f"{len(expected)} changes by sqlite, {len(found)} by rpq")


def same_by_workers(program):
    for kind in workloads.KINDS:
        words = [program, *files(kind, 20000, "all")]
        digests = {digest_of([*words, "--workers", count]) for count in ("1", "2", "8")}
        print(f"{kind}: {'the same bytes' if len(digests) == 1 else 'DIFFERENT'}")


def with_a_tail(kind):
    """A stream of 20,000 tuples, then of 1,000 between 50 others, each in its own window."""
    _, window, _, _ = workloads.KINDS[kind]
    with open(files(kind, 20000, "all")[1]) as stream:
        lines = stream.read().splitlines()
    clock = max(int(line.split()[0]) for line in lines)
    labels = sorted({line.split()[2] for line in lines})
    for number in range(1000):
        clock += 2 * window
        label = labels[number % len(labels)]
        lines.append(f"{clock} later{number % 50} {label} later{number * 7 % 50}")
    return lines


def feed(pipe, lines):
    pipe.write("\n".join([*lines, ""]).encode())
    pipe.flush()


def memory_in_use(program, kind):
    """The bytes in use at most, and at the end of the stream, while the program still runs."""
    lines = with_a_tail(kind)
    note = os.path.join(tempfile.gettempdir(), f"rpq-massif-{os.getpid()}")
    massif = ["valgrind", "-q", "--tool=massif", "--max-snapshots=1000"]
    queries = files(kind, 20000, "all")[0]
    words = [*massif, f"--massif-out-file={note}", program, queries, "/dev/stdin"]
    process = subprocess.Popen(words, stdin=subprocess.PIPE, stdout=subprocess.PIPE)
    feeder = threading.Thread(target=feed, args=(process.stdin, lines))
    feeder.start()
    for line in process.stdout:
        if line.startswith(f"@{len(lines)} ".encode()):
            break
    feeder.join()
    process.terminate()
    process.communicate()
    with open(note) as told:
        used = [int(line.split("=")[1]) for line in told if line.startswith("mem_heap_B=")]
    os.unlink(note)
    return max(used), used[-1]


def memory_given_back(program, kinds):
    for kind in kinds:
        most, left = memory_in_use(program, kind)
        print(f"{kind}: {most / 1e6:.1f} MB at most, {left / 1e6:.1f} MB left", flush=True)


def words_given():
    words = argparse.ArgumentParser(
        description=__doc__, formatter_class=argparse.RawDescriptionHelpFormatter
    )
    words.add_argument("program")
    words.add_argument("--kinds")
    words.add_argument("--queries", default="all,q1,q4,q9,q11")
    words.add_argument("--tuples")
    words.add_argument("--sizes", default="1000,8000")
    words.add_argument("--runs", type=int, default=3)
    words.add_argument("--words", default="")
    words.add_argument("--beside")
    words.add_argument("--fronts")
    for form in ("instructions", "attacks", "states", "hostile", "same", "times"):
        words.add_argument(f"--{form}", action="store_true")
    for form in ("sqlite", "workers", "memory"):
        words.add_argument(f"--{form}", action="store_true")
    return words.parse_args()


def numbers(text):
    return [int(number) for number in text.split(",")]


def measure_fronts(programs, given, kinds):
    fronts = os.path.abspath(given.fronts)
    tuples = numbers(given.tuples or "5000")[0]
    if not given.times:
        same_by_fronts(programs.paths[0], fronts, kinds, tuples)
    if not given.same:
        time_of_fronts(programs, fronts, kinds, tuples, given.runs)


def main():
    given = words_given()
    programs = Programs(given.program, given.beside, given.words)
    program = programs.paths[0]
    kinds = given.kinds.split(",") if given.kinds else KINDS
    if given.sqlite:
        against_sqlite(program)
    elif given.workers:
        same_by_workers(program)
    elif given.memory:
        memory_given_back(program, kinds)
    elif given.attacks:
        names = given.kinds.split(",") if given.kinds else list(workloads.ATTACKS)
        attacks(programs, names, numbers(given.sizes), given.runs)
    elif given.states:
        many_states(programs, given.runs)
    elif given.hostile:
        before_the_first_tuple(programs, given.runs)
    elif given.fronts:
        measure_fronts(programs, given, kinds)
    elif given.beside:
        sizes = numbers(given.tuples or "100000")
        queries = given.queries.split(",")
        beside(programs, kinds, queries, sizes, given.runs, given.instructions)
    else:
        sizes = numbers(given.tuples or "10000,30000,100000,300000")
        table(programs, kinds, given.queries.split(","), sizes, given.runs)


if __name__ == "__main__":
    main()

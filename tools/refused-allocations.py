#!/usr/bin/env python3
"""Refuses each allocation of a run in turn, outside the gate.

    refused-allocations.py PROGRAM [--every 1] [--embedding PROGRAM] [--engine PROGRAM]

Runs PROGRAM, an `rpq`, over small cases once for each allocation that it makes: with the first one
refused, with the second, and so on until a run makes fewer; and then again with all later ones
refused too. The library tools/refusing_malloc.c, which a C compiler builds here, refuses them.

Each run is to end within 10 seconds, by no signal, with status 0 or 8. On 0 it has the events and
the replies of a run with ample memory; on 8 it says `rpq: memory` on standard error, its events are
whole blocks of the text of the history that they spell, and its replies are a part, at the front,
of those of the sessions. What is right is found from scratch by tools/live-runs.py. With
`--embedding`, the embedding example is run over the first case too: where it can say so at all, its
objects come back. With `--engine`, so is bench/rebuilds.rattle: a spent engine refuses the next
entry, and goes on after it was rebuilt. `bench/run.sh --fast --refused` builds all three.

How many allocations there were, and how many runs ended with which status, is printed for each case.
The last line is `N passed, M failed`; the status is 0 where none failed.
"""

import argparse
import collections
import importlib.util
import os
import subprocess
import sys
import tempfile
from concurrent.futures import ThreadPoolExecutor

HERE = os.path.dirname(os.path.abspath(__file__))
SECONDS = 10
A, B, C = ("label", "a"), ("label", "b"), ("label", "c")


def other(name):
    """The script of this name beside this one, as a module."""
    spec = importlib.util.spec_from_file_location(name.replace("-", "_"), f"{HERE}/{name}.py")
    module = importlib.util.module_from_spec(spec)
    spec.loader.exec_module(module)
    return module


live = other("live-runs")


def query(tree, window=100, slide=10, name="q"):
    return {"name": name, "window": window, "slide": slide, "mode": "arbitrary", "two_way": False,
            "tree": tree}


def stream(text):
    lines = text.split(";")
    entries = []
    for line in lines:
        fields = line.split()
        kind = "" if len(fields) == 1 else fields[4] if len(fields) == 5 else "+"
        edge = tuple(fields[1:4]) if kind else None
        entries.append({"time": int(fields[0]), "act": kind, "edge": edge, "until": None})
    return {"lines": lines, "entries": entries}


def long_stream(count):
    """A stream over few vertices, of several fronts, with removals and a window that moves on."""
    seed, lines = 1, []
    for place in range(1, count + 1):
        numbers = []
        for _ in range(3):
            seed = (seed * 1103515245 + 12345) % 2**31
            numbers.append(seed // 65536)
        sign = " -" if numbers[2] % 16 == 15 else ""
        lines.append("%d v%d %s v%d%s" % (place // 4, numbers[0] % 12, "abc"[numbers[2] % 3],
                                          numbers[1] % 12, sign))
    return stream(";".join(lines))


# Each case: its queries, its streams, the asks of its sessions, whether each allocation is refused
# or a part of them, and the words of the run beside these. Where they name a joins file, it has the
# text below.
CASES = {
    "a cycle survives the delete of its root's edge": (
        [query(("plus", A))], [stream("1 r a x;1 x a y;1 y a x;1 r a x -")], [], 1, []),
    "two streams and a session": (
        [query(("then", A, B))], [stream("1 x a y;2 y b z;3 x a w"), stream("4 w b z;5")],
        [[("wait", "2"), ("answers", "q"), ("wait", "9")]], 1, []),
    "paths, with a session": (
        [query(("then", A, ("star", B)))], [stream("1 x a y;2 y b z;3 z b y;4 w a y;5 y b z -")],
        [[("wait", "2"), ("until", "q", "x", "z")]], 1, ["--paths"]),
    "joins, with a session": (
        [query(A), query(("then", A, ("star", B)), name="p")],
        [stream("1 x a y;2 y b z;3 y a x;4 x a x;5 y a x -;130 z a x")],
        [[("wait", "2"), ("count", "q"), ("wait", "9")]], 1, ["--joins", "j"]),
    "600 tuples": (
        [query(("then", A, ("star", ("or", B, C))), 30, 5)], [long_stream(600)], [], 41, []),
}
JOINS = "join s q ?x ?y q ?y ?x\njoin t p ?x ?y q ?y ?z\n# a comment\njoin k q x ?x p ?x ?y\n"


class Wrong(Exception):
    pass


def expect(holds, what):
    if not holds:
        raise Wrong(what)


def blocks_of(text):
    """The entries that the `@` lines spell, the numbers of their streams, and the lines of events
    behind each."""
    expect(text == "" or text.endswith("\n"), "a line is cut")
    history, numbers, blocks = [], [], []
    for line in text.splitlines():
        if line.startswith("@"):
            number, entry = live.entry_of(line.split(" "))
            history.append(entry)
            numbers.append(number)
            blocks.append([])
            expect(line.split(" ")[0] == "@%d" % len(history), "the number of an entry")
        else:
            blocks[-1].append(line)
    return history, numbers, blocks


def check_blocks(queries, history, blocks, ends, options):
    has_paths, joins = "--paths" in options, []
    if "--joins" in options:
        joins, _ = live.read_joins({"queries": queries, "joins": JOINS})
    for place, block in enumerate(blocks):
        due = []
        if has_paths:
            wrong, block = live.without_paths({"queries": queries}, history[:place + 1], block,
                                              ends[place + 1])
            expect(wrong is None, "block %d: %s" % (place + 1, wrong))
        for one, old, new in zip(queries, ends[place], ends[place + 1]):
            for sign, pairs in (("-", set(old) - set(new)), ("+", set(new) - set(old))):
                due += ["%s %s %s %s" % ((sign, one["name"]) + pair) for pair in sorted(pairs)]
        due += live.join_lines(joins, ends[place], ends[place + 1])
        expect(block == due, "block %d: %r, due %r" % (place + 1, block, due))


def check_replies(sessions, names, replies, ends, is_whole):
    """What was written on the replies is that of the sessions' asks, or a part at the front."""
    for number, asks in enumerate(sessions, 1):
        due = "session %d\n" % number
        for ask in [None] + asks:
            if ask:
                head = replies.split(" ", 1)[0]
                if not is_whole and not replies.startswith("@"):
                    break
                position = int(head[1:])
                # what is published but not written any more isn't known here
                if position >= len(ends):
                    return
                due = live.expected_reply(ask, position, ends[position], names)
            if not is_whole and due.startswith(replies):
                return
            expect(replies.startswith(due), "session %d: %r, due %r" % (number, replies, due))
            replies = replies[len(due):]
    expect(replies == "", "text behind the sessions")


class Case:
    """A case, over files in a folder of its own."""

    def __init__(self, name, folder):
        self.queries, self.streams, self.sessions, self.step, self.options = CASES[name]
        self.folder, self.known = folder, {}
        with open(folder + "/q", "w") as out:
            for one in self.queries:
                out.write("query %(name)s window %(window)d slide %(slide)d %(mode)s: " % one)
                out.write(live.written(one["tree"]) + "\n")
        self.words = ["q"]
        for number, one in enumerate(self.streams, 1):
            with open("%s/s%d" % (folder, number), "w") as out:
                out.write("\n".join(one["lines"]) + "\n")
            self.words.append("s%d" % number)
        with open(folder + "/j", "w") as out:
            out.write(JOINS)
        with open(folder + "/a", "w") as out:
            for asks in self.sessions:
                out.write("session\n" + "".join(" ".join(ask) + "\n" for ask in asks))

    def run(self, program, library, number, on, tag):
        """The run with this allocation refused: its status, what it wrote, and its allocations."""
        counted, replies = f"{self.folder}/count{tag}", f"r{tag}"
        words = ["--asks", "a", "--replies", replies] if self.sessions else []
        settings = dict(os.environ, LD_PRELOAD=library, REFUSED=str(number), REFUSED_COUNT=counted)
        if on:
            settings["REFUSED_ON"] = "1"
        words += self.options + self.words
        done = subprocess.run([program] + words, cwd=self.folder, env=settings,
                              stdin=subprocess.DEVNULL, capture_output=True, timeout=SECONDS)
        told = None
        if os.path.exists(f"{self.folder}/{replies}"):
            told = open(f"{self.folder}/{replies}").read()
            os.unlink(f"{self.folder}/{replies}")
        calls = int(open(counted).read()) if os.path.exists(counted) else 0
        return done.returncode, done.stdout.decode(), done.stderr.decode(), told, calls

    def ends(self, history):
        """The answers over each front of the history, with their ends."""
        found = []
        for count in range(len(history) + 1):
            key = repr(history[:count])
            if key not in self.known:
                self.known[key] = [live.ends_of(one, history[:count]) for one in self.queries]
            found.append(self.known[key])
        return found

    def check(self, status, events, errors, replies):
        expect(status in (0, 8), "status %d" % status)
        expect(errors == ("" if status == 0 else "rpq: memory\n"), "errors %r" % errors)
        history, numbers, blocks = blocks_of(events)
        for number, one in enumerate(self.streams, 1):
            own = [entry for entry, of in zip(history, numbers) if of == number]
            due = one["entries"] if status == 0 else one["entries"][:len(own)]
            expect(own == due, "the tuples of stream %d" % number)
        ends = self.ends(history)
        check_blocks(self.queries, history, blocks, ends, self.options)
        if replies is not None:
            names = [one["name"] for one in self.queries]
            check_replies(self.sessions, names, replies, ends, status == 0)
        expect(status == 8 or not self.sessions or replies is not None, "no replies")


def try_all(name, program, library, on, every):
    """Refuses each allocation of the case in turn: how many there are, the runs' statuses, and what
    went wrong."""
    statuses, wrong = collections.Counter(), []
    with tempfile.TemporaryDirectory(prefix="rpqalloc") as folder:
        case = Case(name, folder)
        status, events, errors, replies, most = case.run(program, library, 0, False, 0)
        case.check(status, events, errors, replies)
        expect(status == 0, "status %d with ample memory" % status)

        def one(number):
            try:
                status, events, errors, replies, calls = case.run(program, library, number, on, number)
                case.check(status, events, errors, replies)
                return number, status, calls, None
            except (Wrong, subprocess.TimeoutExpired, ValueError) as fault:
                return number, None, 0, fault

        # the schedule may want some more in one run than in another
        numbers = range(1, most + 1 + most // 20, case.step * every)
        with ThreadPoolExecutor(os.cpu_count()) as pool:
            for number, status, _, fault in pool.map(one, numbers):
                statuses[status] += 1
                if fault:
                    wrong.append("allocation %d: %s" % (number, fault))
    return most, len(numbers), statuses, wrong


def try_other(program, library, is_right):
    """Another program over the first case, with each of its allocations refused in turn: how many
    there are, how often which status came, and what went wrong."""
    wrong, statuses = [], collections.Counter()
    with tempfile.TemporaryDirectory(prefix="rpqalloc") as folder:
        case = Case(next(iter(CASES)), folder)
        ample = case.run(program, library, 0, False, 0)
        expect(is_right(ample[0], ample[1], ample[1]), "with ample memory: status %d" % ample[0])
        for number in range(1, ample[4] + 1):
            status, said, _, _, _ = case.run(program, library, number, False, number)
            statuses[status] += 1
            if not is_right(status, said, ample[1]):
                wrong.append("allocation %d: status %d, %r" % (number, status, said))
    return ample[4], statuses, wrong


def objects_come_back(status, said, _):
    """The embedding example says what each object heard, unless it has no memory for that."""
    lines = [line for line in said.splitlines() if line.split(" ")[0] in ("roll", "tail")]
    return status > 0 or status == 0 and len(lines) == 4


def goes_on(status, said, due):
    """The engine answers all entries, unless memory ran out elsewhere."""
    return status == 0 and said == due or status == 8 and due.startswith(said)


def main():
    parser = argparse.ArgumentParser(description=__doc__.split("\n\n")[0])
    parser.add_argument("program")
    parser.add_argument("--every", type=int, default=1, help="each so many allocations alone")
    parser.add_argument("--embedding", help="the built example crates/first_alert")
    parser.add_argument("--engine", help="the built program bench/rebuilds.rattle")
    given = parser.parse_args()
    passed = failed = 0
    with tempfile.TemporaryDirectory(prefix="rpqalloc") as place:
        library = place + "/refusing_malloc.so"
        subprocess.run(["cc", "-O1", "-shared", "-fPIC", "-o", library,
                        HERE + "/refusing_malloc.c", "-ldl"], check=True)
        for name in CASES:
            for on in (False, True):
                most, runs, statuses, wrong = try_all(name, os.path.abspath(given.program), library,
                                                      on, given.every)
                print("%s: %d allocations, %d runs with %s refused: %d ended with status 0, %d with 8"
                      % (name, most, runs, "all from one on" if on else "one", statuses[0],
                         statuses[8]))
                for text in wrong[:10]:
                    print("FAILED: " + text)
                passed += runs - len(wrong)
                failed += len(wrong)
        others = [("the embedding example", given.embedding, objects_come_back),
                  ("the engine, rebuilt", given.engine, goes_on)]
        for name, program, is_right in others:
            if program:
                most, statuses, wrong = try_other(os.path.abspath(program), library, is_right)
                print("%s: %d allocations, one refused in turn: %d runs ended with status 0"
                      % (name, most, statuses[0]))
                for text in wrong[:10]:
                    print("FAILED: " + text)
                passed += most - len(wrong)
                failed += len(wrong)
    print("%d passed, %d failed" % (passed, failed))
    return 0 if failed == 0 else 1


if __name__ == "__main__":
    sys.exit(main())

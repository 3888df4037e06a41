#!/usr/bin/env python3
"""Times rpq with several streams and with readers, outside the gate.

    live.py PROGRAM [--before OTHER] [--kinds uniform,so] [--tuples 100000] [--runs 3]
    live.py PROGRAM --beside [--workers N] [--kinds uniform,so] [--tuples 100000] [--runs 3]
    live.py PROGRAM --idle
    live.py PROGRAM --delay

The first form prints seconds of wall and of processor time and the peak of memory, the least of so
many runs, for `q1` and for all eleven queries: of one stream; of the same tuples dealt out to 8
streams; of one stream with a reader that waits for each thousandth position and asks for a count
and for what one vertex leads to; and with 64 readers of 100 asks each. The times of the last three
are also told as a part of those of the one stream. With --before the one stream is run by another
program of the same command line, too, in turn.

--beside prints the seconds up to the last output of one stream, and those of processor time, the
least of so many runs each; the same, as times these, with a reader beside it that asks nothing; and
with one that asks ten times a second for a count and for what one vertex leads to. The runs take as
many workers as --workers says.

--idle tells what processor time a run takes in 10 s in which its pipe says nothing, with two
readers that wait. --delay tells how long it takes from a line that is written into a pipe until its
block is on the output, of a thousand lines.
"""

import argparse
import os
import subprocess
import tempfile
import threading
import time

from programs import files, run

KINDS = ["uniform", "so", "social", "yago"]
STREAMS = 8
READERS = 64


def least(words, times):
    taken = [run(words) for _ in range(times)]
    return min(one.seconds for one in taken), min(one.busy for one in taken), min(
        one.peak for one in taken)


def dealt(stream, count):
    """The paths of so many streams, among which the lines of one are dealt out in turn."""
    paths = [f"{stream}.{number}-of-{count}" for number in range(1, count + 1)]
    outs = [open(path, "w", encoding="utf-8") for path in paths]
    with open(stream, encoding="utf-8") as lines:
        for number, line in enumerate(lines):
            outs[number % count].write(line)
    for out in outs:
        out.close()
    return paths


def vertices(stream, count):
    found = []
    with open(stream, encoding="utf-8") as lines:
        for line in lines:
            fields = line.split()
            if len(fields) > 3:
                found.append(fields[1])
            if len(found) == count:
                break
    return found


def asks(path, queries, stream, tuples, sessions, each):
    """An asks file of so many sessions, each with so many groups of a wait, a count and a from."""
    with open(queries, encoding="utf-8") as lines:
        names = [line.split()[1] for line in lines if line.startswith("query")]
    own = vertices(stream, 1000)
    with open(path, "w", encoding="utf-8") as out:
        for session in range(sessions):
            out.write("session\n")
            for group in range(each):
                name = names[(session + group) % len(names)]
                out.write(f"wait {(group + 1) * tuples // each}\ncount {name}\n")
                out.write(f"from {name} {own[(session * 7 + group) % len(own)]}\n")
    return path


def row(what, taken, base=None):
    parts = f" {taken[0] / base[0]:.2f} | {taken[1] / base[1]:.2f} |" if base else " | |"
    print(f"| {what} | {taken[0]:.2f} | {taken[1]:.2f} | {taken[2]:.0f} |{parts}", flush=True)


def table(program, before, kinds, tuples, times):
    print("| run | wall | processor | MB | wall, of one stream | processor |")
    print("|---|---|---|---|---|---|")
    place = tempfile.mkdtemp(prefix="rpq-live")
    replies = ["--replies", os.path.join(place, "replies.txt")]
    for kind in kinds:
        for query in ("q1", "all"):
            queries, stream = files(kind, tuples, query)
            name = f"{kind} {query}"
            one = least([program, queries, stream], times)
            if before:
                old = least([before, queries, stream], times)
                row(f"{name}, before", old)
                row(f"{name}, one stream (of before)", one, old)
            else:
                row(f"{name}, one stream", one)
            row(f"{name}, {STREAMS} streams",
                least([program, queries, *dealt(stream, STREAMS)], times), one)
            path = os.path.join(place, "asks.txt")
            asks(path, queries, stream, tuples, 1, max(1, min(340, tuples // 1000)))
            row(f"{name}, one reader",
                least([program, "--asks", path, *replies, queries, stream], times), one)
            asks(path, queries, stream, tuples, READERS, 33)
            row(f"{name}, {READERS} readers",
                least([program, "--asks", path, *replies, queries, stream], times), one)


def busy_time(number):
    """The processor time that the process with this number has taken, in seconds."""
    with open(f"/proc/{number}/stat", encoding="utf-8") as stat:
        fields = stat.read().rsplit(")", 1)[1].split()
    return (int(fields[11]) + int(fields[12])) / os.sysconf("SC_CLK_TCK")


class Output(threading.Thread):
    """Reads what a process writes, and notes when it wrote last."""

    def __init__(self, pipe):
        super().__init__()
        self.pipe = pipe
        self.begun = self.last = time.monotonic()
        self.start()

    def run(self):
        while self.pipe.read1(1 << 20):
            self.last = time.monotonic()

    def seconds(self):
        """The seconds up to the last output. The process has ended."""
        self.join()
        return self.last - self.begun


def without_reader(words):
    """The seconds of a run up to its last output, and those of processor time."""
    process = subprocess.Popen(words, stdout=subprocess.PIPE)
    output = Output(process.stdout)
    return ended(process, words, output)


def ended(process, words, output):
    """The seconds of a run up to its last output, and those of processor time, once it has ended."""
    _, status, used = os.wait4(process.pid, 0)
    process.returncode = status
    if status != 0:
        raise SystemExit(f"{' '.join(words)}: status {status >> 8}")
    return output.seconds(), used.ru_utime + used.ru_stime


def with_reader(words, lines):
    """The same of a run with a reader beside it. Each tenth of a second it is asked the next of these
    lines, if there are any. It is ended once the run takes no more time."""
    place = tempfile.mkdtemp(prefix="rpq-live")
    pipes = [os.path.join(place, name) for name in ("asks", "replies")]
    for pipe in pipes:
        os.mkfifo(pipe)
    held, taken = (os.open(pipe, os.O_RDWR | os.O_NONBLOCK) for pipe in pipes)
    process = subprocess.Popen([*words, "--reader", *pipes], stdout=subprocess.PIPE)
    output = Output(process.stdout)
    asked, before, quiet = 0, -1.0, 0
    while quiet < 5:
        time.sleep(0.1)
        now = busy_time(process.pid)
        quiet = quiet + 1 if now - before < 0.02 else 0
        before = now
        if lines and quiet < 2:
            os.write(held, lines[asked % len(lines)].encode())
            asked += 1
        try:
            os.read(taken, 1 << 20)
        except BlockingIOError:
            pass
    os.write(held, b"end\n")
    took = ended(process, words, output)
    os.close(held)
    os.close(taken)
    return took


def least_of(runs):
    """The least of the seconds, and of those of processor time."""
    seconds, busy = zip(*runs)
    return min(seconds), min(busy)


def beside(program, workers, kinds, tuples, times):
    """Prints what a reader beside a run costs."""
    print("| stream, queries | no reader, s: wall, processor | one that asks nothing | one that asks |")
    print("|---|---|---|---|")
    for kind in kinds:
        for query in ("q1", "all"):
            queries, stream = files(kind, tuples, query)
            with open(queries, encoding="utf-8") as lines:
                names = [line.split()[1] for line in lines if line.startswith("query")]
            asked = [f"count {name}\nfrom {name} {vertex}\n"
                     for name, vertex in zip(names * 50, vertices(stream, 50))]
            words = [program, *workers, queries, stream]
            alone = least_of(without_reader(words) for _ in range(times))
            still = least_of(with_reader(words, []) for _ in range(times))
            asking = least_of(with_reader(words, asked) for _ in range(times))
            print(f"| `{kind}`, {query} | {alone[0]:.2f}, {alone[1]:.2f} |"
                  f" {still[0] / alone[0]:.2f}, {still[1] / alone[1]:.2f} |"
                  f" {asking[0] / alone[0]:.2f}, {asking[1] / alone[1]:.2f} |", flush=True)


def live(program, words, place):
    """Starts a run over a named pipe, and gives the process and the pipe's end to write on."""
    pipe = os.path.join(place, "pipe")
    os.mkfifo(pipe)
    process = subprocess.Popen([program, *words, pipe], stdout=subprocess.PIPE, bufsize=0)
    return process, open(pipe, "wb", buffering=0)


def queries_in(place):
    path = os.path.join(place, "queries.txt")
    with open(path, "w", encoding="utf-8") as out:
        out.write("query q window 1000 slide 10 arbitrary: a/b\n")
    return path


def idle(program):
    place = tempfile.mkdtemp(prefix="rpq-live")
    path = os.path.join(place, "asks.txt")
    with open(path, "w", encoding="utf-8") as out:
        out.write("session\nwait 1\nwait 5\nsession\nwait 2\n")
    words = ["--asks", path, "--replies", os.path.join(place, "replies.txt"), queries_in(place)]
    process, pipe = live(program, words, place)
    pipe.write(b"1 x a y\n")
    time.sleep(1)

    start = busy_time(process.pid)
    time.sleep(10)
    taken = busy_time(process.pid) - start
    print(f"processor time of 10 s in which nothing comes: {taken:.2f} s")
    pipe.write(b"2 y b z\n")
    pipe.close()
    process.stdout.read()
    print(f"status {process.wait()}")
    print(open(words[3], encoding="utf-8").read(), end="")


def delay(program):
    place = tempfile.mkdtemp(prefix="rpq-live")
    process, pipe = live(program, [queries_in(place)], place)
    delays = []
    for number in range(1000):
        time.sleep(0.002)
        start = time.monotonic()
        pipe.write(f"{number} x{number % 50} a y{number % 30}\n".encode())
        got = b""
        while b"\n" not in got:
            got += process.stdout.read(4096)
        delays.append(time.monotonic() - start)
    pipe.close()
    process.stdout.read()
    process.wait()
    delays.sort()
    for part in (50, 99):
        print(f"{part} of 100 lines within {delays[len(delays) * part // 100] * 1e3:.2f} ms")
    print(f"the longest {delays[-1] * 1e3:.2f} ms")


def main():
    parser = argparse.ArgumentParser(description="Times rpq with several streams and readers.")
    parser.add_argument("program")
    parser.add_argument("--before")
    parser.add_argument("--kinds", default=",".join(KINDS))
    parser.add_argument("--tuples", type=int, default=100_000)
    parser.add_argument("--runs", type=int, default=3)
    parser.add_argument("--beside", action="store_true")
    parser.add_argument("--workers")
    parser.add_argument("--idle", action="store_true")
    parser.add_argument("--delay", action="store_true")
    given = parser.parse_args()
    program = os.path.abspath(given.program)
    if given.idle:
        idle(program)
    elif given.delay:
        delay(program)
    elif given.beside:
        workers = ["--workers", given.workers] if given.workers else []
        beside(program, workers, given.kinds.split(","), given.tuples, given.runs)
    else:
        before = os.path.abspath(given.before) if given.before else None
        table(program, before, given.kinds.split(","), given.tuples, given.runs)


if __name__ == "__main__":
    main()

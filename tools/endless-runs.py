#!/usr/bin/env python3
"""tools/endless-runs.py PROGRAM [--tuples N] [--window W] [--leg N] [--names N] [--seed N]
                      [--folder DIR] [--without-legs]

Feeds PROGRAM, an `rpq`, a long stream through a pipe, by one run with `--endless`, and says

- how much memory the run had at most in its first half, and in its second;
- the longest silences of its output, with the tuple before each;
- whether it wrote what runs in legs write: each of these takes the next tuples, begins with the
  window that the one before it saved, and saves its own.

The stream has N tuples, each a time unit behind the one before it, and one query has a window of W
units. One tuple in fifty comes late, three in a hundred delete an edge, one in twenty has an end of
its own. The vertices are drawn from 2,000 names that drift, by one name in --names tuples. The same
words give the same stream.

The streams of the legs stay in DIR if it is given, and are taken from there if they are there. It
isn't part of the gate. The status is 0 if the bytes are the same.
"""
import argparse
import hashlib
import os
import random
import re
import subprocess
import sys
import tempfile
import threading
import time

QUERIES = """query joined window {window} slide 1 arbitrary: a/b
query recent window {less} slide {slide} arbitrary: c
"""

# the line that begins a block
BLOCK = re.compile(rb"^@([0-9]+)", re.MULTILINE)


# ---- the stream

def tuples(rng, first, many, names, recent):
    """So many tuples from a time on. `recent` are edges that may be deleted."""
    for now in range(first, first + many):
        base = now // names
        edge = "v%d %s v%d" % (base + rng.randrange(2000), "aabbc"[rng.randrange(5)],
                               base + rng.randrange(2000))
        kind = rng.random()
        if kind < 0.03 and recent:
            yield "%d %s -\n" % (now, recent[rng.randrange(len(recent))])
            continue
        if len(recent) < 5000:
            recent.append(edge)
        else:
            recent[rng.randrange(5000)] = edge
        if kind < 0.05:
            yield "%d %s\n" % (max(1, now - rng.randrange(3000)), edge)
        elif kind < 0.10:
            yield "%d %s until %d\n" % (now, edge, now + rng.randrange(1, 15000))
        else:
            yield "%d %s\n" % (now, edge)


def write_legs(folder, words):
    """The stream in files of so many tuples."""
    rng, recent, paths = random.Random(words.seed), [], []
    for first in range(1, words.tuples + 1, words.leg):
        many = min(words.leg, words.tuples + 1 - first)
        path = os.path.join(folder, "leg-%d-%d-%d-%d" % (words.names, words.seed, first, many))
        paths.append((path, many))
    if all(os.path.exists(path) for path, _ in paths):
        return paths
    first = 1
    for path, many in paths:
        with open(path + ".new", "w") as out:
            out.writelines(tuples(rng, first, many, words.names, recent))
        os.rename(path + ".new", path)
        first += many
    return paths


# ---- memory

def memory_of(pid, name):
    """A number of the process's memory, in kB."""
    try:
        with open("/proc/%d/status" % pid) as status:
            for line in status:
                if line.startswith(name + ":"):
                    return int(line.split()[1])
    except OSError:
        pass
    return 0


def begin_peak_anew(pid):
    with open("/proc/%d/clear_refs" % pid, "w") as refs:
        refs.write("5")


# ---- the runs

def feed(paths, fifo):
    with open(fifo, "wb", buffering=0) as out:
        for path, _ in paths:
            with open(path, "rb") as leg:
                while True:
                    piece = leg.read(1 << 16)
                    if not piece:
                        break
                    view = memoryview(piece)
                    while view:
                        view = view[out.write(view):]


def last_position(piece, before):
    """The position of the last whole `@` line of a piece of output."""
    at = piece.rfind(b"\n@")
    if at < 0:
        return before
    end = at + 2
    while end < len(piece) and 48 <= piece[end] <= 57:
        end += 1
    return int(piece[at + 2:end] or before) if end < len(piece) else before


class Endless:
    """The run with `--endless`: the digest of its output, its peaks of memory, its silences."""

    def __init__(self, words, folder, queries, paths):
        fifo = os.path.join(folder, "pipe")
        os.mkfifo(fifo)
        self.began = time.monotonic()
        self.run = subprocess.Popen([words.program, "--endless", queries, fifo],
                                    stdout=subprocess.PIPE, bufsize=0)
        feeder = threading.Thread(target=feed, args=(paths, fifo), daemon=True)
        feeder.start()
        self.digest, self.size = hashlib.sha256(), 0
        self.peaks, self.silences = [0, 0], []
        self.read(words.tuples // 2)
        _, self.status, usage = os.wait4(self.run.pid, 0)
        self.processor = usage.ru_utime + usage.ru_stime
        self.took = time.monotonic() - self.began
        os.unlink(fifo)

    def read(self, half):
        position, last, is_second, next_look = 0, self.began, False, 0
        while True:
            piece = os.read(self.run.stdout.fileno(), 1 << 20)
            now = time.monotonic()
            if now - last > 0.05:
                self.silences = sorted(self.silences + [(now - last, position)])[-5:]
            last = now
            if not piece:
                return
            self.digest.update(piece)
            self.size += len(piece)
            position = last_position(piece, position)
            if now < next_look:
                continue
            next_look = now + 0.01
            if not is_second and position > half:
                begin_peak_anew(self.run.pid)
                is_second = True
            peak = memory_of(self.run.pid, "VmHWM")
            self.peaks[is_second] = max(self.peaks[is_second], peak)


def whole_lines(source):
    """What a run writes, in pieces of whole lines."""
    rest = b""
    while True:
        piece = source.read(1 << 20)
        if not piece:
            break
        cut = piece.rfind(b"\n") + 1
        if cut:
            yield rest + piece[:cut]
            rest = piece[cut:]
        else:
            rest += piece
    if rest:
        yield rest


def blocks_behind(pieces, saved, taken):
    """The blocks behind those of the saved tuples, with their positions in the whole stream."""
    is_behind = False
    for piece in pieces:
        if not is_behind:
            # a block begins a line, and only the first one begins the text
            first = (b"\n" + piece).find(b"\n@%d\n" % (saved + 1))
            if first < 0:
                first = (b"\n" + piece).find(b"\n@%d " % (saved + 1))
            if first < 0:
                continue
            piece, is_behind = piece[first:], True
        yield BLOCK.sub(lambda at: b"@%d" % (int(at.group(1)) - saved + taken), piece)


def run_leg(words, queries, path, many, taken, folder, digest):
    """One leg, whose blocks go into the digest. Answers how many processor seconds it took."""
    window, saved = os.path.join(folder, "window"), os.path.join(folder, "saved")
    if not os.path.exists(window):
        open(window, "w").close()
    with open(window) as lines:
        before = sum(1 for _ in lines)
    run = subprocess.Popen([words.program, "--history", str(before + many), "--from", window,
                            "--save", saved, queries, path], stdout=subprocess.PIPE)
    for blocks in blocks_behind(whole_lines(run.stdout), before, taken):
        digest.update(blocks)
    _, status, usage = os.wait4(run.pid, 0)
    if status != 0:
        sys.exit("a leg ended with status %d" % status)
    os.rename(saved, window)
    return usage.ru_utime + usage.ru_stime


def main():
    parser = argparse.ArgumentParser()
    parser.add_argument("program")
    parser.add_argument("--tuples", type=int, default=20_000_000)
    parser.add_argument("--window", type=int, default=20_000)
    parser.add_argument("--leg", type=int, default=1_000_000)
    parser.add_argument("--names", type=int, default=10)
    parser.add_argument("--seed", type=int, default=1)
    parser.add_argument("--folder")
    parser.add_argument("--without-legs", action="store_true")
    words = parser.parse_args()
    words.program = os.path.abspath(words.program)
    with tempfile.TemporaryDirectory() as own:
        folder = words.folder or own
        os.makedirs(folder, exist_ok=True)
        queries = os.path.join(own, "queries")
        with open(queries, "w") as out:
            out.write(QUERIES.format(window=words.window, less=words.window // 2,
                                     slide=max(1, words.window // 40)))
        paths = write_legs(folder, words)
        endless = Endless(words, own, queries, paths)
        print("endless: status %d, %d bytes, %.0f s by the clock, %.0f s of processor time" % (
            endless.status, endless.size, endless.took, endless.processor))
        print("most memory: %d kB in the first half, %d kB in the second" % tuple(endless.peaks))
        for silence, position in reversed(endless.silences):
            print("silent for %.2f s behind tuple %d" % (silence, position))
        sys.stdout.flush()
        if words.without_legs:
            sys.exit(endless.status)
        digest, taken, processor = hashlib.sha256(), 0, 0.0
        for path, many in paths:
            processor += run_leg(words, queries, path, many, taken, own, digest)
            taken += many
        same = endless.status == 0 and digest.digest() == endless.digest.digest()
        print("legs: %.0f s of processor time; %s" % (processor,
                                                      "the same bytes" if same else "OTHER BYTES"))
        sys.exit(0 if same else 1)


if __name__ == "__main__":
    main()

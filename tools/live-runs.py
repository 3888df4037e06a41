#!/usr/bin/env python3
"""tools/live-runs.py PROGRAM [--runs N] [--seed N] [--joins]

Runs PROGRAM, an `rpq`, on random queries, streams and asks, on real threads, and checks each run
against the one history that its own `@` lines spell:

- each stream's tuples stand there in their order, once, up to the stream's end, which is its first
  faulty line; or where faulty lines are told apart, all those of its other lines, and each faulty
  line that comes before the stream's end is told once, in order, and nothing else
  (tools/stream_lines.py);
- after each line the events are the pairs lost and gained, found from scratch by the definitions,
  and where the run tells paths, behind each gained pair there is one of the window that lasts
  exactly as long as the pair does;
- where the run has joins, behind these events are the bindings lost and gained, which
  tools/bindings.py finds by trying all answers; or the run is refused for the joins file's fault;
- the window that it saves is what the history leaves;
- each reply is what the history has at the reply's position, positions never fall within a session,
  and a wait is answered as ended exactly where the history ended before its position;
- so it is of each reader beside the run, over files and over named pipes, who asks at any moment,
  writes faulty lines too, ends, or goes away (tools/reader_clients.py);
- the status and the lines on errors are those of the streams' and the readers' ends.

A third of the runs, which neither answer anybody nor save a window, may take edges backwards: their
answers are those over the edges of the window and the same edges turned round. A quarter of the
others have joins, and more than half of those that are left tell paths. With --joins each run has
joins, and is made twice, with one worker and with four.

Half of the streams are files, and half are named pipes that are written in pieces while the program
runs. Two runs of five tell faulty lines apart: a third of their lines are faulty, some are longer
than a line may be, and they go to a file, a named pipe that is read slowly, or a full device; one
run of twenty of these is refused for a file that can't be opened. It isn't part of the gate. The
last line is `N passed, M failed`.
"""
import argparse
import os
import random
import subprocess
import sys
import tempfile
import threading
import time

import bindings
import reader_clients
import stream_lines

NAMES = ["x", "y", "z", "u", "v", "w"]
LABELS = ["a", "b", "c"]
# languages whose simple paths may be asked for
CONTAINED = [("plus", ("label", "a")), ("star", ("label", "b")), ("label", "c"),
             ("plus", ("or", ("label", "a"), ("label", "b")))]
CONTAINED_BACKWARDS = [("plus", ("or", ("label", "a"), ("label", "^a"))), ("label", "^c"),
                       ("then", ("star", ("label", "a")), ("star", ("label", "^b")))]
# lines of which a joins file takes none, or not beside what it has
FAULTY_JOINS = [
    "join", "join j9", "jion j9 q0 ?x ?y", "join j9 q0 ?x", "join j9 q0 ?x ?y q0",
    "join j9 q0 ? ?x", "join j9 q0 x y", "join j\x01 q0 ?x ?y", "join j9 q0 x y q9 \x01 y",
    "join j0 q0 ?x ?y", "join j0 q9 ?x ?y", "join j9 q9 ?x ?y", "join j9 Q0 ?x ?y",
    "join j9 q0 ?x \x7f", "join j9 q9 ?x y\x01", "join j9 q0 ?x\x01 ?y",
    "join j9 q0 ?%s ?y" % ("x" * 256),
    "join j9" + " q0 ?x ?y" * 5, "\n".join("join k%d q0 ?x ?y" % place for place in range(33)),
]

# lines of which a stream takes no tuple, and three of the greatest length
FAULTY_LINES = [
    b"1 x a y *", b"garbage", b"x a y", b"1 x a", b"1 x a y until", b"1 x a y until z", b"\0",
    b"1 x a y - until 9", b"1 x a y + until 9 9", b"1.5 x a y", b"-1", b"4611686018427387904",
    b"9 x a y until 4611686018427387904", b"1 x \x01 y", b"1 \x7f a y", b"1 x a y\r", b"1\0",
    b"1 x a " + b"y" * 256, b"\xff\xfe1\0", b"line 1: time: x", b"1 x a y" + b" " * 1018,
    b"x" * 1025, b"#" * 1025, b" " * 3000, b"1 x a y\r" + b"z" * 9000, b"x" * 150000,
    b"#" * 1024, b"x" * 1024, b"1 x a y" + b" " * 1017,
]
# where the faulty lines of a stream go
WAYS = ["file", "file", "pipe", "full"]
# which cause of a status comes before which
CAUSES = [8, 6, 7, 5, 4, 9]


# ---- expressions: trees, their written form, and the words that they match

def random_expression(rng, depth, labels):
    kind = rng.choice(["label"] if depth == 0 else
                      ["label", "then", "then", "or", "star", "plus", "maybe"])
    if kind == "label":
        return ("label", rng.choice(labels))
    if kind in ("then", "or"):
        return (kind, random_expression(rng, depth - 1, labels),
                random_expression(rng, depth - 1, labels))
    return (kind, random_expression(rng, depth - 1, labels))


def written(tree):
    kind = tree[0]
    if kind == "label":
        return tree[1]
    if kind in ("then", "or"):
        return "(%s)%s(%s)" % (written(tree[1]), "/" if kind == "then" else "|", written(tree[2]))
    return "(%s)%s" % (written(tree[1]), {"star": "*", "plus": "+", "maybe": "?"}[kind])


def positions(tree, labels):
    """Whether the empty word matches, the first and last positions, and which follow which. Each
    label of the expression is a position, and its label is put into the list."""
    kind = tree[0]
    if kind == "label":
        labels.append(tree[1])
        place = len(labels) - 1
        return False, {place}, {place}, set()
    empty, first, last, follow = positions(tree[1], labels)
    if kind == "maybe":
        return True, first, last, follow
    if kind in ("star", "plus"):
        return empty or kind == "star", first, last, follow | {(p, q) for p in last for q in first}
    empty2, first2, last2, follow2 = positions(tree[2], labels)
    if kind == "or":
        return empty or empty2, first | first2, last | last2, follow | follow2
    return (empty and empty2, first | (first2 if empty else set()),
            last2 | (last if empty2 else set()),
            follow | follow2 | {(p, q) for p in last for q in first2})


def steps_of(tree):
    """What the positions are after a label, from some positions or from the start (None), and which
    positions end a word."""
    labels = []
    _, first, last, follow = positions(tree, labels)

    def after(place, label):
        following = first if place is None else {q for p, q in follow if p == place}
        return [q for q in following if labels[q] == label]

    return after, last


# ---- windows, answers and their ends, from scratch

def deadline(query, entry):
    least = -(-(entry["time"] + query["window"]) // query["slide"]) * query["slide"]
    return least if entry["until"] is None else min(least, entry["until"])


def window_of(query, history, clock):
    """The edges of the live entries, each with its deadline."""
    live = []
    for place, entry in enumerate(history):
        if entry["act"] != "+" or deadline(query, entry) <= clock:
            continue
        later = history[place + 1:]
        if any(late["act"] == "-" and late["edge"] == entry["edge"] for late in later):
            continue
        live.append((entry["edge"], deadline(query, entry)))
    return live


def arbitrary_pairs(after, last, edges):
    found = set()
    for start in {edge[0] for edge in edges}:
        todo, seen = [(start, None)], set()
        while todo:
            vertex, place = todo.pop()
            for source, label, target in edges:
                if source != vertex:
                    continue
                for reached in after(place, label):
                    if (target, reached) not in seen:
                        seen.add((target, reached))
                        todo.append((target, reached))
        found |= {(start, vertex) for vertex, place in seen if place in last}
    return found


def simple_pairs(after, last, edges):
    found = set()

    def walk(start, vertex, place, visited):
        for source, label, target in edges:
            if source != vertex or target in visited:
                continue
            for reached in after(place, label):
                if reached in last:
                    found.add((start, target))
                walk(start, target, reached, visited | {target})

    for start in {edge[0] for edge in edges}:
        walk(start, start, None, {start})
    return found


def pairs_of(query, live):
    edges = {edge for edge, _ in live}
    if query["two_way"]:
        edges |= {(target, "^" + label, source) for source, label, target in edges}
    find = simple_pairs if query["mode"] == "simple" else arbitrary_pairs
    return find(*steps_of(query["tree"]), edges)


def path_fault(query, history, pair, until, line):
    """What is wrong with the line of a path that shows a pair, if anything is."""
    if line[:2] != "= ":
        return "no path behind %s %s" % pair
    end, *places = (int(field) for field in line.split(" ")[1:])
    live = {edge for edge, _ in window_of(query, history, clock_of(history))}
    path = [history[place - 1] for place in places if 0 < place <= len(history)]
    if not path or len(path) < len(places) or any(entry["edge"] not in live for entry in path):
        return "entries that aren't live: %s" % line
    deleted = [place for place in places for late in history[place:]
               if late["act"] == "-" and late["edge"] == history[place - 1]["edge"]]
    if deleted or any(entry["act"] != "+" for entry in path):
        return "entries that are deleted, or no inserts: %s" % line
    if not end == until == min(deadline(query, entry) for entry in path):
        return "its end isn't %d: %s" % (until, line)
    visited, after, last = [pair[0]], *steps_of(query["tree"])
    reached = [None]
    for entry in path:
        if entry["edge"][0] != visited[-1]:
            return "edges that don't follow each other: %s" % line
        visited.append(entry["edge"][2])
        reached = [q for place in reached for q in after(place, entry["edge"][1])]
    if visited[-1] != pair[1] or not set(reached) & set(last):
        return "another pair, or a word of another language: %s" % line
    if query["mode"] == "simple" and len(set(visited)) < len(visited):
        return "a vertex twice: %s" % line
    return None


def clock_of(history):
    return max([entry["time"] for entry in history], default=0)


def ends_of(query, history):
    """Each pair that answers the query, with the least time at which it ends."""
    clock = clock_of(history)
    live = window_of(query, history, clock)
    pairs = pairs_of(query, live)
    ends, left = {}, set(pairs)
    for time_of_end in sorted({end for _, end in live}):
        still = pairs_of(query, [(edge, end) for edge, end in live if end > time_of_end])
        for pair in left - still:
            ends[pair] = time_of_end
        left &= still
    return ends


def saved_of(queries, history):
    """The text of what a later run needs of the history."""
    if not history:
        return ""
    clock, lines, times = clock_of(history), [], set()
    for place, entry in enumerate(history):
        if entry["act"] != "+" or all(deadline(query, entry) <= clock for query in queries):
            continue
        later = history[place + 1:]
        if any(late["act"] == "-" and late["edge"] == entry["edge"] for late in later):
            continue
        line = "%d %s %s %s +" % ((entry["time"],) + entry["edge"])
        lines.append(line if entry["until"] is None else line + " until %d" % entry["until"])
        times.add(entry["time"])
    if clock not in times:
        lines.append(str(clock))
    return "".join(line + "\n" for line in lines)


# ---- a random case

def random_text(rng, names, most, tells):
    """The text of a stream, whose faulty lines are told apart or end it."""
    lines, clock = [], 0
    for _ in range(rng.randrange(most)):
        clock += rng.randrange(4)
        at = max(0, clock - rng.choice([0, 0, 0, 3, 9]))
        edge = (rng.choice(names), rng.choice(LABELS), rng.choice(names))
        kind = rng.choice(["+", "+", "+", "until", "-", "tick", "blank"])
        line = "%d %s %s %s" % ((at,) + edge)
        if kind == "blank":
            line = rng.choice(["", "# a comment", "   "])
        elif kind == "tick":
            line = str(at)
        elif kind == "until":
            line += " until %d" % (at + rng.randrange(20))
        elif kind == "-" or rng.random() < 0.5:
            line += " " + kind
        lines.append(line.encode())
        while tells and rng.random() < 0.33:
            lines.append(rng.choice(FAULTY_LINES))
    if not tells and rng.random() < 0.15:
        lines += [rng.choice(FAULTY_LINES)] + [b"2 x a y"] * rng.randrange(2)
    text = b"".join(line + rng.choice([b"\n"] * 9 + [b"\r\n"]) for line in lines)
    return text[:-1] if rng.random() < 0.1 else text


def stream_of(text, way):
    """What a stream of this text gives. `way` is where its faulty lines go, or none."""
    items = list(stream_lines.items_of(text))
    faults = [place for place, item in enumerate(items) if isinstance(item, stream_lines.Fault)]
    fault = None
    if faults and way in (None, "full"):
        fault = items[faults[0]]
        items = items[:faults[0]]
    entries = [{"time": item.time, "act": item.act, "until": item.until,
                "edge": item.edge and tuple(name.decode() for name in item.edge)}
               for item in items if isinstance(item, stream_lines.Tuple)]
    return {"items": items, "entries": entries, "fault": fault, "way": way}


def random_join(rng, name, queries, vertices):
    variables = ["?" + name for name in "xyzu"[:rng.choice([1, 2, 2, 3, 3, 3, 4])]]
    fields = ["join", name]
    for _ in range(rng.randrange(1, 5)):
        fields.append(rng.choice(queries)["name"])
        fields += [rng.choice(variables if rng.random() < 0.9 else vertices) for _ in range(2)]
    if not any(field in variables for field in fields):
        fields[-1] = variables[0]
    return rng.choice([" ", " ", "\t"]).join(fields)


def random_joins(rng, queries, vertices):
    """The text of a joins file, which may be faulty."""
    lines = [random_join(rng, "j%d" % place, queries, vertices)
             for place in range(rng.choice([0, 1, 2, 2, 3, 3]))]
    lines += rng.choice([[], [], ["# a comment", "", "  "]])
    rng.shuffle(lines)
    if rng.random() < 0.15:
        lines.insert(rng.randrange(len(lines) + 1), rng.choice(FAULTY_JOINS))
    return "".join(line + "\n" for line in lines)


def read_joins(case):
    """The joins of a case, and the fault of their file."""
    if case["joins"] is None:
        return [], None
    try:
        names = [query["name"].encode() for query in case["queries"]]
        return bindings.read_joins(case["joins"].encode(), names), None
    except bindings.Fault as fault:
        return [], fault


def random_ask(rng, queries, names, total):
    query, pair = rng.choice(queries)["name"], (rng.choice(names), rng.choice(names))
    wait = ("wait", str(rng.randrange(total + 3)))
    return rng.choice([
        ("answers", query), ("from", query, pair[0]), ("pair", query) + pair, ("count", query),
        ("until", query) + pair, ("ends", query, pair[0]), ("to", query, pair[1]), ("stats",),
        ("clock",), wait, wait, wait])


def random_case(rng, has_joins):
    two_way, queries = not has_joins and rng.random() < 0.33, []
    has_joins = has_joins or not two_way and rng.random() < 0.25
    # Joins have bindings where there are many answers over few names.
    names, depth, longest, most = (NAMES[:3], 1, 90, 24) if has_joins else (NAMES, 3, 30, 14)
    labels = LABELS + ["^" + label for label in LABELS] if two_way else LABELS
    contained = CONTAINED + CONTAINED_BACKWARDS if two_way else CONTAINED
    for place in range(rng.randrange(1, 4)):
        simple = rng.random() < 0.3
        queries.append({
            "name": "q%d" % place, "window": rng.randrange(1, longest),
            "slide": rng.randrange(1, 9),
            "mode": "simple" if simple else "arbitrary", "two_way": two_way,
            "tree": rng.choice(contained) if simple else random_expression(rng, depth, labels),
        })
    tells = rng.random() < 0.4
    texts = [random_text(rng, names, most, tells) for _ in range(rng.randrange(1, 5))]
    window = None
    if len(texts) == 1 and not two_way and rng.random() < 0.5:
        window = random_text(rng, names, most, tells)
        if not tells and stream_of(window, None)["fault"] is not None:
            window = None
    # The one stream is the window and then its file.
    streams = [stream_of((window or b"") + text, rng.choice(WAYS) if tells else None)
               for text in texts]
    total = sum(len(stream["entries"]) for stream in streams)
    sessions = []
    for _ in range(0 if two_way else rng.randrange(4)):
        sessions.append([random_ask(rng, queries, names, total) for _ in range(rng.randrange(7))])
    readers = [
        reader_clients.random_reader(rng, lambda: random_ask(rng, queries, names, total))
        for _ in range(0 if two_way else rng.choice([0, 0, 1, 2, 3, 4]))]
    limit = rng.randrange(1, total + 2) if rng.random() < 0.2 else None
    # the stream whose faulty lines can't be written, so that the run doesn't begin
    unmade = rng.randrange(1, len(streams) + 1) if tells and rng.random() < 0.05 else None
    return {"queries": queries, "streams": streams, "sessions": sessions, "limit": limit,
            "readers": readers, "texts": texts, "tells": tells, "unmade": unmade,
            "window": window, "saves": not two_way and rng.random() < 0.5, "two_way": two_way,
            "joins": random_joins(rng, queries, names) if has_joins else None,
            "paths": not two_way and not has_joins and rng.random() < 0.6,
            "workers": rng.choice([1, 2, 4, 8])}


# ---- a run

def feed(path, data, rng_seed):
    rng = random.Random(rng_seed)
    try:
        with open(path, "wb", buffering=0) as pipe:
            while data:
                size = rng.randrange(1, 40)
                pipe.write(data[:size])
                data = data[size:]
                if rng.random() < 0.3:
                    time.sleep(rng.random() / 500)
    except BrokenPipeError:
        pass


class Faults:
    """Where the faulty lines of a stream go, and what is told there."""

    def __init__(self, folder, number, way, rng_seed):
        self.path, self.text, self.thread = os.path.join(folder, "faults%d" % number), None, None
        self.way, self.rng = way, random.Random(rng_seed)
        self.word = {"full": "/dev/full", "unmade": "nowhere/faults"}.get(way, "faults%d" % number)
        if way == "full":
            # a device is opened once by each of its names
            self.word = "/dev/" + "./" * number + "full"
        if way == "pipe":
            os.mkfifo(self.path)
            self.thread = threading.Thread(target=self.take, daemon=True)
            self.thread.start()

    def take(self):
        text = b""
        with open(self.path, "rb", buffering=0) as pipe:
            while piece := pipe.read(self.rng.choice([1, 40, 3000, 1 << 16])):
                text += piece
                if self.rng.random() < 0.2:
                    time.sleep(self.rng.random() / 500)
        self.text = text

    def text_at_end(self):
        if self.thread is not None:
            self.thread.join(30)
        elif self.way == "file" and os.path.exists(self.path):
            with open(self.path, "rb") as told:
                self.text = told.read()
        return self.text


def run(program, case, folder, seed):
    rng = random.Random(seed)
    with open(folder + "/queries.txt", "w") as out:
        for query in case["queries"]:
            out.write("query %(name)s window %(window)d slide %(slide)d %(mode)s:" % query)
            out.write(" %s\n" % written(query["tree"]))
    words = ["--workers", str(case["workers"])]
    if case["limit"] is not None:
        words += ["--history", str(case["limit"])]
    elif seed % 3 == 0:
        words.append("--endless")
    if case["sessions"]:
        words += ["--asks", "asks.txt", "--replies", "replies.txt"]
        with open(folder + "/asks.txt", "w") as out:
            for asks in case["sessions"]:
                out.write("session\n" + "".join(" ".join(ask) + "\n" for ask in asks))
    if case["saves"]:
        words += ["--save", "saved.txt"]
    if case["window"] is not None:
        words += ["--from", "window.txt"]
        with open(folder + "/window.txt", "wb") as out:
            out.write(case["window"])
    if case["two_way"]:
        words.append("--two-way")
    if case["paths"]:
        words.append("--paths")
    if case["joins"] is not None:
        words += ["--joins", "joins.txt"]
        with open(folder + "/joins.txt", "w") as out:
            out.write(case["joins"])
    # A run that is refused opens no pipe.
    has_pipes, feeders = read_joins(case)[1] is None and case["unmade"] is None, []
    clients = [reader_clients.Client(folder, number, reader, has_pipes, rng.random())
               for number, reader in enumerate(case["readers"], 1)]
    words += sum((client.words for client in clients), [])
    told_apart = []
    for number, stream in enumerate(case["streams"], 1):
        if case["tells"]:
            way = stream["way"] if has_pipes else "file"
            way = "unmade" if number == case["unmade"] else way
            told_apart.append(Faults(folder, number, way, rng.random()))
    words += sum((["--faults", faults.word] for faults in told_apart), [])
    words.append("queries.txt")
    for number, data in enumerate(case["texts"], 1):
        name = "stream%d" % number
        if rng.random() < 0.5 and has_pipes:
            os.mkfifo(folder + "/" + name)
            feeder = threading.Thread(target=feed, args=(folder + "/" + name, data, rng.random()))
            feeder.start()
            feeders.append(feeder)
        else:
            open(folder + "/" + name, "wb").write(data)
        words.append(name)
    done = subprocess.run([program] + words, cwd=folder, stdin=subprocess.DEVNULL,
                          capture_output=True, timeout=60)
    for feeder in feeders:
        feeder.join(10)
    told = [client.replies_at_end() for client in clients]
    faults = [faults.text_at_end() for faults in told_apart]
    replies = saved = None
    if case["sessions"] and os.path.exists(folder + "/replies.txt"):
        replies = open(folder + "/replies.txt").read()
    if case["saves"] and os.path.exists(folder + "/saved.txt"):
        saved = open(folder + "/saved.txt").read()
    return done.returncode, done.stdout.decode(), done.stderr.decode(), replies, saved, told, faults


# ---- what the run has to be

def entry_of(fields):
    """The number of the stream and the entry that the fields of an `@` line spell."""
    stream, rest = int(fields[1]), fields[2:]
    if len(rest) == 1:
        return stream, {"time": int(rest[0]), "act": "", "edge": None, "until": None}
    until = int(rest[6]) if len(rest) == 7 else None
    return stream, {"time": int(rest[0]), "act": rest[4], "edge": tuple(rest[1:4]), "until": until}


def check_history(case, history, numbers):
    cut = False
    for number, stream in enumerate(case["streams"], 1):
        own = [entry for entry, of in zip(history, numbers) if of == number]
        whole = stream["entries"]
        if own != whole[:len(own)]:
            return "the tuples of stream %d" % number, cut
        cut = cut or len(own) < len(whole)
    if cut and len(history) != case["limit"]:
        return "a stream is cut and the history isn't full", cut
    if case["limit"] is not None and len(history) > case["limit"]:
        return "the history is too long", cut
    return None, cut


def expected_errors(case, history, numbers):
    """The status, and the lines on the errors."""
    lines, causes = [], []
    for number, stream in enumerate(case["streams"], 1):
        if numbers.count(number) < len(stream["entries"]):
            lines.append("rpq: stream %d: history full\n" % number)
            causes.append(7)
        elif stream["fault"] is not None and stream["way"] == "full":
            lines.append("rpq: write failed: faults %d\n" % number)
            causes.append(6)
        elif stream["fault"] is not None:
            lines.append("rpq: stream %d line %d: %s\n"
                         % (number, stream["fault"].line, stream["fault"].wrong))
            causes.append(4)
    for number, reader in enumerate(case["readers"], 1):
        if reader["way"] == "leaves":
            lines.append("rpq: write failed: reader %d\n" % number)
            causes.append(9)
    return min(causes, key=CAUSES.index, default=0), "".join(lines)


def check_faults(case, numbers, faults):
    """What is wrong with what is told of faulty lines, if anything is."""
    for number, (stream, text) in enumerate(zip(case["streams"], faults), 1):
        due = stream_lines.told_before(stream["items"], numbers.count(number))
        if stream["way"] != "full" and text != due:
            at = len(os.path.commonprefix([text or b"", due]))
            return "no faults of stream %d" % number if text is None else (
                "the faults of stream %d, byte %d: %r, due %r"
                % (number, at, text[at:at + 60], due[at:at + 60]))
    return None


def expected_reply(ask, history, ends, names):
    """The reply to the ask after this history, with the ends of each query's pairs there."""
    position = len(history)
    front = "@%d %s" % (position, " ".join(ask))
    if ask[0] == "wait":
        return front + (" ended\n" if position < int(ask[1]) else "\n")
    if ask[0] == "clock":
        return front + " %d\n" % clock_of(history)
    if ask[0] == "stats":
        return front + " %d\n" % len(names) + "".join(
            "%s %d\n" % (name, len(own)) for name, own in zip(names, ends))
    own = ends[names.index(ask[1])]
    if ask[0] == "ends":
        targets = sorted((pair[1], end) for pair, end in own.items() if pair[0] == ask[2])
        return front + " %d\n" % len(targets) + "".join("%s %d\n" % one for one in targets)
    if ask[0] == "to":
        sources = sorted(pair[0] for pair in own if pair[1] == ask[2])
        return front + " %d\n" % len(sources) + "".join(source + "\n" for source in sources)
    if ask[0] == "answers":
        return front + " %d\n" % len(own) + "".join("%s %s\n" % pair for pair in sorted(own))
    if ask[0] == "from":
        targets = sorted(pair[1] for pair in own if pair[0] == ask[2])
        return front + " %d\n" % len(targets) + "".join(target + "\n" for target in targets)
    if ask[0] == "count":
        return front + " %d\n" % len(own)
    end = own.get((ask[2], ask[3]))
    if ask[0] == "pair":
        return front + (" no\n" if end is None else " yes\n")
    return front + (" none\n" if end is None else " %d\n" % end)


class Replies:
    """What of the replies to one who asks wasn't looked at yet, and the position of the last."""

    def __init__(self, case, history, ends, text):
        self.names = [query["name"] for query in case["queries"]]
        self.history, self.ends, self.text, self.last = history, ends, text, 0

    def fault_of(self, ask):
        """What is wrong with the reply that comes next, if anything is."""
        head = self.text.split(" ", 1)[0]
        position = int(head[1:]) if head[:1] == "@" and head[1:].isdigit() else -1
        if not self.last <= position <= len(self.history):
            return "the position %s of %r" % (head, ask)
        due = expected_reply(ask, self.history[:position], self.ends[position], self.names)
        if ask[0] == "wait" and position < int(ask[1]) and position != len(self.history):
            return "a wait that ended before the history"
        self.last = position
        return self.fault_of_text(due)

    def fault_of_text(self, due):
        if not self.text.startswith(due):
            return "%r, due %r" % (self.text[:60], due)
        self.text = self.text[len(due):]
        return None


def check_replies(case, history, ends, text):
    for number, asks in enumerate(case["sessions"], 1):
        front = "session %d\n" % number
        if not text.startswith(front):
            return "the line of session %d" % number
        replies = Replies(case, history, ends, text[len(front):])
        for ask in asks:
            wrong = replies.fault_of(ask)
            if wrong:
                return "session %d: %s" % (number, wrong)
        text = replies.text
    return None if text == "" else "text behind the last session"


def check_reader(case, history, ends, reader, text):
    """What is wrong with what a reader was told, if anything is."""
    replies = Replies(case, history, ends, text)
    for number, (_, item) in enumerate(reader["lines"], 1):
        wrong = None
        if item[0] == "ask":
            wrong = replies.fault_of(item[1])
        elif item[0] == "fault":
            wrong = replies.fault_of_text("error line %d: %s\n" % (number, item[1]))
        elif item[0] == "end":
            wrong = replies.fault_of_text("end\n")
        if wrong:
            return "line %d: %s" % (number, wrong)
        if item[0] == "end":
            break
    return None if replies.text == "" else "text behind the last line: %r" % replies.text[:60]


def without_paths(case, history, block, ends):
    """What is wrong with the paths in a block, if anything is, and the block without them."""
    names, rest, events = [query["name"] for query in case["queries"]], list(block), []
    while rest:
        event = rest.pop(0)
        events.append(event)
        if event[0] != "+":
            continue
        _, name, *pair = event.split(" ")
        number, pair = names.index(name), tuple(pair)
        wrong = path_fault(case["queries"][number], history, pair, ends[number].get(pair),
                           rest.pop(0) if rest else "")
        if wrong:
            return wrong, events
    return None, events


def join_lines(joins, before, after):
    """The lines of what the bindings of joins lose and gain, by the answers of each query."""
    pairs = [[{(source.encode(), target.encode()) for source, target in answers}
              for answers in each] for each in (before, after)]
    return [line.decode() for line in bindings.join_lines(joins, *pairs)]


def check(case, status, events, errors, replies, saved, told, faults):
    joins, fault = read_joins(case)
    if fault:
        given = (status, events, errors, replies, saved, told, faults)
        due = (10, "", "rpq: joins %s\n" % fault, None, None, [None] * len(told),
               [None] * len(faults))
        return None if given == due else "%r, due %r" % (given, due)
    if case["unmade"] is not None:
        given, due = (status, events, errors, told), (
            6, "", "rpq: write failed: faults %d\n" % case["unmade"], [None] * len(told))
        return None if given == due else "%r, due %r" % (given, due)
    history, numbers, blocks = [], [], []
    for line in events.splitlines():
        if line[0] == "@":
            stream, entry = entry_of(line.split(" "))
            history.append(entry)
            numbers.append(stream)
            blocks.append([])
            if line.split(" ")[0] != "@%d" % len(history):
                return "the number of an entry"
        else:
            blocks[-1].append(line)
    wrong, _ = check_history(case, history, numbers)
    if wrong:
        return wrong
    ends = [[ends_of(query, history[:count]) for query in case["queries"]]
            for count in range(len(history) + 1)]
    for place, block in enumerate(blocks):
        if case["paths"]:
            wrong, block = without_paths(case, history[:place + 1], block, ends[place + 1])
            if wrong:
                return "block %d: %s" % (place + 1, wrong)
        due = []
        for query, old, new in zip(case["queries"], ends[place], ends[place + 1]):
            for sign, pairs in (("-", set(old) - set(new)), ("+", set(new) - set(old))):
                due += ["%s %s %s %s" % ((sign, query["name"]) + pair) for pair in sorted(pairs)]
        due += join_lines(joins, ends[place], ends[place + 1])
        if block != due:
            return "block %d: %r, due %r" % (place + 1, block, due)
    due_status, due_errors = expected_errors(case, history, numbers)
    if (status, errors) != (due_status, due_errors):
        return "status %d, errors %r; due %d, %r" % (status, errors, due_status, due_errors)
    wrong = check_faults(case, numbers, faults)
    if wrong:
        return wrong
    if case["saves"] and saved != saved_of(case["queries"], history):
        return "the saved window %r, due %r" % (saved, saved_of(case["queries"], history))
    for number, (reader, text) in enumerate(zip(case["readers"], told), 1):
        wrong = "no replies" if text is None else check_reader(case, history, ends, reader, text)
        if wrong:
            return "reader %d, %s: %s" % (number, reader["way"], wrong)
    if case["sessions"]:
        return "no replies" if replies is None else check_replies(case, history, ends, replies)
    return None


def fault_of_run(program, case, seed):
    """What is wrong with a run of the case, if anything is."""
    with tempfile.TemporaryDirectory(prefix="rpqlive") as folder:
        try:
            return check(case, *run(program, case, folder, seed))
        except subprocess.TimeoutExpired:
            return "no end within 60 seconds"


def main():
    parser = argparse.ArgumentParser(description=__doc__.split("\n\n")[0])
    parser.add_argument("program")
    parser.add_argument("--runs", type=int, default=200)
    parser.add_argument("--seed", type=int, default=1)
    parser.add_argument("--joins", action="store_true", help="each run with joins, and made twice")
    given = parser.parse_args()
    program = os.path.abspath(given.program)
    passed = failed = 0
    for number in range(given.runs):
        seed = given.seed * 1000003 + number
        case = random_case(random.Random(seed), given.joins)
        for workers in [1, 4] if given.joins else [case["workers"]]:
            wrong = fault_of_run(program, dict(case, workers=workers), seed)
            if wrong:
                failed += 1
                print("run %d (--seed %d, workers %d): %s" % (number, given.seed, workers, wrong))
            else:
                passed += 1
    print("%d passed, %d failed" % (passed, failed))
    return 0 if failed == 0 else 1


if __name__ == "__main__":
    sys.exit(main())

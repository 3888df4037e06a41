#!/usr/bin/env python3
"""Runs rpq over random and mutated bytes, outside the gate.

    hostile-runs.py PROGRAM [--runs 10000] [--seed 1] [--faults]

Each run takes a queries file, an asks file and one or two streams, of which some bytes are changed,
left out, repeated or put in from elsewhere, or which are random altogether; sometimes it begins
with a saved window, or has a joins file, or readers, whose asks are such bytes too, or it checks
or generates instead, or it may take edges backwards or tell paths. It is to end within 5 seconds,
by no signal, with a status that docs/formats.md has, and with lines on standard error of the forms
that it has. A reader is to have an answer to each line that asks for something, and no other. A
window that it saves is to be taken by a further run over no stream, which is to end with status 0
and save the same bytes.

The tuples of each stream are to be those of its lines (tools/stream_lines.py), up to its first
faulty line, which the run names. Half of the runs tell faulty lines apart, and with --faults each
one that may; the files before the streams are then mostly as they should be. None of these ends for
a faulty line. The file of a stream has exactly the lines of all its faults, each once and in order,
unless the stream ended as full or the file is a full device. What is written on the events is what
a run over the good lines alone writes, if there is one stream.

What runs ended with which status is printed, how many faulty lines were told apart, and the first
runs that did otherwise, whose files stay. The last line is `N passed, M failed`; the status is 0
where none failed.
"""

import argparse
import collections
import os
import random
import re
import shutil
import subprocess
import sys
import tempfile
from concurrent.futures import ThreadPoolExecutor

import stream_lines

SECONDS = 5
QUERIES = [
    b"query q window 100 slide 10 arbitrary: a/b\n",
    b"# two\nquery p window 20 slide 5 arbitrary: a+\nquery r window 50 slide 50 simple: (a|b)+\n",
    b"query t window 4611686018427387903 slide 1 arbitrary: \"x y\"?/a*|b\n",
    b"query i window 100 slide 10 arbitrary: ^a/b\nquery k window 9 slide 4 simple: (a|^ a)+\n",
]
ASKS = [
    b"session\nwait 1\ncount q\nsession\nanswers q\nfrom q x\npair q x z\nuntil q x z\nwait 9\n",
    b"# none\nsession\n",
    b"session\nstats\nclock\nends q x\nto q z\nwait 2\n",
]
# What readers beside the run ask.
LIVE_ASKS = [
    b"wait 1\ncount q\nanswers q\nfrom q x\npair q x z\nuntil q x z\nwait 9\n",
    b"stats\nclock\r\n# none\n\nends q x\nto q z\nwait 2\nend\nwait 1\n",
]
STREAMS = [
    b"1 x a y\n2 y b z\n3 x a w +\n7 y b z -\n200\n",
    b"5 u a v until 9\n4 v b u\n6 v b u -\n\n# a comment\n8\r\n9 w a w",
    b"0 x b y\n3 y a z +\n4 z b x until 30\n9 z b x -\n11 y a z\n",
    b"2 x a x\n2\n2 x b w\n 3\tw a  x\n\n40 w b w\n",
    b"1 x a y\nx\n2 y b z ?\n3 y b z\r\n" + b"4 " * 700 + b"\n5 z a x\n1 x\x01 a\r\r\n",
]
# Joins over the queries of each of the files above.
JOINS = [
    b"join j q ?x ?y q ?y ?z\njoin k q ?x ?x\n# one\n\njoin m q x ?y\n",
    b"join s p ?x ?y r ?y ?x\njoin t r ?x ?y r ?y ?z r ?z ?x r ?x ?u\n",
    b"join e t ?x ?y t ?u ?v\r\n\tjoin\t??\tt\t?? ???\n",
    b"join i i ?x ?y k ?y x k x ?x k ?x ?y",
]
# Each file with how often it is left as it is.
FILES = [("q", QUERIES, 0.7), ("j", JOINS, 0.5), ("a", ASKS, 0.5), ("s", STREAMS, 0.2),
         ("t", STREAMS, 0.2), ("w", STREAMS, 0.4), ("l", LIVE_ASKS, 0.2), ("m", LIVE_ASKS, 0.2)]
PIECES = [
    b"query ", b"window ", b"slide ", b"arbitrary: ", b"simple: ", b"session\n", b"wait ", b"until ",
    b"from ", b"join ", b"join b q ?a ?b ", b" q ?c ?d", b"(", b")", b"*", b"+", b"?", b"/", b"|", b"^",
    b'"', b"%", b"\n", b"\r\n", b"\0", b"\xff", b"0", b"-1", b"4611686018427387903",
    b"4611686018427387904", b"99999999999999999999999", b" ", b"\t", b"x" * 255, b"x" * 256,
    b"\nend\n", b"end", b"clock\n", b"stats\n", b"to q z\n", b"ends q x\n", b"x" * 1023, b"(" * 600,
    b"a/" * 70 + b"a", b"(a|b)*/a/" * 9 + b"a", b"1 x a y z\n", b"x" * 1025 + b"\n", b"7" * 9000,
    b"9 x a y\n",
]
LINE = re.compile(
    rb"rpq: (words|memory|(queries|joins|asks) line \d+: .*|(queries|joins|asks): too long"
    rb"|read failed: (queries|joins|asks|from|(stream|reader) \d+)"
    rb"|write failed: (events|replies|save|(faults|reader) \d+)"
    rb"|stream \d+ line \d+: .*|stream \d+: (history full|too long))|usage: rpq .*")
# a full device, by two names, since a name is opened once
FULL = ("/dev/full", "/dev/./full")
# the line of an entry, and that of a stream with a faulty line
ENTRY = re.compile(rb"@\d+ (\d+) ([^\n]*)")
STREAM_FAULT = re.compile(rb"rpq: stream (\d+) line (\d+): (.*)")
# the first line of a reply; those of these kinds say at its end how many lines follow
HEAD = re.compile(rb"@\d+ (answers|from|ends|to|stats|pair|count|until|clock|wait) ?[^\n]*")
WITH_LINES = (b"answers", b"from", b"ends", b"to", b"stats")


def mutated(chance, base):
    """The bytes with some changes."""
    if chance.random() < 0.1:
        return bytes(chance.randrange(256) for _ in range(chance.randrange(200)))
    text = bytearray(base)
    for _ in range(chance.choice([0, 1, 1, 2, 3, 8])):
        place = chance.randrange(len(text) + 1)
        way = chance.randrange(6)
        if way == 0 and place < len(text):
            text[place] = chance.randrange(256)
        elif way == 1:
            del text[place:place + chance.choice([1, 2, 10, 100])]
        elif way == 2:
            text[place:place] = chance.choice(PIECES)
        elif way == 3:
            text[place:place] = text[:chance.randrange(len(text) + 1)]
        elif way == 4:
            text[place:place] = chance.choice(QUERIES + JOINS + ASKS + STREAMS)
        else:
            text[place:place] = bytes([chance.randrange(256)])
    return bytes(text)


def streams_of(chance, tells, is_alone=False):
    """The words for one or two streams, and mostly as many for their faulty lines."""
    streams = ["s"] + (["t"] if chance.random() < (0.02 if is_alone else 0.4) else [])
    if not tells and chance.random() < 0.5:
        return ["q", *streams]
    # now and then too many or too few, one file twice, one of the run's own, or one that can't be
    sinks = [chance.choice(["f"] * 30 + [FULL[0], FULL[0], "no/f", "s", "./v"]),
             chance.choice(["g"] * 30 + [FULL[1], FULL[1], "f", "./q", "/dev/null"])]
    many = len(streams) if chance.random() < 0.97 else chance.choice([0, 1, 2])
    return sum((["--faults", sink] for sink in sinks[:many]), []) + ["q", *streams]


def words_of(chance, backwards, tells):
    """The words of a run behind the program, whose queries take edges backwards or don't."""
    way = chance.random()
    words = ["--two-way"] if chance.random() < (0.8 if backwards else 0.2) else []
    words += ["--paths"] if chance.random() < (0.05 if words else 0.3) else []
    words += ["--joins", "j"] if chance.random() < (0.05 if words or way < 0.15 else 0.5) else []
    if way < 0.1:
        return words + ["--check", "q"]
    if way < 0.15:
        return words + ["--generate", str(chance.choice([0, 1, 3, 300])), "q"]
    # Beside a word for edges taken backwards asks and saved windows are mostly left out.
    plain = "--two-way" in words and chance.random() < 0.9
    words += ["--workers", str(chance.choice([1, 2, 64, 65]))] if chance.random() < 0.3 else []
    words += ["--history", str(chance.choice([1, 3, 1000]))] if chance.random() < 0.2 else []
    words += ["--endless"] if chance.random() < (0.05 if "--history" in words else 0.3) else []
    if plain:
        return words + streams_of(chance, tells)
    words += ["--asks", "a", "--replies", "r"] if chance.random() < 0.6 else []
    words += ["--reader", "l", "o"] if chance.random() < 0.5 else []
    words += ["--reader", "m", "p"] if chance.random() < 0.3 else []
    words += ["--reader", "m", "/dev/full"] if chance.random() < 0.05 else []
    words += ["--save", "v"] if chance.random() < 0.4 else []
    begins = ["--from", "w"] if chance.random() < 0.3 else []
    return words + begins + streams_of(chance, tells, begins)


def lines_that_ask(text):
    """The lines of a reader's asks that are answered: the number of each, and its bytes."""
    lines = text.split(b"\n")
    for number, line in enumerate(lines[:-1] if lines[-1] == b"" else lines, 1):
        is_long = len(line) > 1024
        fields = re.split(rb"[ \t]+", line.removesuffix(b"\r").strip(b" \t"))
        if is_long or not (fields == [b""] or fields[0].startswith(b"#")):
            yield number, b"too long" if is_long else b" ".join(fields)
        if fields == [b"end"]:
            return


def wrong_replies(folder, asks, replies):
    """What is wrong with what a reader was answered, if anything is."""
    with open(os.path.join(folder, asks), "rb") as file:
        asking = lines_that_ask(file.read())
    with open(os.path.join(folder, replies), "rb") as file:
        told = file.read().split(b"\n")
    if told.pop() != b"":
        return "a last line without its end"
    for number, line in asking:
        if not told:
            return f"no answer to line {number}"
        head = told.pop(0)
        if line == b"end" or head.startswith(b"error line %d: " % number):
            if (line == b"end") != (head == b"end") or line == b"too long" and line not in head:
                return f"line {number} is answered {head}"
            continue
        kind = HEAD.fullmatch(head)
        if not kind or kind[1] != line.split(b" ")[0]:
            return f"line {number} is answered {head}"
        many = int(head.split(b" ")[-1]) if kind[1] in WITH_LINES else 0
        if len(told) < many:
            return f"the answer to line {number} has too few lines"
        del told[:many]
    return None if not told else f"an answer to nothing: {told[0]}"


def bytes_of(folder, *names):
    """What the files of a folder have, one after the other."""
    text = b""
    for name in names:
        with open(os.path.join(folder, name), "rb") as file:
            text += file.read()
    return text


def sinks_of(words):
    """Where the faulty lines of each stream go."""
    return [words[place + 1] for place, word in enumerate(words) if word == "--faults"]


def wrong_streams(program, folder, words, done):
    """What is wrong with what a run that began took of its streams and told of them."""
    errors = done.stderr.split(b"\n")
    taken = {}
    for line in done.stdout.split(b"\n"):
        entry = ENTRY.fullmatch(line)
        if entry:
            taken.setdefault(int(entry[1]), []).append(entry[2])
    begins = ["w"] if "--from" in words else []
    sinks = sinks_of(words)
    for number, stream in enumerate(words[words.index("q") + 1:], 1):
        text = bytes_of(folder, *begins, stream)
        items, own = list(stream_lines.items_of(text)), taken.get(number, [])
        sink = sinks[number - 1] if sinks else None
        wrong = wrong_stream(items, own, number, errors, sink)
        if wrong:
            return f"stream {number}: {wrong}"
        told = stream_lines.told_before(items, len(own))
        if sink in ("f", "g") and bytes_of(folder, sink) != told:
            return f"stream {number}: its faulty lines are told otherwise"
    if sinks == ["f"] and not re.search(rb"full|failed", done.stderr):
        return wrong_beside_good_lines(program, folder, words, done)
    return None


def wrong_stream(items, own, number, errors, sink):
    """What is wrong with the tuples that were taken of a stream, and with how its end is told."""
    is_full = b"rpq: stream %d: history full" % number in errors
    is_lost = b"rpq: write failed: faults %d" % number in errors
    told = [(int(fault[2]), fault[3]) for fault in map(STREAM_FAULT.fullmatch, errors)
            if fault and int(fault[1]) == number]
    faults = [item for item in items if isinstance(item, stream_lines.Fault)]
    due = []
    if faults and sink in (None, *FULL) and not is_full:
        items = items[:items.index(faults[0])]
        due = [(faults[0].line, faults[0].wrong.encode())] if sink is None else []
    if is_lost != (bool(faults) and sink in FULL and not is_full):
        return f"a write of its faults failed: {is_lost}"
    if told != due:
        return f"its fault is told as {told}, due {due}"
    tuples = [stream_lines.written(item) for item in items
              if isinstance(item, stream_lines.Tuple)]
    if own != tuples[:len(own)] or (len(own) < len(tuples)) != is_full:
        return f"its tuples are {own}, due {tuples}"
    return None


def wrong_beside_good_lines(program, folder, words, done):
    """What is wrong with a run over one stream beside one over its good lines alone."""
    place = words.index("--faults")
    words = words[:place] + words[place + 2:]
    for option in ("--asks", "--replies", "--save", "--reader"):
        while option in words:
            place = words.index(option)
            del words[place:place + (3 if option == "--reader" else 2)]
    text = bytes_of(folder, *(["w"] if "--from" in words else []), "s")
    if "--from" in words:
        words.remove("--from")
        words.remove("w")
    with open(os.path.join(folder, "good"), "wb") as out:
        out.write(stream_lines.good_lines(text))
    again = subprocess.run([program, *words[:-1], "good"], cwd=folder, capture_output=True,
                           stdin=subprocess.DEVNULL, timeout=SECONDS, check=False)
    if again.returncode != 0 or again.stdout != done.stdout:
        return f"a run over the good lines alone ends with {again.returncode}, or other events"
    return None


def taken_again(program, folder):
    """What was wrong with a run that begins with a saved window and reads an empty stream."""
    window = os.path.join(folder, "v")
    with open(os.path.join(folder, "none"), "wb"):
        pass
    done = subprocess.run([program, "--from", "v", "--save", "again", "q", "none"], cwd=folder,
                          capture_output=True, stdin=subprocess.DEVNULL, timeout=SECONDS, check=False)
    with open(window, "rb") as old, open(os.path.join(folder, "again"), "rb") as new:
        same = old.read() == new.read()
    return None if done.returncode == 0 and same else f"{done.returncode}, the same: {same}"


def has_begun(words, status, errors):
    """Whether a run that ended with this status read its streams, as far as its words can say."""
    if status not in (0, 4, 6, 7, 9) or "--check" in words or "--generate" in words:
        return False
    lost = re.fullmatch(rb"rpq: write failed: faults (\d+)\n", errors)
    if lost:
        return sinks_of(words)[int(lost[1]) - 1] in FULL
    return status != 6 or errors.count(b"\n") > 1 or not errors.startswith(b"rpq: write failed: ")


def wrong_run(program, folder, words, done):
    """What is wrong with a run that has ended, if anything is."""
    status = done.returncode
    if not (0 <= status <= 7 or status in (9, 10)):
        return f"ends with {status}"
    if (status == 0) != (done.stderr == b""):
        return f"ends with {status} and writes {done.stderr[:200]}"
    for line in done.stderr.split(b"\n")[:-1]:
        if not LINE.fullmatch(line):
            return f"writes {line[:200]} on its errors"
    if "--faults" in words:
        streams = len(words) - words.index("q") - 1
        if status == 4 or status != 1 and words.count("--faults") != streams:
            return f"ends with {status}"
    if has_begun(words, status, done.stderr):
        wrong = wrong_streams(program, folder, words, done)
        if wrong:
            return wrong
    for asks, replies in (("l", "o"), ("m", "p")):
        # a run that didn't begin answered nobody, whatever its status
        if status in (0, 4, 7, 9) and replies in words and os.path.exists(folder + "/" + replies):
            wrong = wrong_replies(folder, asks, replies)
            if wrong:
                return wrong
    # A run that didn't begin has emptied no file but perhaps that of the replies.
    if "--save" in words and status in (0, 4, 5, 7, 9) and os.path.exists(folder + "/v"):
        wrong = taken_again(program, folder)
        if wrong:
            return f"saves a window with which a run ends with {wrong}"
    return None


def one_run(program, seed, place, tells):
    """What was wrong with a run, its status, and how many faulty lines it told apart."""
    chance = random.Random(seed)
    folder = os.path.join(place, str(seed))
    os.mkdir(folder)
    backwards, queries = False, chance.randrange(len(QUERIES))
    # Mostly one file is hostile and those before it aren't, else no run would come to the last.
    for name, base, kept in FILES:
        is_of_queries = name in ("q", "j") and chance.random() < 0.9
        text = base[queries] if is_of_queries else chance.choice(base)
        backwards = backwards or b"^" in text
        kept = 0.97 if tells and name in ("q", "j", "a") else kept
        with open(os.path.join(folder, name), "wb") as out:
            out.write(text if chance.random() < kept else mutated(chance, text))
    words = words_of(chance, backwards, tells)
    try:
        done = subprocess.run([program, *words], cwd=folder, capture_output=True,
                              stdin=subprocess.DEVNULL, timeout=SECONDS, check=False)
    except subprocess.TimeoutExpired:
        return f"seed {seed}: {words} takes more than {SECONDS} s", None, 0
    wrong = wrong_run(program, folder, words, done)
    if wrong:
        return f"seed {seed}: {words}: {wrong}", done.returncode, 0
    told = bytes_of(folder, *{"f", "g"}.intersection(os.listdir(folder))).count(b"\n")
    shutil.rmtree(folder)
    return None, done.returncode, told


def main():
    parser = argparse.ArgumentParser()
    parser.add_argument("program")
    parser.add_argument("--runs", type=int, default=10000)
    parser.add_argument("--seed", type=int, default=1)
    parser.add_argument("--faults", action="store_true", help="tell faulty lines apart")
    given = parser.parse_args()
    program = os.path.abspath(given.program)
    place = tempfile.mkdtemp(prefix="rpq-hostile")
    seeds = range(given.seed, given.seed + given.runs)
    with ThreadPoolExecutor(os.cpu_count()) as pool:
        ended = list(pool.map(
            lambda seed: one_run(program, seed, place, given.faults), seeds))
    wrong = [said for said, _, _ in ended if said]
    for status, count in sorted(collections.Counter(str(status) for _, status, _ in ended).items()):
        print(f"status {status}: {count}")
    told = [many for _, _, many in ended if many]
    print(f"faulty lines told apart: {sum(told)} in {len(told)} runs")
    for said in wrong[:10]:
        print(f"FAILED: {said}; its files are in {place}")
    if not wrong:
        shutil.rmtree(place)
    print(f"{len(ended) - len(wrong)} passed, {len(wrong)} failed")
    return 1 if wrong else 0


if __name__ == "__main__":
    sys.exit(main())

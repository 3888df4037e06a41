#!/usr/bin/env python3
"""Makes streams and queries for measurements; the same words give the same bytes.

    workloads.py KIND TUPLES [--folder DIR] [--vertices V] [--seed S]
    workloads.py ATTACK SIZE [--folder DIR]

KIND is one of these, each with eleven queries over a window of its own:

  uniform   three labels over vertices that are drawn evenly, one tuple in sixteen a removal
  ends      the same tuples, of which every other insert has an end of its own within the window
  so        answers and comments among the users of a forum, few of whom write most of them
  social    messages, their authors, replies, likes and friendships
  yago      a hundred labels of very different frequency over many resources
  netflow   flows between addresses, in bursts from one address, most of them seen before

In each, one tuple in fifty comes late, by up to half of the window. The files are
DIR/KIND-TUPLES.txt, DIR/KIND.queries with all queries, and DIR/KIND.qN.queries with one of them.

ATTACK is a stream by somebody who wants each tuple to cost more the more there were before, with
one query over a window that nothing leaves. It has a size:

  leaves-removed    a hub gets so many leaves, and each is removed
  leaf-toggled      a hub gets so many leaves, and one is removed and inserted, so many times
  leaves-toggled    a hub gets so many leaves, and each in turn is removed and inserted again
  path-toggled      one path of so many edges, and its last edge is removed and inserted
  absent-removed    so many sources reach a vertex, and edges to it that aren't there are removed
  hub-refreshed     a hub gets so many leaves, and an edge to the hub is inserted again and again
  hub-grows         the same edge is inserted again behind each new leaf
  other-label       as hub-refreshed, where the leaves' label leads nowhere from the hub's state
  names-255         so many sources reach a hub, which gets forty leaves; all names have 255 bytes,
                    of which the first 249 are the same
  names-16          the same with names that are the same in the first 16 of 22 bytes
  sources-toggled   so many sources reach a vertex, and each edge is removed and inserted again
  states-removed    so many sources reach a vertex, and one edge is removed and inserted, so many
                    times, where the automaton has hundreds of states
  states-apart      so many sources reach a vertex, up to 512 of them in states of their own, and
                    edges leave it

The files are DIR/ATTACK-SIZE.txt and DIR/ATTACK.queries.

For joins.py there are streams of the pairs of joins. There each label has so many edges, and then
one edge after another is removed and inserted again. Each tuple behind the first ones changes one
pair and one binding:

  two-chain, three-chain   two and three atoms, each of which begins where the last one ends
  two-star, three-star     two and three atoms that begin at one vertex
  hub                      as two-chain, where all edges of the first label begin at one vertex
  dead-ends                as three-chain, where one edge of the first label ends at a hub. All
                           edges of the second label begin there, and one of them leads on
"""

import argparse
import itertools
import os
import random

# The shapes of the queries: those that the paper which the README names took from the query logs of
# Wikidata.
SHAPES = [
    "A*",
    "A/B*",
    "A/B*/C*",
    "(A|B|C)*",
    "A/B*/C",
    "A*/B*",
    "A/B/C*",
    "A?/B*",
    "(A|B)+",
    "(A|B|C)/D*",
    "A/B/C",
]

# For each kind what stands for A, B, C and D, the size and the slide of the window, in the stream's
# own time, and the number of vertices.
KINDS = {
    "uniform": (["a", "b", "c", "a"], 1600, 80, 2000),
    "ends": (["a", "b", "c", "a"], 1600, 80, 2000),
    "so": (["answers", "comments", "questions", "answers"], 129600, 3600, 60000),
    "social": (["replyOf", "hasCreator", "knows", "likes"], 36000, 1800, 3000),
    "yago": (["p3", "p0", "p1", "p2"], 150000, 5000, 120000),
    "netflow": (["tcp", "udp", "icmp", "tcp"], 240, 10, 4000),
}


def uniform(tuples, draw, vertices):
    for time in range(1, tuples + 1):
        source, target = draw.randrange(vertices), draw.randrange(vertices)
        yield time, f"v{source} {draw.choice('abc')} v{target}"


def so(tuples, draw, vertices):
    labels = ["answers", "comments", "questions"]
    time = 1217567877.0
    for _ in range(tuples):
        time += draw.expovariate(1 / 20)
        label = draw.choices(labels, weights=[35, 30, 35])[0]
        source = int(vertices * draw.random() ** 2.2)
        target = int(vertices * draw.random() ** 2.2)
        if source == target:
            target = (target + 1) % vertices
        yield int(time), f"u{source} {label} u{target}"


def social(tuples, draw, vertices):
    def person():
        return int(vertices * draw.random() ** 1.7)

    def message(count):
        return count - 1 - int(min(count, 4000) * draw.random() ** 3)

    time, messages, reply = 1300000000.0, 0, None
    for _ in range(tuples):
        time += draw.expovariate(1 / 9)
        kind = draw.random()
        if reply is not None:
            edge, reply = reply, None
        elif kind < 0.22:
            one = person()
            other = max(0, min(vertices - 1, int(one + draw.gauss(0, 40))))
            edge = f"p{one} knows p{other}"
        elif kind < 0.55 and messages:
            edge = f"p{person()} likes m{message(messages)}"
        else:
            edge = f"m{messages} hasCreator p{person()}"
            if messages and draw.random() < 0.7:
                reply = f"m{messages} replyOf m{message(messages)}"
            messages += 1
        yield int(time), edge


def yago(tuples, draw, vertices):
    labels = [f"p{number}" for number in range(100)]
    weights = [1 / (number + 1) ** 1.1 for number in range(100)]
    for time in range(1, tuples + 1):
        label = draw.choices(labels, weights=weights)[0]
        source = int(vertices * draw.random())
        far = int(vertices * draw.random() ** 1.5)
        target = far if draw.random() < 0.7 else source + 1
        yield time, f"<http://yago/resource/E{source}> {label} <http://yago/resource/E{target}>"


def netflow(tuples, draw, vertices):
    def address(number):
        return f"10.0.{number // 250}.{number % 250}"

    time, left, busy, flows = 0.0, 0, "", []
    for _ in range(tuples):
        if left == 0:
            time += draw.expovariate(1 / 2)
            left = 1 + int(draw.expovariate(1 / 25))
            busy = address(int(vertices * draw.random() ** 2))
        left -= 1
        if len(flows) > 500 and draw.random() < 0.7:
            flow = flows[-1 - int(len(flows) * draw.random() ** 2)]
        else:
            label = draw.choices(["tcp", "udp", "icmp"], weights=[60, 30, 10])[0]
            source = address(int(vertices * draw.random() ** 2))
            target = address(int(vertices * draw.random() ** 1.5))
            flow = f"{busy if draw.random() < 0.3 else source} {label} {target}"
            flows.append(flow)
            if len(flows) > 20000:
                del flows[:10000]
        yield int(time), flow


MAKERS = {
    "uniform": uniform,
    "ends": uniform,
    "so": so,
    "social": social,
    "yago": yago,
    "netflow": netflow,
}


def stream(kind, tuples, vertices=None, seed=1):
    """The lines of a stream: one edge in fifty is removed again (in uniform and ends one in
    sixteen), one tuple in fifty comes late, and in ends every other insert has an end."""
    _, window, _, usual = KINDS[kind]
    draw = random.Random(f"{'uniform' if kind == 'ends' else kind} {seed}")
    draw_end = random.Random(f"ends {seed}")
    removals = 1 / 16 if kind in ("uniform", "ends") else 1 / 50
    past = []
    for time, edge in MAKERS[kind](tuples, draw, vertices or usual):
        sign = "+"
        if past and draw.random() < removals:
            edge, sign = draw.choice(past), "-"
        elif len(past) < 2000:
            past.append(edge)
        else:
            past[draw.randrange(2000)] = edge
        if draw.random() < 1 / 50:
            time = max(0, time - int(draw.random() * window / 2))
        if kind == "ends" and sign == "+" and draw_end.random() < 1 / 2:
            sign = f"+ until {time + 1 + int(draw_end.random() * window)}"
        yield f"{time} {edge} {sign}"


# A window that nothing leaves.
FOR_EVER = 1 << 40


def leaves(size):
    for number in range(size):
        yield f"hub a leaf{number} +"


def toggled(edge, times):
    """The lines that remove the edge and insert it again, so many in all."""
    for number in range(times):
        yield f"{edge} {'+' if number % 2 else '-'}"


def leaves_removed(size):
    yield from leaves(size)
    for number in range(size):
        yield f"hub a leaf{number} -"


def leaf_toggled(size):
    yield from leaves(size)
    yield from toggled("hub a leaf0", size)


def leaves_toggled(size):
    yield from leaves(size)
    for number in range(size):
        yield from toggled(f"hub a leaf{number}", 2)


def path_toggled(size):
    yield "root a v0 +"
    for number in range(size):
        yield f"v{number} b v{number + 1} +"
    yield from toggled(f"v{size - 1} b v{size}", size)


def absent_removed(size):
    for number in range(size):
        yield f"v{number} a middle +"
    for number in range(size):
        yield f"v{number} b middle -"


def hub_refreshed(size):
    yield from leaves(size)
    for _ in range(size):
        yield "root a hub +"


def hub_grows(size):
    for leaf in leaves(size):
        yield leaf
        yield "root a hub +"


def other_label(size):
    for number in range(size):
        yield f"hub b leaf{number} +"
    for _ in range(size):
        yield "root a hub +"


def long_names(before, size):
    """Sources and leaves of a hub, with names that are the same up to their last six bytes."""
    for number in range(size):
        yield f"{before}{100000 + number} a {before}000000 +"
    for number in range(40):
        yield f"{before}000000 a {before}{200000 + number} +"


def names_255(size):
    return long_names("n" * 249, size)


def names_16(size):
    return long_names("n" * 16, size)


def sources(size):
    for number in range(size):
        yield f"source{number} a vertex +"


def sources_toggled(size):
    yield from sources(size)
    for number in range(size):
        yield from toggled(f"source{number} a vertex", 2)


def states_removed(size):
    yield from sources(size)
    yield from toggled("source0 a vertex", size)


def states_apart(size):
    """Sources that reach one vertex, each by another word, and edges that leave that vertex."""
    words = ["".join(letters) for letters in itertools.product("ab", repeat=9)]
    random.Random("states apart").shuffle(words)
    for number in range(size):
        path = [f"source{number}", *(f"on{number}-{place}" for place in range(8)), "vertex"]
        for source, label, target in zip(path, words[number % len(words)], path[1:]):
            yield f"{source} {label} {target} +"
    for number in range(200):
        yield f"vertex a leaf{number} +"


# The streams that attack, each with the expression of its query and what makes its lines but for
# their times.
ATTACKS = {
    "leaves-removed": ("a*", leaves_removed),
    "leaf-toggled": ("a*", leaf_toggled),
    "leaves-toggled": ("a*", leaves_toggled),
    "path-toggled": ("a/b*", path_toggled),
    "absent-removed": ("(a|b)*", absent_removed),
    "hub-refreshed": ("a*", hub_refreshed),
    "hub-grows": ("a*", hub_grows),
    "other-label": ("a+|b/c", other_label),
    "names-255": ("(a|b)*", names_255),
    "names-16": ("(a|b)*", names_16),
    "sources-toggled": ("a", sources_toggled),
    "states-removed": ("a/(a|b)*/a" + "/(a|b)" * 7, states_removed),
    "states-apart": ("(a|b)*/a" + "/(a|b)" * 8, states_apart),
}


# The joins that are measured, each with the labels whose edges are removed and inserted again.
JOINS = {
    "two-chain": ("a ?x ?y b ?y ?z", "ab"),
    "two-star": ("a ?x ?y b ?x ?z", "ab"),
    "three-chain": ("a ?x ?y b ?y ?z c ?z ?u", "abc"),
    "three-star": ("a ?x ?y b ?x ?z c ?x ?u", "abc"),
    "hub": ("a ?x ?y b ?y ?z", "a"),
    "dead-ends": ("a ?x ?y b ?y ?z c ?z ?u", "a"),
}


def joined_edge(name, label, number):
    """The edge of this number that a label has for a join."""
    fields = JOINS[name][0].split()
    place = fields.index(label)
    source, target = (f"{end[1:]}{number}" for end in fields[place + 1 : place + 3])
    if (name, label) in (("hub", "a"), ("dead-ends", "b")):
        source = "hub"
    if (name, label, number) == ("dead-ends", "a", 0):
        target = "hub"
    if (name, label) == ("dead-ends", "c") and number > 0:
        source = f"other{number}"
    return f"{source} {label} {target}"


def joined_edges(name, size):
    """The lines of the first edges."""
    for number in range(size):
        for label in JOINS[name][0].split()[::3]:
            yield f"{joined_edge(name, label, number)} +"


def joined_changes(name, size, count):
    """The lines that remove edges and insert them again, so many in all."""
    labels = JOINS[name][1]
    for step in range(count // 2):
        # by a prime, so that the edges are far from each other
        number = 0 if name == "dead-ends" else step * 7919 % size
        yield from toggled(joined_edge(name, labels[step % len(labels)], number), 2)


def repeated(part, times):
    return "/".join([part] * times)


# Two expressions with the same answers over a stream of the label a alone. Their least automata
# have 10 and 513 states.
STATES = {
    10: f"a*/{repeated('a', 9)}",
    513: f"(a|b)*/a/{repeated('(a|b)', 8)}",
}


def not_divided_by(divisor):
    """An expression of the words of the label a whose length the divisor doesn't divide."""
    return f"({repeated('a', divisor)})*/a/{repeated('a?', divisor - 2)}"


# An expression of 45 labels whose least automaton has some 500 states, and two of whose states are
# told apart by no word of fewer than some 500 labels.
SLOW_TO_COMPILE = "|".join(not_divided_by(divisor) for divisor in (7, 8, 9))


def queries(kind):
    """The lines of the eleven queries."""
    labels, window, slide, _ = KINDS[kind]
    lines = []
    for number, shape in enumerate(SHAPES, 1):
        expression = shape
        for letter, label in zip("ABCD", labels):
            expression = expression.replace(letter, f"<{letter}>")
        for letter, label in zip("ABCD", labels):
            expression = expression.replace(f"<{letter}>", label)
        lines.append(f"query q{number} window {window} slide {slide} arbitrary: {expression}")
    return lines


def write_lines(path, lines):
    with open(path, "w") as file:
        for line in lines:
            file.write(line + "\n")


def write(kind, tuples, folder, vertices=None, seed=1):
    """Writes the stream and the queries; answers the path of the stream."""
    os.makedirs(folder, exist_ok=True)
    path = os.path.join(folder, f"{kind}-{tuples}.txt")
    write_lines(path, stream(kind, tuples, vertices, seed))
    lines = queries(kind)
    write_lines(os.path.join(folder, f"{kind}.queries"), lines)
    for number, line in enumerate(lines, 1):
        write_lines(os.path.join(folder, f"{kind}.q{number}.queries"), [line])
    return path


def write_attack(name, size, folder):
    """Writes the stream and the query of an attack; answers the path of the stream."""
    os.makedirs(folder, exist_ok=True)
    expression, maker = ATTACKS[name]
    query = f"query q window {FOR_EVER} slide 1 arbitrary: {expression}"
    write_lines(os.path.join(folder, f"{name}.queries"), [query])
    path = os.path.join(folder, f"{name}-{size}.txt")
    write_lines(path, (f"{time} {edge}" for time, edge in enumerate(maker(size))))
    return path


def write_joined(name, size, count, folder):
    """Writes the queries, the join, a stream of the first edges, one of so many changes, and one of
    both; answers the paths of the five."""
    os.makedirs(folder, exist_ok=True)
    text = JOINS[name][0]
    query = f"window {FOR_EVER} slide 1 arbitrary:"
    edges = list(joined_edges(name, size))
    first = len(edges)
    edges += joined_changes(name, size, count)
    lines = [f"{time} {edge}" for time, edge in enumerate(edges)]
    files = {
        f"{name}.queries": [f"query {label} {query} {label}" for label in text.split()[::3]],
        f"{name}.joins": [f"join {name} {text}"],
        f"{name}-{size}-{count}-first.txt": lines[:first],
        f"{name}-{size}-{count}-changes.txt": lines[first:],
        f"{name}-{size}-{count}.txt": lines,
    }
    paths = [os.path.join(folder, file) for file in files]
    for path, text_lines in zip(paths, files.values()):
        write_lines(path, text_lines)
    return paths


def write_states(folder, tuples, seed=1):
    """Writes a stream of the label a alone and a queries file for each number of states; answers
    the path of the stream."""
    os.makedirs(folder, exist_ok=True)
    for states, expression in STATES.items():
        query = f"query q window 20 slide 1 arbitrary: {expression}"
        write_lines(os.path.join(folder, f"states-{states}.queries"), [query])
    draw = random.Random(f"states {seed}")
    path = os.path.join(folder, f"states-{tuples}.txt")
    write_lines(
        path, (f"{time} v{draw.randrange(10)} a v{draw.randrange(10)}" for time in range(tuples))
    )
    return path


def write_slow_to_compile(folder, count):
    """Writes so many queries that are slow to compile; answers the path of the queries file."""
    os.makedirs(folder, exist_ok=True)
    path = os.path.join(folder, f"slow-{count}.queries")
    lines = [
        f"query q{number} window 10 slide 1 arbitrary: {SLOW_TO_COMPILE}"
        for number in range(1, count + 1)
    ]
    write_lines(path, lines)
    return path


def main():
    words = argparse.ArgumentParser(
        description=__doc__, formatter_class=argparse.RawDescriptionHelpFormatter
    )
    words.add_argument("kind", choices=[*sorted(KINDS), *ATTACKS])
    words.add_argument("tuples", type=int)
    words.add_argument("--folder", default="data")
    words.add_argument("--vertices", type=int)
    words.add_argument("--seed", type=int, default=1)
    given = words.parse_args()
    if given.kind in ATTACKS:
        print(write_attack(given.kind, given.tuples, given.folder))
    else:
        print(write(given.kind, given.tuples, given.folder, given.vertices, given.seed))


if __name__ == "__main__":
    main()

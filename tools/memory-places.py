#!/usr/bin/env python3
"""Finds the places that say "out of memory" by themselves, and fails where there is one.

Only `rpq_base` makes a `Memory` (from what an allocator refused, or where the room that is needed
is too large to ask for). Every other crate hands on the value that it got: by `?`, by `From`, or by
its name. So outside of it `Memory` and `AllocError` stand only as types and in patterns:

- behind a colon, an arrow or a comma of types, between `<` and `>`, in a `use`, before `::`;
- to the left of `=>`, and between `let` and `=`.

Any other place makes a value, and is printed. Comments and clauses (`ghost`, `requires`, `ensures`,
between braces) are passed over, and so are tests: the crates `rpq_tests` and `library_tests`, files
named `*tests.rt`, and what follows a `#[test]` or a module of tests in a file. A variant of that
name, as `Why::Memory`, is another value: its `From` makes it of a `Memory`.

Run from the top: tools/memory-places.py
"""

import pathlib
import re
import sys

# Where a value is made though none was handed on, each with its reason.
EXCEPTIONS = {
    # The table's own fault has the slots alone, and no value of the allocator's.
    ("crates/turn_lock/src/ends.rt", "Err(Refused { slots }) => Err((only(slots), Memory)),"),
    # The engine alone makes a history forget, and only what it has asked for, so that it never comes
    # to this; but no clause of the history says so.
    ("crates/rpq_threads/src/entries.rt", "return Err(Memory);"),
    # An engine has no numbers left for names, and no allocator was asked.
    ("crates/entry_steps/src/room.rt", "Err(Memory)"),
    # Places of a table have numbers of 32 bits; so many would take hundreds of gigabytes.
    ("crates/place_table/src/places.rt", "return Err(Memory);"),
}

# The crates that are tests.
TESTS = ("rpq_tests", "library_tests")

WORD = re.compile(r"(?<![\w:])(?:Memory|AllocError)\b(?!\s*::|\s*\w|\s*=>)")
CLAUSE = re.compile(r"\b(ghost|requires|ensures\*?|valid)\b[^{};]*\{")


def without_comments(text):
    """The text with blanks in the place of comments, line by line as before."""
    return re.sub(r"//[^\n]*", lambda found: " " * len(found.group()), text)


def without_clauses(text):
    """The text with blanks in the place of what clauses have between their braces."""
    parts, begin = [], 0
    while found := CLAUSE.search(text, begin):
        depth, end = 1, found.end()
        while depth and end < len(text):
            depth += {"{": 1, "}": -1}.get(text[end], 0)
            end += 1
        parts.append(text[begin : found.start()])
        parts.append(re.sub(r"[^\n]", " ", text[found.start() : end]))
        begin = end
    return "".join(parts) + text[begin:]


def without_types(text):
    """The text without uses, patterns and types."""
    blank = lambda found: re.sub(r"[^\n]", " ", found.group())
    text = re.sub(r"(?m)^\s*(pub )?use [^;]*;", blank, text)
    text = re.sub(r"(?m)^\s*(\w+\()*\(?[^=\n{}]*=>", blank, text)
    text = re.sub(r"\blet [^=;]*=", blank, text)
    text = re.sub(r"matches!\([^;]*?\)\)", blank, text)
    text = re.sub(r"(?m)\b(impl|enum|struct|trait)\b[^{;]*[{;]", blank, text)
    for _ in range(4):
        text = re.sub(r"<[^<>;{}]*>", blank, text)
    text = re.sub(r"(:|->)\s*[&(]*(mut )?(Memory|AllocError)\b", blank, text)
    return re.sub(r"(?m)^\s*Memory(\(Memory\))?,$", blank, text)


def places(path):
    """The lines of the file that make a value."""
    whole = path.read_text()
    text = re.split(r"#\[cfg\(test\)\]\s*mod \w+ \{|#\[test\]", whole)[0]
    text = without_types(without_clauses(without_comments(text)))
    lines = whole.splitlines()
    for number, line in enumerate(text.splitlines(), 1):
        own = lines[number - 1].strip()
        if WORD.search(line) and (str(path), own) not in EXCEPTIONS:
            yield number, own


def main():
    found = False
    for path in sorted(pathlib.Path("crates").glob("*/src/**/*.rt")):
        crate = path.parts[1]
        if crate in ("rpq_base", *TESTS) or path.name.endswith("tests.rt"):
            continue
        for number, line in places(path):
            print(f"{path}:{number}: {line}")
            found = True
    return 1 if found else 0


if __name__ == "__main__":
    sys.exit(main())

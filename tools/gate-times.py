#!/usr/bin/env python3
"""tools/gate-times.py [--samples FILE] COMMAND ..
tools/gate-times.py --watch PID --samples FILE
tools/gate-times.py --table FILE

Runs a command, as `rt ci text_parts`, at the top of the repository, and prints at its end what each
crate took of the processors, as the table of docs/proofs/gate.md. It ends with the command's
status. It looks at the processes of this run alone, so others may be at work on the machine; but
then each second is dearer.

With `--samples` what was seen is kept in that file as the run goes on, and `--table` prints the
table of such a file, also of a run that was cut off. With `--watch` it runs nothing, and looks at
what a process runs that is there already, until that ends: so `.ci/run` is watched.

Once a second it looks in /proc at each process below the command that is a check, a build, a link
or a run of a program: how much processor time it and its children have taken, and how much memory
at most. The columns are, in seconds of processor time:

- check: the crate's own proof, from nothing;
- tests: the second proof, with the tests;
- edits: how many were tried; first: the check from nothing that they begin with, or of the one
  edit; later: the mean of an edit over that, with what was tried again from nothing; last: the
  check over all of them at the end;
- build: programs and tests made of what was proved, by both compilers, and their links;
- run: the programs and the tests themselves;
- sum: all of these; GB: the peak memory of the crate's dearest check; done: the minute of the run
  in which its own proof ended.

What it misses: a process's last second, so each check is up to a second short, and a process that
lives no second is seen by chance. The line behind the table has what the system counted for the
whole run, with `rt`'s own work, and how much of that was seen. A check that was killed and began
anew is counted twice. What an earlier run on the machine passed isn't tried again, and has no
number here: `rt ci --anew` proves all of it.
"""
import argparse
import json
import os
import re
import subprocess
import sys
import time

TOP = os.path.dirname(os.path.dirname(os.path.abspath(__file__)))
TICKS = os.sysconf("SC_CLK_TCK")
LINKERS = ("rattle-link", "antt", "clang", "lld", "ld.lld", "llvm-nm")
HEAD = ("Crate", "check", "tests", "edits", "first", "later", "last", "build", "run", "sum", "GB",
        "done")


def read(path):
    """What the file holds, or nothing where the process is gone."""
    try:
        with open(path, "rb") as file:
            return file.read().decode(errors="replace")
    except OSError:
        return ""


class Process:
    """A process as it stands now."""

    def __init__(self, pid, stat):
        fields = stat[stat.rindex(")") + 2:].split()
        self.pid = pid
        self.parent = int(fields[1])
        # with that of the children that it waited for
        self.seconds = sum(int(it) for it in fields[11:15]) / TICKS
        self.start = int(fields[19])

    def words(self):
        return read("/proc/%d/cmdline" % self.pid).split("\0")[:-1]

    def folder(self):
        try:
            return os.readlink("/proc/%d/cwd" % self.pid)
        except OSError:
            return ""

    def memory(self):
        """What it holds, and the most that it held, in bytes."""
        text = read("/proc/%d/status" % self.pid)
        found = [re.search(r"^%s:\s+(\d+)" % it, text, re.M) for it in ("VmRSS", "VmHWM")]
        return [1024 * int(it[1]) if it else 0 for it in found]


def processes():
    """All processes of the machine, by their numbers."""
    found = {}
    for name in os.listdir("/proc"):
        stat = read("/proc/%s/stat" % name) if name.isdigit() else ""
        if stat:
            found[int(name)] = Process(int(name), stat)
    return found


def work_of(words, folder):
    """The crate and the part that a process works at, or None where it is no work of its own."""
    tool = os.path.basename(words[0]) if words else ""
    if any(it.endswith("/documents.sh") for it in words[:3]):
        return None, "documents"
    ran = re.search(r"/rt-run-[^/]*/bin/(\w+)", " ".join(words))
    if ran and "/rt-run-" in folder:
        return re.sub(r"_tests$", "", ran[1]), "run"
    if tool in LINKERS:
        inside = re.search(r"/crates/(\w+)", folder)
        return inside and inside[1], "build"
    if tool != "rattle" or "--crate-name" not in words:
        return None
    crate = words[words.index("--crate-name") + 1]
    if "/rt-edit-" in folder:
        return crate, edit_of(words)
    if "--crate-checked" in words:
        return crate, "build"
    return crate, "tests" if "--test" in words else "check"


def edit_of(words):
    """Which check of an edit it is: the folder of what it begins with is named after the edit, or
    `seed` where the crate is as it stands."""
    if "--incremental" not in words:
        return "edit anew"
    return "edit " + os.path.basename(words[words.index("--incremental") + 1])


class Sampler:
    """The work that was seen below a process. Each is a row: its crate and part, when it was first
    and last seen in seconds of the run, its processor time and its memory at most."""

    def __init__(self, root):
        self.root, self.begun, self.rows = root, time.time(), {}

    def sample(self):
        alive = processes()
        children = {}
        for it in alive.values():
            children.setdefault(it.parent, []).append(it)
        for child in children.get(self.root, []):
            self.look_at(child, children)

    def look_at(self, process, children):
        """Notes the process where it is work, with all below it; else looks at its children."""
        key = "%d-%d" % (process.pid, process.start)
        if key not in self.rows:
            words, folder = process.words(), process.folder()
            work = work_of(words, folder)
            if work:
                now = time.time() - self.begun
                self.rows[key] = {"crate": work[0], "part": work[1], "folder": folder,
                                  "from": now, "to": now, "seconds": 0, "memory": 0}
        if key in self.rows:
            self.note(self.rows[key], below(process, children))
        else:
            for child in children.get(process.pid, []):
                self.look_at(child, children)

    def note(self, row, tree):
        memory = [it.memory() for it in tree]
        row["to"] = time.time() - self.begun
        row["seconds"] = max(row["seconds"], sum(it.seconds for it in tree))
        row["memory"] = max(row["memory"], sum(held for held, _ in memory),
                            *[most for _, most in memory])


def below(process, children):
    """The process and all below it."""
    found = [process]
    for it in found:
        found += children.get(it.pid, [])
    return found


class Edits:
    """What the edits of a crate took, from their rows in the order in which they began."""

    def __init__(self, rows):
        seeds = [it["seconds"] for it in rows if it["part"] == "edit seed"]
        anew = [it["seconds"] for it in rows if it["part"] == "edit anew"]
        over = [it for it in rows if it["part"] not in ("edit seed", "edit anew")]
        # With one edit, or without memory for a seed, each is tried from nothing.
        self.first = (seeds or anew or [0])[0]
        self.last = sum(seeds[1:])
        self.number = len({it["part"] for it in over}) or len(anew)
        later = sum(it["seconds"] for it in over) + sum(anew if seeds else anew[1:])
        count = self.number if seeds else self.number - 1
        self.later = later / count if count > 0 else 0
        self.sum = self.first + later + self.last


def line_of(crate, rows):
    """The numbers of a crate, in the columns' order behind its name."""
    parts = {}
    for row in rows:
        parts[row["part"]] = parts.get(row["part"], 0) + row["seconds"]
    own = [parts.get(it, 0) for it in ("check", "tests", "build", "run")]
    edits = Edits([it for it in rows if it["part"].startswith("edit ")])
    peak = max([it["memory"] for it in rows if it["part"] not in ("build", "run")] or [0]) / 1e9
    ends = [it["to"] for it in rows if it["part"] == "check"]
    return [own[0], own[1], edits.number, edits.first, edits.later, edits.last, own[2], own[3],
            sum(own) + edits.sum, peak, max(ends or [0]) / 60]


def table_of(seen):
    """The table of what was seen, and the lines behind it."""
    crates = {}
    for row in sorted(seen["rows"], key=lambda it: it["from"]):
        crates.setdefault(row["crate"], []).append(row)
    others = crates.pop(None, [])
    lines = {it: line_of(it, rows) for it, rows in crates.items()}
    shown = [HEAD, ("---",) * len(HEAD)]
    for crate, numbers in sorted(lines.items(), key=lambda it: -it[1][8]):
        shown.append(("`%s`" % crate, *[text_of(place, it) for place, it in enumerate(numbers)]))
    rows = ["| " + " | ".join(it) + " |" for it in shown]
    return rows + [""] + sums(seen, lines, sum(it["seconds"] for it in others))


def text_of(place, number):
    """The number as its column has it."""
    if not number:
        return ""
    return "%.1f" % number if place >= 9 else "%d" % round(number)


def sums(seen, lines, documents):
    """What stands behind the table, in minutes."""
    both = [sum(it[place] for it in lines.values()) / 60 for place in (0, 1, 6, 7, 8)]
    check, tests, build, run, whole = both
    edits = whole - check - tests - build - run
    found = ["Minutes of processor time: %.1f, of which proofs %.1f, tests %.1f, %d edits %.1f, "
             "builds and links %.1f, runs %.1f; and the documents %.1f."
             % (whole, check, tests, sum(it[2] for it in lines.values()), edits, build, run,
                documents / 60)]
    found.append("Wall time: %.1f minutes." % (seen["wall"] / 60))
    if seen["counted"]:
        unseen = (seen["counted"] - documents) / 60 - whole
        found.append("The system counted %.1f minutes for the whole run; %.1f of them weren't seen."
                     % (seen["counted"] / 60, unseen))
    return found


def keep(seen, file):
    """Writes what was seen, so that a run that is cut off leaves the file whole."""
    if file:
        with open(file + ".new", "w", encoding="utf-8") as it:
            json.dump(seen, it)
        os.replace(file + ".new", file)


def watched(command, file):
    """Runs the command, and returns what was seen and its status."""
    ran = subprocess.Popen(command, cwd=TOP)
    sampler, status, usage, looks = Sampler(ran.pid), None, None, 0
    while status is None:
        try:
            sampler.sample()
            looks += 1
            if looks % 60 == 0:
                keep(seen_by(sampler, 0), file)
            time.sleep(1)
            pid, ended, usage = os.wait4(ran.pid, os.WNOHANG)
            status = os.waitstatus_to_exitcode(ended) if pid else None
        except KeyboardInterrupt:
            # The command got it too, and is waited for.
            pass
    seen = seen_by(sampler, usage.ru_utime + usage.ru_stime)
    keep(seen, file)
    return seen, status if status >= 0 else 128 - status


def watch(root, file):
    """Looks at what a process runs until it ends."""
    sampler, looks = Sampler(root), 0
    while os.path.exists("/proc/%d" % root):
        sampler.sample()
        looks += 1
        if looks % 10 == 0:
            keep(seen_by(sampler, 0), file)
        time.sleep(1)


def seen_by(sampler, counted):
    return {"rows": [*sampler.rows.values()], "wall": time.time() - sampler.begun,
            "counted": counted}


def main():
    parser = argparse.ArgumentParser(description=__doc__.split("\n\n")[1])
    parser.add_argument("--samples", help="keeps what was seen in this file")
    parser.add_argument("--table", help="prints the table of such a file, and runs nothing")
    parser.add_argument("--watch", type=int, help="looks at what this process runs")
    parser.add_argument("command", nargs=argparse.REMAINDER, help="what to run")
    given = parser.parse_args()
    file = given.samples and os.path.abspath(given.samples)
    status = 0
    if given.watch:
        watch(given.watch, file)
        return
    if given.table:
        with open(given.table, encoding="utf-8") as it:
            seen = json.load(it)
    elif not given.command:
        parser.error("no command to run")
    else:
        seen, status = watched(given.command, file)
    print("\n".join(table_of(seen)))
    sys.exit(status)


if __name__ == "__main__":
    main()

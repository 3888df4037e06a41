"""Runs a program on a stream of workloads.py, and tells what that took."""

import hashlib
import os
import re
import subprocess
import sys
import tempfile
import time
from dataclasses import dataclass

import workloads

FOLDER = os.path.join(tempfile.gettempdir(), "rpq-workloads")
TIME = "/usr/bin/time"


def files(kind, tuples, query, vertices=None):
    """The paths of a queries file and of a stream, which is made where it isn't there."""
    folder = os.path.join(FOLDER, f"{vertices or 'usual'}")
    path = os.path.join(folder, f"{kind}-{tuples}.txt")
    if not os.path.exists(path):
        workloads.write(kind, tuples, folder, vertices)
    name = f"{kind}.queries" if query == "all" else f"{kind}.{query}.queries"
    return os.path.join(folder, name), path


def attack_files(name, size):
    """The paths of the queries file and of the stream of an attack."""
    path = workloads.write_attack(name, size, FOLDER)
    return os.path.join(FOLDER, f"{name}.queries"), path


def line_count(path):
    with open(path, "rb") as stream:
        return sum(1 for _ in stream)


@dataclass
class Run:
    """What a run took: seconds, seconds of processor time, and its peak of memory in MB. The digest
    is that of its output, where it was asked for."""

    seconds: float
    busy: float
    peak: float
    digest: str


def run(words, digested=False):
    """Runs the program of these words. Its output goes to /dev/null, or is digested."""
    note = os.path.join(tempfile.gettempdir(), f"rpq-peak-{os.getpid()}")
    timed = [TIME, "-q", "-f", "%M", "-o", note] if os.path.exists(TIME) else []
    output = subprocess.PIPE if digested else subprocess.DEVNULL
    start = time.monotonic()
    process = subprocess.Popen([*timed, *words], stdout=output, stderr=subprocess.PIPE)
    digest = hashlib.sha256()
    if digested:
        for block in iter(lambda: process.stdout.read(1 << 20), b""):
            digest.update(block)
    error = process.stderr.read()
    _, status, used = os.wait4(process.pid, 0)
    seconds = time.monotonic() - start
    if status != 0:
        sys.exit(f"{' '.join(words)}: status {status >> 8}: {error.decode()}")
    peak = used.ru_maxrss
    if timed:
        with open(note) as told:
            peak = int(told.read().split()[-1])
        os.unlink(note)
    return Run(seconds, used.ru_utime + used.ru_stime, peak / 1024, digest.hexdigest())


def least_of(runs):
    """The least seconds, processor time and peak of some runs, each by itself."""
    runs = list(runs)
    return Run(
        min(each.seconds for each in runs),
        min(each.busy for each in runs),
        min(each.peak for each in runs),
        runs[0].digest,
    )


def least(words, times):
    """The least of what so many runs take."""
    return least_of(run(words) for _ in range(times))


def least_in_turn(commands, times):
    """The least of what each of the commands takes, which are run in turn."""
    rounds = [[run(words) for words in commands] for _ in range(times)]
    return [least_of(runs) for runs in zip(*rounds)]


def digest_of(words):
    return run(words, digested=True).digest


def instructions(words):
    """How many instructions a run takes, by valgrind's callgrind."""
    valgrind = ["valgrind", "--tool=callgrind", "--callgrind-out-file=/dev/null", *words]
    done = subprocess.run(valgrind, stdout=subprocess.DEVNULL, stderr=subprocess.PIPE, text=True)
    found = re.search(r"Collected : (\d+)", done.stderr)
    if done.returncode != 0 or found is None:
        sys.exit(f"{' '.join(valgrind)}: status {done.returncode}: {done.stderr}")
    return int(found.group(1))

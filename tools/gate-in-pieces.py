#!/usr/bin/env python3
"""tools/gate-in-pieces.py LANES [CRATE ..]

Does at the top of a clone what `rt check` does, for all crates or for those that are named and all
below them: as many side by side as there are lanes, each over what earlier checks of it kept, and
each before those that stand on it. `rt` itself does one check at a time in a clone. What a check
says is in out/check.log of its crate. Forty crates above a changed low one take some twelve minutes
on four processors with nothing beside. Leave the clone's files as they are meanwhile.

It tries no edit, runs no test, and builds no program but those it checks. A verdict is the gate's
alone: `.ci/run`. `rt ci NAME` is the gate for one crate and those below it, and what it passes is
kept for the whole gate.

It computes the sum of a crate's files once, where `rt` does so once for each way that leads down to
the crate: for `rpq_run` that is minutes.
"""
import argparse
import importlib.machinery
import importlib.util
import os
import shutil
import sys
import time

KIT = os.path.dirname(os.path.realpath(shutil.which("rt") or "/opt/rattle/bin/rt"))


def loaded(name, path):
    """The kit's script at the path, as a module."""
    loader = importlib.machinery.SourceFileLoader(name, path)
    module = importlib.util.module_from_spec(importlib.util.spec_from_loader(name, loader))
    sys.modules[name] = module
    loader.exec_module(module)
    return module


def sum_once(crate_type):
    """Makes the sum of a crate's files, and of those below it, be computed once."""
    plain, known = crate_type.stamp, {}

    def stamp(self):
        if self.folder not in known:
            known[self.folder] = plain(self)
        return known[self.folder]

    crate_type.stamp = stamp


def with_those_below(crates, names):
    """The crates of these names and all below them, or all crates where no name is given."""
    wanted = set(names)
    for crate in crates:
        if crate.name in names:
            wanted.update(it.name for it in crate.below())
    return [it for it in crates if it.name in wanted or not names]


def checked(rt, crate, given):
    """Checks the crate over kept work, and builds its library. Says how that went, in a line."""
    lacking = [it.name for it in crate.below() if not given[it.name, "proof"]]
    if lacking:
        rt.say("%s: not checked, since %s isn't proved" % (crate.name, lacking[0]))
        return False
    started = time.time()
    os.makedirs(crate.folder + "/out", exist_ok=True)
    with open(crate.folder + "/out/check.log", "w") as crate.out:
        if crate.is_program:
            words = [*crate.words(["--jobs", "1"]), *rt.rtlib.KEPT, "--progress"]
            status = crate.call(rt.rtlib.RATTLE, "check", *words)
        else:
            status = crate.build_rlib(["--jobs", "1"], anew=False)
    said = "proved" if status == 0 else "NOT PROVED: %s/out/check.log" % crate.folder
    rt.say("%s: %s (%.0f s)" % (crate.name, said, time.time() - started))
    return status == 0


def check(lanes, names):
    rt = loaded("rt_main", KIT + "/rt")
    sum_once(rt.rtlib.Crate)
    rt.rtlib.guarded()
    os.environ["RT_JOBS"] = str(lanes)
    crates = with_those_below(rt.rtlib.crates_below(os.getcwd()), names)
    held = rt.rtlib.lock(crates)
    tasks = {
        (it.name, "proof"): (
            [(below.name, "proof") for below in it.below()],
            it.count(rb"\n"),
            0,
            lambda given, _, it=it: checked(rt, it, given),
        )
        for it in sorted(crates, key=lambda it: len(it.below()))
    }
    given = rt.in_lanes(tasks)
    del held
    return 0 if all(given.values()) else 1


def main():
    parser = argparse.ArgumentParser(
        description=__doc__, formatter_class=argparse.RawDescriptionHelpFormatter
    )
    parser.add_argument("lanes", type=int)
    parser.add_argument("names", nargs="*")
    asked = parser.parse_args()
    return check(asked.lanes, asked.names)


if __name__ == "__main__":
    sys.exit(main())

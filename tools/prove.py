#!/usr/bin/env python3
"""Proves and builds the libraries of the tree that are not built yet, side by side, those with the longest chain above first.

    tools/prove.py [--jobs N] [CRATE..]

With names of crates, these and what they use. Programs and tests are left to `rt run` and `rt test`. It does what `rt all
check` does without its first pass over all sources, which takes longer than most proofs, and sums up the sources of each
crate once. What is built is kept in crates/NAME/out, so a second run does only what is left; what a check said is in
out/prove.NAME. It stands on the inside of `rt` (rtlib), and gives no verdict: that is `rt ci`.
"""

import argparse
import os
import shutil
import sys
import tempfile
import threading
import time

sys.dont_write_bytecode = True
sys.path.insert(0, os.path.dirname(os.path.realpath(shutil.which("rt") or "rt")))
import rtlib  # noqa: E402  (found beside rt)


def remember_sums():
    """Sums up the sources of each crate once."""
    plain, known = rtlib.Crate.stamp, {}

    def stamp(crate):
        if crate.folder not in known:
            known[crate.folder] = plain(crate)
        return known[crate.folder]

    rtlib.Crate.stamp = stamp


def lines(crate):
    return sum(open(file, "rb").read().count(b"\n") for file in rtlib.files_of(crate.folder) if file.endswith((".rt", ".antt")))


class Builder:
    """The crates that are left, and those that are being built, with the processors that they take."""

    def __init__(self, crates, jobs):
        self.left = [it for it in crates if not it.is_built()]
        self.built = {it.name for it in crates if it.is_built()}
        self.jobs, self.used, self.failed, self.turn = jobs, 0, set(), threading.Condition()
        size, above = {it.name: lines(it) for it in crates}, {}
        for crate in sorted(crates, key=lambda it: -len(it.below())):
            rest = max((above[it.name] for it in crates if crate.name in [d.name for d in it.deps]), default=0)
            above[crate.name] = size[crate.name] + rest
        self.left.sort(key=lambda it: -above[it.name])

    def work(self, crate, jobs):
        begin = time.time()
        os.makedirs(f"{crate.folder}/out", exist_ok=True)
        with tempfile.TemporaryFile("a+", errors="replace") as crate.out:
            status = crate.build_rlib(["--jobs", str(jobs)], anew=False)
            crate.out.seek(0)
            said = crate.out.read()
        with self.turn, open(f"out/prove.{crate.name}", "w", encoding="utf-8") as file:
            file.write(said)
            last = said.strip().split("\n")[-1].split(" sum=")[0]
            print(f"{crate.name}: {'proved' if status == 0 else 'NOT PROVED'} in {time.time() - begin:.0f} s: {last[:100]}", flush=True)
            (self.failed if status else self.built).add(crate.name)
            self.used -= jobs
            self.turn.notify_all()

    def run(self):
        with self.turn:
            while self.left or self.used:
                stuck = [it for it in self.left if any(d.name in self.failed for d in it.below())]
                self.failed.update(it.name for it in stuck)
                self.left = [it for it in self.left if it not in stuck]
                ready = [it for it in self.left if all(d.name in self.built for d in it.below())]
                free = self.jobs - self.used
                if not ready or free < 1:
                    if not self.used:
                        break
                    self.turn.wait()
                    continue
                jobs = free if len(ready) == 1 and not self.used else min(free, 2)
                self.left.remove(ready[0])
                self.used += jobs
                threading.Thread(target=self.work, args=(ready[0], jobs)).start()
        return sorted(self.failed)


def main():
    parser = argparse.ArgumentParser(description=__doc__, formatter_class=argparse.RawDescriptionHelpFormatter)
    parser.add_argument("--jobs", type=int, default=len(os.sched_getaffinity(0)), help="processors to use")
    parser.add_argument("crates", nargs="*")
    given = parser.parse_args()
    os.chdir(f"{os.path.dirname(os.path.abspath(__file__))}/..")
    os.makedirs("out", exist_ok=True)
    rtlib.guarded()
    remember_sums()
    crates = [it for it in rtlib.crates_below(os.getcwd()) if it.makes_rlib()]
    if given.crates:
        named = [it for it in crates if it.name in given.crates]
        crates = [it for it in crates if it in named or any(it in other.below() for other in named)]
    failed = Builder(crates, given.jobs).run()
    print(f"not proved: {', '.join(failed)}" if failed else "all are proved")
    return 1 if failed else 0


if __name__ == "__main__":
    sys.exit(main())

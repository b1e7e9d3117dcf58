#!/usr/bin/env python3
"""Measures trials: how many are made in a second, and how often one allocates.

    bench/trials.py [--program PATH] [--rounds N] [--trials N]

The program is `trial_bench`. Each case is measured N times (10 where N is left out), each time 1,000,000 trials with one machine or as
many as `--trials` says. The fastest run counts, and the middle one stands beside it. A run prints its own times, by the clock of the
system, so the start of the program, the reading of the texts and the making of the machine are left out. Allocations are counted by
`valgrind`, where it is installed, over 1,000 and over 2,000 trials: what the second run has more, for each further trial.
"""
import argparse
import os
import re
import shutil
import subprocess
import sys
from statistics import median

from calls import ROOT

PROGRAM = os.path.join(ROOT, "crates", "trial_bench", "out", "trial_bench")
CASES = ["merge", "gen", "sum"]
TRIALS = 1_000_000
COUNTED = 1_000
HEAP = re.compile(r"total heap usage: ([0-9,]+) allocs")


def call(words):
    """What a call prints, on its two outputs."""
    got = subprocess.run(words, capture_output=True, text=True)
    if got.returncode != 0:
        sys.exit(f"{' '.join(words)}: exit status {got.returncode}: {got.stderr.strip()}")
    return got.stdout, got.stderr


def nanoseconds(program, case, trials):
    """The nanoseconds of a trial, in one run."""
    out, _ = call([program, case, str(trials)])
    name, value = out.strip().split(": ")
    if name != case:
        sys.exit(f"{case}: the program printed {name}")
    return float(value.split()[0])


def allocations(program, case, trials):
    """How often a whole run allocates."""
    _, err = call(["valgrind", "--tool=memcheck", program, case, str(trials)])
    found = HEAP.search(err)
    if not found:
        sys.exit(f"{case}: valgrind told no allocations")
    return int(found[1].replace(",", ""))


def counted(program, case):
    """The allocations of a trial, as they are written; a line where nothing counts them."""
    if not shutil.which("valgrind"):
        return "-"
    more = allocations(program, case, 2 * COUNTED) - allocations(program, case, COUNTED)
    return f"{more / COUNTED:.3f}"


def main():
    options = argparse.ArgumentParser(description="Measures trials.")
    options.add_argument("--program", default=PROGRAM)
    options.add_argument("--rounds", type=int, default=10)
    options.add_argument("--trials", type=int, default=TRIALS)
    given = options.parse_args()
    if not os.access(given.program, os.X_OK):
        sys.exit(f"no program at {given.program}: rt run in crates/trial_bench builds it")
    print("| process | nanoseconds | middle run | trials a second | allocations a trial |")
    print("|---|---:|---:|---:|---:|")
    for case in CASES:
        times = [nanoseconds(given.program, case, given.trials) for _ in range(given.rounds)]
        print(f"| `{case}` | {min(times):,.1f} | {median(times):,.1f} | {1e9 / min(times):,.0f} | {counted(given.program, case)} |", flush=True)


if __name__ == "__main__":
    main()

#!/usr/bin/env python3
"""Measures the steps of the shared store, and the memory of entries that are published.

    bench/store.py [--program PATH] [--rounds N] [--steps N]

The program is `store_bench`. Its steps are measured N times (20 where N is left out), each time 1,000,000 rounds a seat or as many as
`--steps` says. The fastest run of each step counts; the middle one stands beside it. The Busy answers are those of the fastest run, for
each round that was done. A run prints its own times, by the clock of the system, from before its threads start to their end. The first
line says on what machine it ran, and what else ran there.
"""
import argparse
import os
import re
import subprocess
import sys
from statistics import median

from calls import ROOT, rounds_of

PROGRAM = os.path.join(ROOT, "crates", "store_bench", "out", "store_bench")
LINE = re.compile(r"(.*), (\d) (seats?), (.*): ([0-9.]+) ns, (\d+) busy")
ENTRIES = 1_000_000
OWN_BYTES = 16


def machine():
    """The kind of the processors, how many they are, and how many tasks waited for them."""
    with open("/proc/cpuinfo", encoding="ascii", errors="replace") as file:
        kinds = [line.split(":", 1)[1].strip() for line in file if line.startswith("model name")]
    loads = ", ".join(f"{load:.1f}" for load in os.getloadavg())
    return f"{len(kinds)} processors, {kinds[0] if kinds else 'of an unknown kind'}; load averages {loads}"


def figures(program, steps):
    """Of each step and plan the nanoseconds of a round, and the Busy answers for each round of one run."""
    got = subprocess.run([program, "steps", str(steps)], capture_output=True, text=True)
    if got.returncode != 0:
        sys.exit(f"steps: exit status {got.returncode}: {got.stderr.strip()}")
    lines = [LINE.fullmatch(line) for line in got.stdout.splitlines()]
    return {(line[1], f"{line[2]} {line[3]}, {line[4]}"): (float(line[5]), int(line[6]) / (int(line[2]) * steps)) for line in lines}


def main():
    options = argparse.ArgumentParser(description="Measures the shared store.")
    options.add_argument("--program", default=PROGRAM)
    options.add_argument("--rounds", type=int, default=20)
    options.add_argument("--steps", type=int, default=ENTRIES)
    given = options.parse_args()
    if not os.access(given.program, os.X_OK):
        sys.exit(f"no program at {given.program}: rt run in crates/store_bench builds it")
    print(machine())
    print()
    runs = [figures(given.program, given.steps) for _ in range(given.rounds)]
    print("| step | seats and pages | nanoseconds | middle run | Busy for each round |")
    print("|---|---|---:|---:|---:|")
    for step, plan in runs[0]:
        times = [run[step, plan] for run in runs]
        print(f"| {step} | {plan} | {min(times)[0]:,.1f} | {median(time for time, _ in times):,.1f} | {min(times)[1]:,.2f} |")
    print()
    peaks = [rounds_of(given.program, ["entries", str(n)], 3, 0, f"{n} entries")[1] for n in (ENTRIES, 2 * ENTRIES)]
    each = (peaks[1] - peaks[0]) * 1024 / ENTRIES
    print("| entries | peak, KiB |")
    print("|---:|---:|")
    for number, peak in zip((ENTRIES, 2 * ENTRIES), peaks):
        print(f"| {number:,} | {peak:,} |")
    print()
    print(f"{each:.1f} bytes for each further entry, of which {OWN_BYTES} are what the log keeps of it")


if __name__ == "__main__":
    main()

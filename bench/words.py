#!/usr/bin/env python3
"""Measures the steps of tries, and how long texts take to be read, loaded and compiled.

    bench/words.py [--program PATH] [--rounds N]

The program is `word_bench`. The steps are measured N times (3 where N is left out), 20,000 rounds each, and each text of `texts.py`
that has no fault is compiled N times. The fastest round of each counts. A call prints its own times, by the clock of the system, so
the start of the program and the reading of the file are left out.
"""
import argparse
import os
import subprocess
import sys
import tempfile

from texts import CASES, SHOWN, SIZES

ROOT = os.path.dirname(os.path.dirname(os.path.abspath(__file__)))
PROGRAM = os.path.join(ROOT, "crates", "word_bench", "out", "word_bench")


def figures(program, words):
    """What a call prints: a number for each name."""
    got = subprocess.run([program, *words], capture_output=True, text=True)
    if got.returncode != 0:
        sys.exit(f"{' '.join(words)}: exit status {got.returncode}: {got.stderr.strip()}")
    lines = (line.split(": ") for line in got.stdout.splitlines())
    return {name: float(value.split()[0]) for name, value in lines}


def fastest(program, words, rounds):
    runs = [figures(program, words) for _ in range(rounds)]
    return {name: min(run[name] for run in runs) for name in runs[0]}


def main():
    options = argparse.ArgumentParser(description="Measures words and code.")
    options.add_argument("--program", default=PROGRAM)
    options.add_argument("--rounds", type=int, default=3)
    given = options.parse_args()
    print("| step | nanoseconds |")
    print("|---|---:|")
    for name, value in fastest(given.program, ["words", "20000"], given.rounds).items():
        print(f"| {name} | {value:,.1f} |", flush=True)
    print()
    print("| text | bytes | read and load, s | compile, s | instructions | slots |")
    print("|---|---:|---:|---:|---:|---:|")
    with tempfile.TemporaryDirectory() as folder:
        file = os.path.join(folder, "module.fcp")
        for make in CASES:
            for size in SIZES:
                text, status = make(size)
                if status != SHOWN:
                    continue
                with open(file, "w", encoding="ascii") as out:
                    out.write(text)
                got = fastest(given.program, ["compile", file], given.rounds)
                print(f"| {make.__name__.replace('_', ' ')} | {len(text):,} | {got['read and load']:.3f} | {got['compile']:.3f} "
                      f"| {got['instructions']:,.0f} | {got['slots']:,.0f} |", flush=True)


if __name__ == "__main__":
    main()

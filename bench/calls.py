"""Calls of the program that are timed: what both measuring scripts share."""
import argparse
import os
import sys
import time

ROOT = os.path.dirname(os.path.dirname(os.path.abspath(__file__)))
PROGRAM = os.path.join(ROOT, "crates", "logix", "out", "logix")


def chosen(description):
    """The program and the number of rounds that the command line gives."""
    options = argparse.ArgumentParser(description=description)
    options.add_argument("--program", default=PROGRAM)
    options.add_argument("--rounds", type=int, default=3)
    got = options.parse_args()
    if not os.access(got.program, os.X_OK):
        sys.exit(f"no program at {got.program}: ./logix builds it")
    return got


def timed(program, words):
    """Seconds, peak memory in KiB and exit status of one call with these words, whose output goes nowhere."""
    null = os.open(os.devnull, os.O_RDWR)
    begun = time.monotonic()
    child = os.fork()
    if child == 0:
        os.dup2(null, 0)
        os.dup2(null, 1)
        os.execv(program, [program, *words])
    _, status, usage = os.wait4(child, 0)
    seconds = time.monotonic() - begun
    os.close(null)
    return seconds, usage.ru_maxrss, os.waitstatus_to_exitcode(status)


def rounds_of(program, words, rounds, wanted, what):
    """The fastest seconds and the largest peak of some calls, each of which has to end with the wanted status."""
    runs = [timed(program, words) for _ in range(rounds)]
    for _, _, status in runs:
        if status != wanted:
            sys.exit(f"{what}: exit status {status}, and {wanted} was expected")
    return min(run[0] for run in runs), max(run[1] for run in runs)

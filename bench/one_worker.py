#!/usr/bin/env python3
"""Measures runs of one worker: entries of the log per second, and peak memory.

    bench/one_worker.py [--program PATH] [--rounds N]

Each case is run at two sizes, N rounds each (3 where N is left out), with the report going to /dev/null. The fastest
round counts, and the largest peak. Time is that of the whole call, from its start to its end. `fixed` is a call of one
commit, with the same store as all others. Its peak is the least that can be measured here: the system counts what this
script had in memory when it started the program, so a peak near that of `fixed` says only that the program needs no more.
The second table compares the two sizes; its seconds per entry are those beyond the call of `fixed`.
"""
import os
import sys
import tempfile

from calls import ROOT, chosen, rounds_of

GROW = os.path.join(ROOT, "examples", "grow.fcp")

# the exit statuses of runs that terminated, and that met the limit of commits
TERMINATED, BUDGET = 0, 9


def grow(n):
    """Two generators of the numbers up to n, their merge and its sum: 10n + 7 commits, and no hang."""
    with open(GROW, encoding="ascii") as file:
        return file.read(), f"main({n}, Sum)", TERMINATED, 10 * n + 7


def chain(n):
    """n procedures, each of which calls the next: n commits, each of another procedure."""
    return "".join(f"p{i} :- p{i + 1}.\n" for i in range(1, n)) + f"p{n}.\n", "p1", TERMINATED, n


def one_procedure(n):
    """One procedure that calls itself, to the limit of 1,000,000 commits; it has no other size."""
    return "loop :- loop.\n", "loop", BUDGET, 1_000_000


def tree(n):
    """A binary tree of n levels below the root, of n + 1 procedures: 2^(n + 1) - 1 commits, and as many processes."""
    levels = "".join(f"t{i} :- t{i + 1}, t{i + 1}.\n" for i in range(n))
    return levels + f"t{n}.\n", "t0", TERMINATED, 2 ** (n + 1) - 1


def waiting(n):
    """The same tree with a variable, whose 2^n leaves hang on it and are all woken by one commit at the end."""
    levels = "".join(f"t{i}(X) :- t{i + 1}(X), t{i + 1}(X).\n" for i in range(n))
    # `late` is n + 2 commits long, so that it writes only after all leaves hang.
    late = "".join(f"late{i}(X) :- late{i + 1}(X).\n" for i in range(n + 2))
    goal = "t0(X?), late0(X)"
    entries = (2 ** n - 1) + 2 * 2 ** n + n + 3
    return levels + f"t{n}(a).\n" + late + f"late{n + 2}(a).\n", goal, TERMINATED, entries


def row(n):
    """A row of n processes, each of which waits for its left neighbour: n hangs, and n commits of which each wakes one."""
    links = "".join(f"r{i}(X) :- pass(X?, Y), r{i + 1}(Y?).\n" for i in range(n)) + f"r{n}(_).\npass(a, a).\n"
    # `late` writes the first variable after all others hang.
    late = "".join(f"late{i}(X) :- late{i + 1}(X).\n" for i in range(n + 2)) + f"late{n + 2}(a).\n"
    return links + late, "r0(X?), late0(X)", TERMINATED, (n + 1) + 2 * n + (n + 3)


def carried(n):
    """A value that n commits hand on, and that a process reads at each of them: 2n + 1 commits."""
    steps = "".join(f"w{i}(X) :- r(X?), w{i + 1}(X).\n" for i in range(n))
    return steps + f"w{n}(_).\nr(a).\n", "w0(a)", TERMINATED, 2 * n + 1


CASES = [
    ("fixed", chain, (1,)),
    ("grow", grow, (1_000, 9_000)),
    ("loop", one_procedure, (1_000_000,)),
    ("chain", chain, (20_000, 40_000)),
    ("tree", tree, (17, 18)),
    ("waiting", waiting, (15, 16)),
    ("row", row, (4_000, 8_000)),
    ("carried", carried, (5_000, 10_000)),
]


def entries_of(program, file, goal):
    """The number of entries of the log, from the report of one more call."""
    with tempfile.TemporaryFile() as out:
        child = os.fork()
        if child == 0:
            os.dup2(out.fileno(), 1)
            os.execv(program, [program, "run", file, goal])
        os.waitpid(child, 0)
        out.seek(0)
        for line in out:
            if line.startswith(b"end "):
                return int(line[4:])
    return None


def measure(program, folder, rounds, name, make, size):
    text, goal, wanted, entries = make(size)
    file = os.path.join(folder, "module.fcp")
    with open(file, "w", encoding="ascii") as out:
        out.write(text)
    got = entries_of(program, file, goal)
    if got != entries:
        sys.exit(f"{name} at {size}: {got} entries, and {entries} were expected")
    return len(text), entries, *rounds_of(program, ["run", file, goal], rounds, wanted, f"{name} at {size}")


def main():
    given = chosen("Measures runs of one worker.")
    print("| case | size | file, bytes | entries | seconds | entries per second | peak, KiB | peak bytes per entry |")
    print("|---|---:|---:|---:|---:|---:|---:|---:|")
    measured = {}
    with tempfile.TemporaryDirectory() as folder:
        for name, make, sizes in CASES:
            for size in sizes:
                length, entries, seconds, peak = measure(given.program, folder, given.rounds, name, make, size)
                measured.setdefault(name, []).append((entries, seconds, peak))
                print(f"| {name} | {size:,} | {length:,} | {entries:,} | {seconds:.3f} | {entries / seconds:,.0f} | "
                      f"{peak:,} | {peak * 1024 / entries:,.0f} |", flush=True)
    _, start, _ = measured["fixed"][0]
    print()
    print("| case | ratio of entries | ratio of seconds | ratio of seconds per entry | ratio of peaks | bytes per further entry |")
    print("|---|---:|---:|---:|---:|---:|")
    for name, rows in measured.items():
        if len(rows) == 2:
            print(compared(name, start, *rows))


def compared(name, start, smaller, larger):
    """The line of a case in the second table, where a call of one commit takes `start` seconds."""
    (fewer, quick, low), (more, slow, high) = smaller, larger
    each = (slow - start) / more / ((quick - start) / fewer)
    further = (high - low) * 1024 / (more - fewer)
    return f"| {name} | {more / fewer:.2f} | {slow / quick:.2f} | {each:.2f} | {high / low:.2f} | {further:,.0f} |"


if __name__ == "__main__":
    main()

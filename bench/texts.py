#!/usr/bin/env python3
"""Measures how long texts take to be read, loaded and shown: seconds and peak memory.

    bench/texts.py [--program PATH] [--rounds N]

Each kind of text is made at about 100 KiB and at 1 MiB, and shown N times each (3 where N is left out), with the text
going to /dev/null. The fastest round counts, and the largest peak. Time is that of the whole call. The last column is
the ratio of the two times; 10.24 is that of the lengths.
"""
import os
import sys
import tempfile

from calls import chosen, rounds_of

SIZES = (102_400, 1_048_576)

# the exit statuses of a text that was shown, and of one with a fault
SHOWN, MODULE_FAULT = 0, 3


def filled(piece, size, head="", tail=""):
    """`piece` as often as fits between head and tail, and blanks up to the size."""
    count = (size - len(head) - len(tail)) // len(piece)
    text = head + piece * count + tail
    return text + " " * (size - len(text))


def blanks(size):
    return " " * size, SHOWN


def comments(size):
    return filled("% a comment of some length, and then the next line\n", size), SHOWN


def facts(size):
    """Many clauses of one procedure."""
    return filled("p(a,B,_,'c d').\n", size), SHOWN


def procedures(size):
    """Each clause of a procedure of its own: about 50,000 in 1 MiB."""
    return "".join(f"p{i}(X) :- p0(X).\n" for i in range(size // 22)), SHOWN


def rules(size):
    """Guards, expressions and infix items."""
    return filled("q(X,Y) :- X? =< 3, Y \\== X | Z := X? * (2 + 1) mod 7, q(Z?,[X,Y|Z]), Y = {X}.\n", size), SHOWN


def one_list(size):
    """One list of one element for each two bytes."""
    return filled("a,", size, "p([", "a])."), SHOWN


def numbers(size):
    return filled("-9223372036854775808,", size, "p([", "0])."), SHOWN


def quoted(size):
    """Strings with doubled quotes, all of them different."""
    return "p([" + ",".join(f"'it''s {i}'" for i in range(size // 14)) + "]).", SHOWN


def colliding(size):
    """Different strings that the kit's fixed hash takes for one: their first 24 bytes make a factor of it 0."""
    return "p([" + ",".join(f"'dsryprtktnsukyzfha;6|I 8{i:08}'" for i in range(size // 35 - 1)) + "]).", SHOWN


def one_string(size):
    """One string, as long as the file."""
    return filled("''", size, "p('", "')."), SHOWN


def brackets(size):
    """Lists of terms that are nested 255 deep."""
    return filled("[" * 254 + "]" * 254 + ",", size, "p([", "a])."), SHOWN


def variables(size):
    """250 different variables, over and over."""
    row = ",".join(f"Variable{i}" for i in range(1, 251)) + ","
    return filled(row, size, "p([", "a])."), SHOWN


def late_fault(size):
    """A fault at the last byte."""
    return filled("p(a).\n", size - 1)[: size - 1] + ")", MODULE_FAULT


CASES = [blanks, comments, facts, procedures, rules, one_list, numbers, quoted, colliding, one_string, brackets, variables, late_fault]


def measure(program, folder, rounds, make, size):
    text, wanted = make(size)
    if len(text) > size:
        sys.exit(f"{make.__name__} at {size}: a text of {len(text)} bytes")
    file = os.path.join(folder, "module.fcp")
    with open(file, "w", encoding="ascii") as out:
        out.write(text)
    return rounds_of(program, ["show", file], rounds, wanted, f"{make.__name__} at {size}")


def main():
    given = chosen("Measures the reading of texts.")
    print("| text | seconds at 100 KiB | peak, KiB | seconds at 1 MiB | peak, KiB | ratio of seconds |")
    print("|---|---:|---:|---:|---:|---:|")
    with tempfile.TemporaryDirectory() as folder:
        for make in CASES:
            (quick, low), (slow, high) = (measure(given.program, folder, given.rounds, make, size) for size in SIZES)
            print(f"| {make.__name__.replace('_', ' ')} | {quick:.3f} | {low:,} | {slow:.3f} | {high:,} | {slow / quick:.2f} |", flush=True)


if __name__ == "__main__":
    main()

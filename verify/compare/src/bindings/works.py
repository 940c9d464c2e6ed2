"""Works of the library, done by the package for Python.

usage: works.py headers|canonical|recode|deterministic COUNT TIMES

It reads standard input whole, and does the work TIMES times. `headers` only goes over the titles. The program prints
the sum, as works.c does, and sums the titles once, if TIMES is 1.
"""
import sys

import ciborium_ll
from ciborium_ll import Kind


def titles(data):
    """Goes over the titles."""
    for _ in ciborium_ll.headers(data):
        pass


def total(data):
    """Returns the sum of the titles."""
    number = (Kind.POSITIVE, Kind.TEXT)
    return sum(title.header.value if title.header.kind in number else 1 for title in ciborium_ll.headers(data))


def main(work, count, times):
    """Does the work."""
    data = sys.stdin.buffer.read()
    works = {
        "headers": lambda: titles(data),
        "sum": lambda: total(data) % 2 ** 64,
        "canonical": lambda: len(ciborium_ll.canonical(data)),
        "recode": lambda: len(ciborium_ll.recode(data, count).data),
        "deterministic": lambda: ciborium_ll.deterministic(data),
    }
    done = None
    for _ in range(times):
        done = works[work]()
    print(done)


main(sys.argv[1], int(sys.argv[2]), int(sys.argv[3]))

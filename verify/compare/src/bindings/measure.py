"""Measures the works of this folder, and prints a table.

usage: measure.py FOLDER [--rounds N] [--rows TEXT]

FOLDER has the programs that verify/compare/bindings builds. The sides of a row run by turns. For each the least user
time of the rounds counts, less that of a program that does its work no time. Valgrind counts the instructions, by the
difference between a program that does its work twice and one that does it once.
"""
import argparse
import collections
import functools
import os
import random
import re
import resource
import shutil
import subprocess
import sys

import ciborium_ll
from ciborium_ll import Header, Kind

TITLES = 200000
MAPS = 10000
HERE = os.path.dirname(os.path.abspath(__file__))

ITEM = "an item of 0.6 MB"

# Bytes with the words for them, how many titles they have, and the sum that each side has to give.
Data = collections.namedtuple("Data", "words data titles sum")

# A program with the name of its work, and how often a timed run does it.
Side = collections.namedtuple("Side", "command work times")

# A work in a language, over the data of a name, with the words for the other side.
Row = collections.namedtuple("Row", "language call data ours beside other")


def title(kind, value):
    """Returns the shortest title."""
    return ciborium_ll.push(Header(kind, value))


def text(body):
    """Returns a text."""
    return title(Kind.TEXT, len(body)) + body.encode()


def integers(words, source, widths):
    """Returns titles of numbers. The width of each, in bits, is one of these."""
    numbers = [source.getrandbits(source.choice(widths)) for _ in range(TITLES)]
    made = b"".join(title(Kind.POSITIVE, number) for number in numbers)
    return Data(words, made, TITLES, sum(numbers) % 2 ** 64)


def maps(words, source):
    """Returns maps of two pairs with short texts, of five titles each."""
    made, count, total = [], TITLES // 5, 0
    for number in range(count):
        name = "abcdefghijklmnopqrstuvwxyz"[:4 + source.getrandbits(4)]
        made += title(Kind.MAP, 2), text("id"), title(Kind.POSITIVE, number), text("name"), text(name)
        total += 1 + len("id") + number + len("name") + len(name)
    return Data(words, b"".join(made), TITLES, total)


def item():
    """Returns an array of maps of four pairs, in the deterministic encoding. The sum is its length."""
    made = [title(Kind.ARRAY, MAPS)]
    for number in range(MAPS):
        made += title(Kind.MAP, 4), text("id"), title(Kind.POSITIVE, number), text("age")
        made += title(Kind.POSITIVE, number % 90), text("name"), text("Hello, World!"), text("email")
        made.append(text(f"user{number}@example.com"))
    made = b"".join(made)
    return Data(ITEM, made, 1 + 9 * MAPS, len(made))


def data_by_name():
    """Returns the data, always the same."""
    source = random.Random(1)
    return {
        "small": integers("small integers", source, [4]),
        "widths": integers("integers of all widths", source, [4, 8, 16, 32, 64]),
        "maps": maps("maps with short texts", source),
        "item": item(),
    }


def rows(folder):
    """Returns all rows. The other side of a row is None if its program is not there."""
    def side(name, work, times=100):
        program = os.path.join(folder, name)
        return Side((program,), work, times) if os.path.exists(program) else None

    def python(work, times):
        return Side((sys.executable, os.path.join(HERE, "works.py")), work, times)

    rust, crate = "rust/release/works_rust", "rust/release/works_beside"
    for data in "small", "widths", "maps":
        yield Row("Python", "`headers`", data, python("headers", 4), "", None)
    for work in "canonical", "deterministic":
        yield Row("Python", f"`{work}`", "item", python(work, 100), "`recode`", python("recode", 100))
    for work, call in ("decoder", "`Decoder`"), ("headers", "`headers`"):
        for data in "small", "widths", "maps":
            yield Row("Rust", call, data, side(rust, work), "the Rust crate", side(crate, "decoder"))
    yield Row("Rust", "`canonical_into`", "item", side(rust, "canonical"), "`recode`", side(rust, "recode"))
    for data in "small", "widths", "maps":
        yield Row("C++", "`headers`", data, side("works_cpp", "headers"), "`cll_headers`", side("works_c", "headers"))
    for data in "small", "widths", "maps":
        yield Row("C", "`cll_headers`", data, side("works_c", "headers"), "`cll_pull` and `cll_utf8`",
                  side("works_c", "pull"))
    for work in "canonical", "deterministic":
        yield Row("C", f"`cll_{work}`", "item", side("works_c", work), "`cll_recode`", side("works_c", "recode"))


def run(side, data, times, before=()):
    """Runs a side over the data. Returns its output, its errors, and its user time in seconds."""
    words = [*before, *side.command, side.work, str(data.titles), str(times)]
    start = resource.getrusage(resource.RUSAGE_CHILDREN).ru_utime
    done = subprocess.run(words, input=data.data, stdout=subprocess.PIPE, stderr=subprocess.PIPE, check=False)
    if done.returncode != 0:
        raise SystemExit(f"{words}: status {done.returncode}: {done.stderr.decode()}")
    return done.stdout.strip(), done.stderr.decode(), resource.getrusage(resource.RUSAGE_CHILDREN).ru_utime - start


def agree(sides, data):
    """Ends the program if a side gives another sum than that of the data."""
    for side in sides:
        # The package for Python does not sum what it only goes over.
        work = "sum" if side.work == "headers" and side.command[0] == sys.executable else side.work
        given = run(side._replace(work=work), data, 1)[0].decode()
        if given != str(data.sum):
            raise SystemExit(f"{side.command} {work} over {data.words} gives {given}, and not {data.sum}")


def best_times(sides, data, rounds):
    """Returns the least seconds of the sides for the work once, which run by turns."""
    best = [[float("inf")] * 2 for _ in sides]
    for _ in range(rounds):
        for side, least in zip(sides, best):
            for place, times in enumerate((0, side.times)):
                least[place] = min(least[place], run(side, data, times)[2])
    # No time is less than a tenth of a millisecond here.
    return [max(least[1] - least[0], 1e-4) / side.times for side, least in zip(sides, best)]


@functools.lru_cache(None)
def instructions(side, data):
    """Returns how many instructions the work takes once, the system's not counted. It is None without valgrind."""
    if not shutil.which("valgrind"):
        return None
    before = ["valgrind", "--tool=cachegrind", "--cache-sim=no", "--cachegrind-out-file=/dev/null"]
    counts = []
    for times in 1, 2:
        counted = re.search(r"refs:\s*([0-9,]+)", run(side, data, times, before)[1])
        counts.append(int(counted[1].replace(",", "")))
    return counts[1] - counts[0]


def line_of(row, data, rounds):
    """Measures a row, and returns its line of the table."""
    sides = [side for side in (row.ours, row.other) if side]
    agree(sides, data)
    times = best_times(sides, data, rounds)
    counts = [instructions(side, data) for side in sides]
    speeds = [f"{len(data.data) / 1e6 / time:.1f}" for time in times]
    by_time = by_count = beside = "-"
    if row.other:
        beside, by_time = row.beside, f"{times[1] / times[0]:.2f}"
        by_count = f"{counts[1] / counts[0]:.2f}" if counts[0] else "-"
    else:
        speeds.append("-")
    by_title = f"{counts[0] / data.titles:.0f}" if counts[0] else "-"
    cells = [row.language, row.call, data.words, beside, *speeds, by_time, by_count]
    return f"| {' | '.join(cells)} | {data.titles / 1e6 / times[0]:.1f} | {by_title} |"


def main():
    """Prints the table."""
    words = argparse.ArgumentParser(prog="verify/compare/bindings")
    words.add_argument("--rounds", type=int, default=9)
    words.add_argument("--rows", default="")
    words.add_argument("folder")
    asked = words.parse_args()
    data = data_by_name()
    # No hash of Python may change the count of instructions.
    os.environ["PYTHONHASHSEED"] = "0"
    print("| language | call | over | beside | ours, MB/s | other, MB/s | by time | by instructions "
          "| ours, million titles/s | ours, instructions a title |")
    print("|---|---|---|---|---|---|---|---|---|---|")
    for row in rows(asked.folder):
        if row.ours and asked.rows in f"{row.language} {row.call} {data[row.data].words} {row.beside}":
            print(line_of(row, data[row.data], asked.rounds), flush=True)


main()

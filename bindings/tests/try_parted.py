#!/usr/bin/env python3
"""Tries bindings/python/examples/parted.py over a cluster of two processes, with a worker that dies, with faults and
with an index.

usage: try_parted.py FOLDER

The program makes FOLDER. The folder of the example is in the path of Python, also for the workers.
"""
import contextlib
import io
import os
import signal
import sys

import ciborium_ll
import parted
from dask.distributed import Client

# An item, and its shortest spelling. It is an array of a number in a long spelling and a string of 1,024 bytes.
ITEM = b"\x82\x19\x00\x02\x59\x04\x00" + b"x" * 1024
SHORTEST = b"\x82\x02" + ITEM[4:]
COUNT = 3000


def dies_once(part, copies):
    """Works as a worker that dies at the second part. Another worker then gets that part."""
    died = f"{part.name}.died"
    if part.start > 0 and not os.path.exists(died):
        with open(died, "x"):
            os.kill(os.getpid(), signal.SIGKILL)
    return whole_work(part, copies)


def said(client, path, out=None):
    """Returns the lines printed for a path, and whether there is no fault."""
    lines = io.StringIO()
    with contextlib.redirect_stdout(lines):
        whole = parted.go(client, path, out)
    return lines.getvalue().replace(path, "").splitlines(), whole


def is_same(got, want):
    if got != want:
        sys.exit(f"try_parted.py: {got} in place of {want}")


def tries(client, folder):
    def put(name, data):
        with open(os.path.join(folder, name), "wb") as file:
            file.write(data)
        return os.path.join(folder, name)

    items = put("items", ITEM * COUNT)
    parted.work = dies_once
    is_same(said(client, items, f"{items}.out"), ([f": {COUNT} items"], True))
    is_same(os.path.exists(f"{items}.died"), True)
    with open(f"{items}.out", "rb") as file:
        is_same(file.read() == SHORTEST * COUNT, True)
    parted.work = whole_work

    # A fault is that of a walk over all of the file.
    damaged = ITEM * COUNT + b"\x82\x05\xff"
    place = len(damaged) - 1
    is_same(said(client, put("damaged", damaged)), ([f": break_due at {place}"], False))
    try:
        ciborium_ll.skip(damaged, 256, len(ITEM) * COUNT)
    except ciborium_ll.Error as error:
        is_same((error.name, error.place), ("break_due", place))

    # An index, and one that cuts an item.
    put("items.index", b"%d\n%d\n" % (len(ITEM) * 1000, len(ITEM) * 2000))
    is_same(said(client, items), ([f": {COUNT} items"], True))
    put("items.index", b"%d\n" % (len(ITEM) * 1000 + 1))
    is_same(said(client, items), ([f": short at {len(ITEM) * 1000 + 1}"], False))

    os.mkdir(os.path.join(folder, "files"))
    put("files/a", b"\x05\x06")
    put("files/b", b"")
    put("files/c", b"\x05\x1c")
    is_same(said(client, os.path.join(folder, "files"), os.path.join(folder, "copies")), (
        ["/a: 2 items", "/b: 0 items", "/c: syntax at 1"], False))


whole_work = parted.work

if __name__ == "__main__":
    os.mkdir(sys.argv[1])
    with parted.local_cluster(2) as cluster, Client(cluster) as client:
        tries(client, sys.argv[1])
    print("parted")

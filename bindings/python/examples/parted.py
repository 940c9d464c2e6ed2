#!/usr/bin/env python3
# SPDX-License-Identifier: Apache-2.0
"""Checks files of CBOR, or copies them to their shortest spelling, by as many workers as there are, over Dask.

usage: parted.py WORKERS check PATH
       parted.py WORKERS copy PATH OUT

WORKERS is a number of processes to start on this machine, or the address of a scheduler, as tcp://HOST:8786. PATH is a
file, which is a sequence of items, or a folder of such files. OUT is then a file or a folder too. Each worker reads the
files by the same names, and has the package ciborium_ll.

The program cuts a sequence into parts at the ends of items, and each worker takes parts. A part is whole items if the
parts before it are. So together the workers answer as one walk over the whole file does. One walk finds the offsets of
the cuts, and that walk is the whole check. The offsets may also come from `FILE.index`, one in each line. If they are
wrong, a part has a fault. If a worker dies, another one does its part again.

For each file a line says how many items it has, or its first fault, with the offset. The status is 0 if no file has a
fault, and 1 otherwise.
"""
import collections
import logging
import mmap
import os
import sys

import ciborium_ll
from dask.distributed import Client, LocalCluster

DEPTH = 256
# A part has about this many bytes.
PART = 1 << 20

Part = collections.namedtuple("Part", "name start end")
Answer = collections.namedtuple("Answer", "items data fault place")


def work(part, copies):
    """Checks in a worker that a part is whole items, or copies them. Offsets count from the start of the file."""
    with open(part.name, "rb") as file:
        file.seek(part.start)
        data = file.read(part.end - part.start)
    items = at = 0
    fault = place = None
    try:
        while at < len(data):
            # The part cuts an item that goes on after its end.
            at += ciborium_ll.skip(data, DEPTH, at)
            items += 1
    except ciborium_ll.Error as error:
        fault, place = error.name, part.start + error.place
    # Copies all elements of the whole items before the fault.
    out = ciborium_ll.Copier(2**64 - 1).feed(data[:at]).data if copies else b""
    return Answer(items, out, fault, place)


def cuts_of(name, size):
    """Gives the offsets at which a file is cut: those of its index, or ends of items up to the first fault."""
    if os.path.exists(f"{name}.index"):
        with open(f"{name}.index") as lines:
            yield from map(int, lines)
        return
    with open(name, "rb") as file, mmap.mmap(file.fileno(), 0, access=mmap.ACCESS_READ) as data:
        at = last = 0
        while at < size:
            try:
                at += ciborium_ll.skip(data, DEPTH, at)
            except ciborium_ll.Error:
                return
            if at - last >= PART:
                yield at
                last = at


def parts_of(name):
    """Gives the parts of a file, in order. An empty file has none."""
    size, start = os.path.getsize(name), 0
    for cut in cuts_of(name, size) if size > PART else ():
        if start < cut < size:
            yield Part(name, start, cut)
            start = cut
    if start < size:
        yield Part(name, start, size)


def answers(client, parts, copies):
    """Gives the answers of the workers, in the order of the parts.

    No more parts are on their way than keep the workers busy.
    """
    ahead = collections.deque()
    for part in parts:
        ahead.append(client.submit(work, part, copies, pure=False))
        while len(ahead) > 4 * max(1, len(client.nthreads())):
            yield ahead.popleft().result()
    while ahead:
        yield ahead.popleft().result()


def go_over(client, name, out=None):
    """Checks a file, or copies it, and prints a line about it. It returns whether there was no fault."""
    items = 0
    for answer in answers(client, parts_of(name), out is not None):
        items += answer.items
        if out is not None:
            out.write(answer.data)
        if answer.fault is not None:
            print(f"{name}: {answer.fault} at {answer.place}")
            return False
    print(f"{name}: {items} items")
    return True


def files_of(path, out):
    """Returns pairs of a file and of the file for its copy."""
    if not os.path.isdir(path):
        return [(path, out)]
    names = sorted(name for name in os.listdir(path) if not name.endswith(".index"))
    return [(os.path.join(path, name), out and os.path.join(out, name)) for name in names]


def go(client, path, out=None):
    """Checks or copies all files of a path. It returns whether none had a fault."""
    whole = True
    if out is not None and os.path.isdir(path):
        os.makedirs(out, exist_ok=True)
    for name, to in files_of(path, out):
        with open(to or os.devnull, "wb") as file:
            whole &= go_over(client, name, file if to else None)
    return whole


def local_cluster(count):
    """Starts ``count`` processes on this machine, with one thread each."""
    return LocalCluster(count, threads_per_worker=1, dashboard_address=None, silence_logs=logging.CRITICAL)


def main(words):
    if len(words) < 3 or len(words) != {"check": 3, "copy": 4}.get(words[1]):
        print(__doc__.partition("usage: ")[2].partition("\n\n")[0], file=sys.stderr)
        return 2
    workers, path, out = words[0], os.path.abspath(words[2]), words[3] if len(words) > 3 else None
    if not workers.isdigit():
        with Client(workers) as client:
            return 0 if go(client, path, out) else 1
    with local_cluster(int(workers)) as cluster, Client(cluster) as client:
        return 0 if go(client, path, out) else 1


if __name__ == "__main__":
    sys.exit(main(sys.argv[1:]))

#!/usr/bin/env python3
# SPDX-License-Identifier: Apache-2.0
"""Checks items of CBOR as they come through a pipe, in an event loop of asyncio, which can serve others meanwhile.

usage: producer | pipe.py

It prints the same as pipe.c. Each item that has ended is a line `item LENGTH`, as soon as its last byte came. A fault
is the last line, with its offset in the item. If the bytes end inside an item, the last line is `short DUE`: at least
that many more bytes were due. The status is 0 if the bytes end between items, and 1 otherwise. Standard input has to be
a pipe or a socket.
"""
import asyncio
import sys

import ciborium_ll

DEPTH = 64
NAMES = {"break_due": "break", "too_deep": "deep"}


async def check(stream):
    """Prints each item of a stream as it ends. It returns whether all of them had ended when the stream did."""
    checker, due = ciborium_ll.Checker(DEPTH), 0
    try:
        while data := await stream.read(4096):
            start = 0
            # A piece may hold several items, and end inside one.
            while start < len(data):
                progress = checker.feed(data, start)
                start, due = start + progress.consumed, progress.due
                if progress.ended:
                    print("item", progress.length, flush=True)
                    checker = ciborium_ll.Checker(DEPTH)
        checker.end()
    except ciborium_ll.ShortError:
        print("short", due)
        return False
    except ciborium_ll.Error as error:
        print(NAMES.get(error.name, error.name), error.place)
        return False
    return True


async def main():
    stream = asyncio.StreamReader()
    protocol = asyncio.StreamReaderProtocol(stream)
    await asyncio.get_running_loop().connect_read_pipe(lambda: protocol, sys.stdin)
    return 0 if await check(stream) else 1


if __name__ == "__main__":
    sys.exit(asyncio.run(main()))

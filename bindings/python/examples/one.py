#!/usr/bin/env python3
# SPDX-License-Identifier: Apache-2.0
"""Tells whether standard input is one whole item of CBOR and nothing more.

A program has to know that before it signs or stores an item.

usage: one.py < FILE

It prints the same as one.c, and has its status.
"""
import sys

import ciborium_ll


def tell(stream):
    """Prints whether the bytes of a stream are one item, and returns the status."""
    checker, due = ciborium_ll.Checker(64), 1
    try:
        while data := stream.read(4096):
            progress = checker.feed(data)
            due = progress.due
            if progress.consumed < len(data):
                print("more", progress.length)
                return 1
    except ciborium_ll.Error as error:
        print("fault", error.place)
        return 1
    # Before the first byte the item has not ended, and `end()` raises nothing, because a sequence may be empty.
    if checker.ended:
        print("item", checker.consumed)
        return 0
    print("short", due)
    return 1


if __name__ == "__main__":
    sys.exit(tell(sys.stdin.buffer))

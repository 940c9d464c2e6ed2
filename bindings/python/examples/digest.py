#!/usr/bin/env python3
# SPDX-License-Identifier: Apache-2.0
"""Prints the SHA-256 of an item of CBOR, exactly if it is the one encoding of its value.

A program that signs items, or finds them by their hash, needs that no other bytes stand for the same value.

usage: digest.py HEX

The status is 1 if the bytes are anything else, and then standard error says why.
"""
import hashlib
import sys

import ciborium_ll


def digest(item):
    """Returns the hash of an item. An ``Error`` says why the bytes are no item in the deterministic encoding."""
    length = ciborium_ll.deterministic(item)
    if length != len(item):
        raise ValueError(f"more at {length}")
    return hashlib.sha256(item).hexdigest()


if __name__ == "__main__":
    try:
        print(digest(bytes.fromhex(sys.argv[1])))
    except ValueError as error:
        sys.exit(f"{error}")

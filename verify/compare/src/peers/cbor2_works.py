#!/usr/bin/python3
# SPDX-License-Identifier: Apache-2.0
"""The works of the calls for C, done by Python's package cbor2.

usage: cbor2_works.py check|copy SIZE COUNT ROUNDS

It reads standard input whole, and does a work on it ROUNDS times. `check` decodes the one item in it. `copy` encodes
the value again. It prints the sum of the lengths.
"""

import sys

import cbor2


def main() -> None:
    """Does the work that the words ask for."""
    work, rounds = sys.argv[1], int(sys.argv[4])
    if work not in ("check", "copy"):
        sys.exit(2)
    data = sys.stdin.buffer.read()
    total = 0
    for _ in range(rounds):
        value = cbor2.loads(data)
        total += len(data) if work == "check" else len(cbor2.dumps(value))
    print(total)


main()

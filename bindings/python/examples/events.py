# SPDX-License-Identifier: Apache-2.0
"""Reads a file of CBOR in pieces of 16 bytes, and prints each header and each part of a text as it comes.

usage: events.py FILE

A header is a line ``OFFSET KIND VALUE``, with ``*`` for an indefinite form, and a close is a line ``OFFSET close``. A
part of a text is a line ``text PART``, and a part of a byte string is ``bytes COUNT``. The last line is ``end``, or the
fault, and the status is then 1.
"""
import sys

import ciborium_ll


def tell(event):
    """Prints an event."""
    if isinstance(event, ciborium_ll.Began):
        kind, value = event.header
        print(event.place, kind.name.lower(), "*" if value is None else value)
    elif isinstance(event, ciborium_ll.Closed):
        print(event.place, "close")
    elif isinstance(event.data, str):
        print("text", event.data)
    else:
        print("bytes", len(event.data))


def main():
    """Prints the events of a file."""
    if len(sys.argv) != 2:
        sys.exit("usage: events.py FILE")
    with open(sys.argv[1], "rb") as file:
        try:
            for event in ciborium_ll.Parser().events(iter(lambda: file.read(16), b"")):
                tell(event)
        except ciborium_ll.Error as error:
            print(error)
            sys.exit(1)
    print("end")


main()

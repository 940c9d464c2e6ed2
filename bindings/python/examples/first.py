# SPDX-License-Identifier: Apache-2.0
"""Prints the titles of an item, and the offset of one that is not in its shortest spelling."""
import ciborium_ll

data = bytes.fromhex("a161618201190002")
for title in ciborium_ll.headers(data):
    print(title.start, title.header.kind.name, title.header.value)
try:
    ciborium_ll.strict(data, count=5)
except ciborium_ll.Error as error:
    print(error.name, "at", error.place)

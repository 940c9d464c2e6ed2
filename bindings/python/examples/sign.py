#!/usr/bin/env python3
# SPDX-License-Identifier: Apache-2.0
"""Signs an item of CBOR by the one encoding of its value, and checks such a signature (HMAC with SHA-256, RFC 2104).

The signer takes any spelling, and signs and sends the one encoding. The checker refuses any other bytes, also those that
have the same value. So nobody can make a second message out of a signed one.

usage: sign.py sign KEY HEX          prints the encoding and its signature, in hexadecimal
       sign.py check KEY HEX SIGNATURE

The status is 1 if the item or the signature is refused, and then standard error says why. KEY is a text.
"""
import hmac
import sys

import ciborium_ll


def whole(length, item):
    """Refuses bytes that follow an item of that length."""
    if length != len(item):
        raise ValueError(f"more at {length}")


def signature(key, encoding):
    """Returns the signature of an encoding."""
    return hmac.new(key, encoding, "sha256").hexdigest()


def sign(key, item):
    """Returns the one encoding of an item in any spelling, and its signature."""
    whole(ciborium_ll.skip(item, depth=64), item)
    encoding = ciborium_ll.canonical(item, depth=64)
    return encoding, signature(key, encoding)


def check(key, item, given):
    """Refuses an item that is not in the one encoding of its value, and one with another signature."""
    whole(ciborium_ll.deterministic(item, depth=64), item)
    if not hmac.compare_digest(signature(key, item).encode(), given.encode()):
        raise ValueError("another signature")


def main():
    words = sys.argv[1:]
    if len(words) < 3 or (words[0], len(words)) not in (("sign", 3), ("check", 4)):
        sys.exit(__doc__)
    key, item = words[1].encode(), bytes.fromhex(words[2])
    if words[0] == "sign":
        encoding, made = sign(key, item)
        print(encoding.hex(), made)
    else:
        check(key, item, words[3])
        print("signed")


if __name__ == "__main__":
    try:
        main()
    except ValueError as error:
        sys.exit(f"{error}")

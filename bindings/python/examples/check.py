#!/usr/bin/env python3
# SPDX-License-Identifier: Apache-2.0
"""Prints the first title of CBOR in hexadecimal, how far its first item reaches, and its shortest spelling.

usage: check.py LIBRARY HEX

LIBRARY is the shared object that the Makefile links. Only Python's own library is needed.
"""
import ctypes
import sys

KINDS = ("positive", "negative", "bytes", "text", "array", "map", "tag", "simple", "half", "single", "double", "break")
ANSWERS = ("ok", "short", "syntax", "room", "too long", "break due", "too deep", "argument")


class Header(ctypes.Structure):
    _fields_ = [("value", ctypes.c_uint64), ("kind", ctypes.c_uint8), ("indefinite", ctypes.c_uint8)]


class Report(ctypes.Structure):
    _fields_ = [(name, ctypes.c_uint64) for name in ("consumed", "written", "place", "elements", "whole", "spelled")]


def library(name):
    """Returns the library, with the types of its calls."""
    calls = ctypes.CDLL(name)
    size, report = ctypes.c_size_t, ctypes.POINTER(Report)
    calls.cll_pull.argtypes = [ctypes.c_char_p, size, ctypes.POINTER(Header), ctypes.POINTER(size)]
    calls.cll_push.argtypes = [ctypes.POINTER(Header), ctypes.c_char_p, size, report]
    calls.cll_recode.argtypes = [ctypes.c_char_p, size, ctypes.c_uint64, ctypes.c_char_p, size, report]
    calls.cll_strict.argtypes = [ctypes.c_char_p, size, ctypes.c_uint64, report]
    calls.cll_skip.argtypes = [ctypes.c_char_p, size, ctypes.c_uint32, report]
    for call in (calls.cll_pull, calls.cll_push, calls.cll_recode, calls.cll_strict, calls.cll_skip):
        call.restype = ctypes.c_uint32
    return calls


def main():
    if len(sys.argv) != 3:
        print("usage: check.py LIBRARY HEX", file=sys.stderr)
        return 2
    calls = library(sys.argv[1])
    data = bytes.fromhex(sys.argv[2])
    header, consumed, report = Header(), ctypes.c_size_t(), Report()
    answer = calls.cll_pull(data, len(data), ctypes.byref(header), ctypes.byref(consumed))
    value = "*" if header.indefinite else header.value
    if answer != 0:
        print("title", ANSWERS[answer])
    else:
        title = ctypes.create_string_buffer(9)
        calls.cll_push(ctypes.byref(header), title, len(title), ctypes.byref(report))
        print("title", KINDS[header.kind], value, title.raw[: report.written].hex())
    answer = calls.cll_skip(data, len(data), 256, ctypes.byref(report))
    print("item", ANSWERS[answer], report.consumed, report.place)
    out = ctypes.create_string_buffer(len(data) + 1)
    answer = calls.cll_recode(data, len(data), 1, out, len(data), ctypes.byref(report))
    print("element", ANSWERS[answer], report.consumed, report.place, out.raw[: report.written].hex() or "-")
    answer = calls.cll_strict(data, len(data), 1, ctypes.byref(report))
    print("strict", ANSWERS[answer], report.consumed, report.place)
    return 0


if __name__ == "__main__":
    sys.exit(main())

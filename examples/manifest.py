#!/usr/bin/env python3
"""Puts an empty manifest before a topology, as ALSA's own tool `alsatplg` wants it. It needs Python alone.

  manifest.py TOPOLOGY OUT    '-' is standard input or standard output

`sof compile` writes no manifest, and `alsatplg -d` reads no file whose first block is none. A topology that has one is copied as it is.
"""
import struct
import sys

MAGIC = b"CoSA"
ABI, MANIFEST, BODY, HEADER = 5, 8, 112, 36


def manifest():
    """A block whose counts and private data are all zero: its header, the size of its body, and zeros."""
    header = struct.pack("<8I", ABI, 0, MANIFEST, HEADER, 0, BODY, 0, 1)
    return MAGIC + header + struct.pack("<I", BODY) + bytes(BODY - 4)


def with_manifest(data):
    if data[:4] != MAGIC or len(data) < HEADER:
        raise ValueError("it does not begin with a block of a topology")
    has_one = struct.unpack_from("<I", data, 12)[0] == MANIFEST
    return data if has_one else manifest() + data


def opened(name, mode, standard):
    return standard if name == "-" else open(name, mode)


def main(words):
    if len(words) != 2:
        sys.exit(__doc__)
    with opened(words[0], "rb", sys.stdin.buffer) as topology:
        data = topology.read()
    try:
        data = with_manifest(data)
    except ValueError as fault:
        sys.exit(f"{words[0]}: {fault}")
    with opened(words[1], "wb", sys.stdout.buffer) as out:
        out.write(data)


if __name__ == "__main__":
    try:
        main(sys.argv[1:])
    except OSError as fault:
        sys.exit(f"{fault.filename}: {fault.strerror}")

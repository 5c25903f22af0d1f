#!/usr/bin/env python3
"""A firmware that `sof drive .. REQUESTS REPLIES` talks with. It takes every message and does nothing: each reply has the error 0.

  firmware.py REQUESTS REPLIES         says at its end how many messages came after each boot"""
import struct
import sys

BOOT, CUT, REQUEST, REPLY, TICK = 1, 2, 3, 4, 5
REPLY_COMMAND = 0x10000000
requests = open(sys.argv[1], "rb", 0)  # REQUESTS first, as `drive` opens it first: each open of a pipe waits for the other side
replies = open(sys.argv[2], "wb", 0)
boots = []


def take(size):
    """The next bytes, as many as these; fewer only at the end."""
    taken = b""
    while len(taken) < size:
        piece = requests.read(size - len(taken))
        if not piece:
            break
        taken += piece
    return taken


def row(message):
    """The error with which the firmware answers a message: write your rows here."""
    return 0


while len(head := take(8)) == 8:
    kind, size = struct.unpack("<II", head)
    content = take(size)
    if kind == BOOT:
        boots.append(0)  # the content is the size of the heap, in bytes
    if kind == REQUEST:
        boots[-1] += 1
        reply = struct.pack("<IIi", 12, REPLY_COMMAND, row(content))
        replies.write(struct.pack("<II", REPLY, len(reply)) + reply)
print("messages", *boots)

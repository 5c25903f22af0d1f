#!/usr/bin/env python3
"""A driver that talks with the device of `sof serve REQUESTS REPLIES`: it loads the first example, plays ten ticks, and makes a mistake.

  driver.py REQUESTS REPLIES TRACE      TRACE gets all that the two say, for `sof decode` and `sof replay`"""
import struct
import sys

BOOT, REQUEST, TICK = 1, 3, 5
HEAP = 992
MESSAGES = [  # what it does, the command, how many bytes, and each word that is not 0 after its place; None is a tick
    ("host 0", 0x30010000, 76, {12: 1, 16: 1, 28: 36, 48: 2}),
    ("buffer 1", 0x30200000, 44, {8: 1, 12: 12, 16: 1, 28: 768}),
    ("DAI 2", 0x30010000, 80, {8: 2, 12: 2, 16: 1, 28: 36, 48: 2}),
    ("pipeline 3", 0x30100000, 48, {8: 3, 12: 1, 16: 2, 24: 1000}),
    ("join 0 1", 0x30030000, 16, {12: 1}), ("join 1 2", 0x30030000, 16, {8: 1, 12: 2}), ("complete", 0x30130000, 12, {8: 3}),
    ("parameters", 0x60010000, 108, {24: 84, 28: 28, 68: 48000, 72: 131072, 76: 131074, 80: 192, 92: 65536}),
    ("start", 0x60040000, 12, {}), *[None] * 10, ("stop", 0x60050000, 12, {}), ("start", 0x60040000, 12, {}), ("start", 0x60040000, 12, {}),
]
requests, replies, trace = (open(*file) for file in zip(sys.argv[1:], ("wb", "rb", "wb"), (0, -1, -1)))


def tell(kind, content=b""):
    record = struct.pack("<II", kind, len(content)) + content
    trace.write(record)
    requests.write(record)


tell(BOOT, struct.pack("<I", HEAP))
for number, message in enumerate(MESSAGES, 1):
    if message is None:
        tell(TICK)
        continue
    name, command, size, words = message
    content = bytearray(size)
    for at, word in {0: size, 4: command, **words}.items():
        struct.pack_into("<I", content, at, word)
    tell(REQUEST, content)
    trace.write(reply := replies.read(20))  # kind, size, and the reply: its size, its command and its error
    if (error := struct.unpack_from("<i", reply, 16)[0]) != 0:
        sys.exit(print(f"call {number}, {name}: the device refuses it with {error}"))

#!/usr/bin/env python3
"""Makes a trace of a driver's log, for `sof decode` and `sof replay`, or makes what `decode` says shorter. It needs Python alone.

  trace.py LOG OUT.trace [HEAP]    '-' is standard input or standard output
  trace.py requests TRACE OUT      the records of a trace that a driver makes, for `sof serve`: all but replies and losses
  trace.py short [LINES]           what `sof decode` said, with a line for each run of ticks and the time in ms

A line of LOG is a record, or a line of the kernel's log:

  boot HEAP      the device was booted with a heap of so many bytes
  cut            it was cut
  request HEX    a message was sent: its bytes in order, in hex, with or without blanks
  reply HEX      its reply came
  lost           no reply came
  tick           a tick passed

  .. ipc tx: 0x30100000: ..                     a message was sent; this is its command word
  .. Message payload: 00000000: 00000001 ..     its words after the command, four bytes each as a number (with a dump of payloads)
  .. ipc tx succeeded: 0x30100000 ..            its reply says 0 (`ipc tx done` too)
  .. ipc tx error for 0x30100000 ..: -22        its reply says -22
  .. ipc tx timed out for 0x30100000 ..         no reply came

A kernel's log tells neither the heap nor the boot. Where its first record is a message, a boot with HEAP bytes (else 65536) stands before
it. Empty lines, and those that begin with '#', are passed over, and so are all others of a kernel's log.
"""
import re
import struct
import sys

KINDS = {"boot": 1, "cut": 2, "request": 3, "reply": 4, "tick": 5, "lost": 6}
REPLY = 0x10000000
HEAP = 65536

SENT = re.compile(r"ipc tx\s*: 0x([0-9a-fA-F]+)")
PASSED = re.compile(r"ipc tx (?:succeeded|done)\s*: 0x")
REFUSED = re.compile(r"ipc tx error for 0x.*: (-?\d+)\s*$")
LATE = re.compile(r"ipc tx timed out for 0x")
PAYLOAD = re.compile(r"Message payload: [0-9a-fA-F]+:((?: [0-9a-fA-F]{1,8})+)")


def words(*numbers):
    return struct.pack(f"<{len(numbers)}I", *(number & 0xFFFFFFFF for number in numbers))


def record(kind, data=b""):
    return words(KINDS[kind], len(data)) + data


def content(word, rest):
    """The bytes of a record after its kind and size."""
    if word == "boot":
        return words(int(rest))
    if word in ("request", "reply"):
        return bytes.fromhex(rest)
    if rest:
        raise ValueError("nothing stands after this word")
    return b""


class Message:
    """A message of the kernel's log, as far as its lines are read."""

    def __init__(self, command):
        self.payload = words(command)
        self.answer = record("lost")

    def bytes(self):
        whole = words(len(self.payload) + 4) + self.payload
        return record("request", whole) + self.answer


class Log:
    """The records of the lines so far."""

    def __init__(self, heap):
        self.heap, self.done, self.message = heap, [], None

    def flush(self):
        if self.message:
            self.done.append(self.message.bytes())
        self.message = None

    def add(self, data):
        self.flush()
        self.done.append(data)

    def kernel(self, line):
        """Whether a line is one of the kernel's log."""
        if found := SENT.search(line):
            self.flush()
            if not self.done:
                self.done.append(record("boot", words(self.heap)))
            self.message = Message(int(found[1], 16))
        elif not self.message:
            return bool(PAYLOAD.search(line))
        elif found := PAYLOAD.search(line):
            self.message.payload += words(*(int(word, 16) for word in found[1].split()))
        elif PASSED.search(line):
            self.message.answer = record("reply", words(12, REPLY, 0))
        elif found := REFUSED.search(line):
            self.message.answer = record("reply", words(12, REPLY, int(found[1])))
        elif LATE.search(line):
            self.message.answer = record("lost")
        else:
            return False
        return True

    def line(self, line, is_kernels):
        word, _, rest = line.strip().partition(" ")
        if self.kernel(line) or not word or word.startswith("#"):
            return
        if word in KINDS:
            self.add(record(word, content(word, rest.strip())))
        elif not is_kernels:
            raise ValueError(f"'{word}' is no record")


def trace(lines, heap):
    """The bytes of a trace of these lines, or the number of a line and what is wrong with it."""
    is_kernels = any(SENT.search(line) for line in lines)
    log = Log(heap)
    for number, line in enumerate(lines, 1):
        try:
            log.line(line, is_kernels)
        except (ValueError, struct.error) as fault:
            raise ValueError(f"{number}: {fault}") from None
    log.flush()
    return b"".join(log.done)


def short(lines):
    """What `decode` says, with a line for each run of ticks, and before each line the time in ms."""
    at = ticks = 0
    for line in [*lines, ""]:
        line = line.rstrip("\n")
        if line == "tick":
            ticks += 1
            continue
        if ticks:
            yield f"{at:8} ms  tick, {ticks} times" if ticks > 1 else f"{at:8} ms  tick"
            at, ticks = at + ticks, 0
        if line:
            yield f"{at:8} ms  {line}"


def requests(data):
    """The records of a trace but replies and losses."""
    kept, at = [], 0
    while at < len(data):
        kind, size = struct.unpack_from("<II", data, at)
        if kind not in (KINDS["reply"], KINDS["lost"]):
            kept.append(data[at : at + 8 + size])
        at += 8 + size
    return b"".join(kept)


def opened(name, mode, standard):
    return standard if name == "-" else open(name, mode)


def main(given):
    if given[:1] == ["short"] and len(given) <= 2:
        with opened((given + ["-"])[1], "r", sys.stdin) as lines:
            for line in short(lines):
                print(line)
        return
    if given[:1] == ["requests"] and len(given) == 3:
        with opened(given[1], "rb", sys.stdin.buffer) as file:
            data = file.read()
        with opened(given[2], "wb", sys.stdout.buffer) as out:
            out.write(requests(data))
        return
    if len(given) not in (2, 3) or not all(heap.isdigit() for heap in given[2:]):
        sys.exit(__doc__)
    with opened(given[0], "rb", sys.stdin.buffer) as log:
        lines = log.read().decode("utf-8", "replace").split("\n")
    try:
        data = trace(lines, int(given[2]) if given[2:] else HEAP)
    except ValueError as fault:
        sys.exit(f"{given[0]}:{fault}")
    with opened(given[1], "wb", sys.stdout.buffer) as out:
        out.write(data)


if __name__ == "__main__":
    try:
        main(sys.argv[1:])
    except BrokenPipeError:
        sys.stderr.close()
    except OSError as fault:
        sys.exit(f"{fault.filename}: {fault.strerror}")

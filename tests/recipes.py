"""The bytes of files that a case does not keep, since they are large or a line tells better where they come from, by its `made`.

A line is FILE, a blank, a recipe and its arguments; FILE is a path in the case, as `in.raw`, `stdout` or `expected/out.raw`.
A line that begins with '#' is a remark. Several lines of one FILE are joined.

  repeat COUNT HEX       these bytes, so many times
  numbers COUNT BELOW    16-bit numbers that count from 0, and from 0 again before they reach BELOW
  lines FIRST LAST TEXT  a line for each number from FIRST to LAST; `{n}` in TEXT is the number
  text TEXT              one line
  widened SIZE FILE      the 16-bit samples of FILE as 32-bit ones, as far as SIZE bytes go, and then zeros
  section FILE CHANNELS FIRST COUNT NUMBER ..
                         the frames of 16-bit samples of FILE from FIRST on, as 32-bit ones that pass an equaliser's section of these
                         numbers: a2, a1, b2, b1, b0, shift and gain
  faded SAMPLE LENGTH FROM TO FIRST COUNT
                         a 16-bit sample as 32-bit ones, whose gain goes FROM one TO another in LENGTH frames: COUNT frames, from
                         number FIRST on, of which 0 is the first after the values were set; FROM and TO are the gains of the
                         channels, with commas between them
  changed FILE AT HEX    FILE with these bytes at a place
  front COUNT FILE       the first COUNT bytes of FILE
  slice FIRST COUNT FILE COUNT bytes of FILE from byte FIRST on, of which the first is 0
  masked FILE WIDGET CHANNELS LEAST MOST
                         the topology FILE with a control of so many masks at a widget, from LEAST to MOST, which no source can state
  graph NAME             tests/graphs/NAME.tplg
  example NAME           examples/NAME
Of topology.py:
  limits MORE            a topology at every limit but for one buffer, with one more of MORE where it is given
  pairs COUNT            a topology of so many DAIs that capture, each through a buffer to one that plays
  row COUNT              a topology of one stream that plays through so many pipelines, from 2 on
  widget KIND INDEX NAME STREAM TOKEN=VALUE ..
                         a widget in a block of its own; KIND as in a source, '-' for no STREAM, VALUE a number or a text
  outputs FIRST LAST     widgets W0, W1 and so on that a graph does not use, each in a block of its own
  route SOURCE SINK      a route in a block of its own
  pcm NAME NUMBER STREAM a PCM that plays, in a block of its own
"""
import os
import struct

import topology

HERE = os.path.dirname(os.path.abspath(__file__))


def widened(size, samples):
    count = min(len(samples) // 2, size // 4)
    wide = bytearray(size)
    wide[2 : 4 * count : 4] = samples[0 : 2 * count : 2]
    wide[3 : 4 * count : 4] = samples[1 : 2 * count : 2]
    return bytes(wide)


def clipped(number):
    return max(-(2**31), min(2**31 - 1, number))


def sections(samples, channels, numbers):
    """Each channel's samples through a section that begins with zeros."""
    a2, a1, b2, b1, b0, shift, gain = numbers
    passed = list(samples)
    for channel in range(channels):
        x1 = x2 = w1 = w2 = 0
        for i in range(channel, len(samples), channels):
            x = samples[i]
            w = clipped((b0 * x + b1 * x1 + b2 * x2 + a1 * w1 + a2 * w2 + 2**29) // 2**30)
            passed[i] = clipped((w * gain + 2 ** (13 + shift)) // 2 ** (14 + shift))
            x1, x2, w1, w2 = x, x1, w, w1
    return passed


def section(data, channels, first, count, *numbers):
    narrow = struct.unpack(f"<{len(data) // 2}h", data)[channels * first : channels * (first + count)]
    wide = sections([sample * 65536 for sample in narrow], channels, numbers)
    return struct.pack(f"<{len(wide)}i", *wide)


def faded(sample, length, old, new, first, count):
    ends = [(int(x), int(y)) for x, y in zip(old.split(","), new.split(","), strict=True)]
    gains = (x + (y - x) * (j + 1) // length if j < length else y for j in range(first, first + count) for x, y in ends)
    wide = [clipped((sample * 65536 * gain + 2**15) // 2**16) for gain in gains]
    return struct.pack(f"<{len(wide)}i", *wide)


def changed(data, at, new):
    return data[:at] + new + data[at + len(new) :]


def kept(*parts):
    with open(os.path.join(HERE, *parts), "rb") as file:
        return file.read()


def bytes_of(recipe, rest, files):
    if recipe == "repeat":
        count, digits = rest.split()
        return bytes.fromhex(digits) * int(count)
    if recipe == "numbers":
        count, below = (int(word) for word in rest.split())
        return struct.pack(f"<{count}H", *(n % below for n in range(count)))
    if recipe == "lines":
        first, last, text = rest.split(" ", 2)
        return "".join(text.replace("{n}", str(n)) + "\n" for n in range(int(first), int(last) + 1)).encode()
    if recipe == "text":
        return (rest + "\n").encode()
    if recipe == "section":
        file, *words = rest.split()
        return section(files[file], *(int(word) for word in words))
    if recipe == "faded":
        sample, length, old, new, first, count = rest.split()
        return faded(int(sample), int(length), old, new, int(first), int(count))
    if recipe == "widened":
        size, name = rest.split()
        return widened(int(size), files[name])
    if recipe == "changed":
        name, at, digits = rest.split()
        return changed(files[name], int(at), bytes.fromhex(digits))
    if recipe == "slice":
        first, count, name = rest.split()
        return files[name][int(first) : int(first) + int(count)]
    if recipe == "masked":
        file, *rest = rest.split()
        return topology.masked(files[file], *rest)
    if recipe == "front":
        count, name = rest.split()
        return files[name][: int(count)]
    if recipe == "graph":
        return kept("graphs", rest + ".tplg")
    if recipe == "example":
        return kept("..", "examples", rest)
    if recipe in topology.RECIPES:
        return topology.RECIPES[recipe](*rest.split())
    raise ValueError(f"no recipe {recipe!r}")


def make(text, files):
    """The files that the lines of `made` name, by their path in the case."""
    made = {}
    for line in text.split("\n"):
        if line and not line.startswith("#"):
            path, recipe, *rest = line.split(" ", 2)
            data = bytes_of(recipe, "".join(rest), {**files, **made})
            made[path] = made.get(path, b"") + data
    return made

#!/usr/bin/env python3
"""Makes what a script plays, and a WAV of what came out. It needs Python alone.

  sound.py tone OUT.wav HERTZ ..     a second of one tone a channel, of 16 bits
  sound.py raw IN.wav OUT.raw        the samples of a WAV for `in`; says what `params` is to have, and how many ticks play all
  sound.py wav IN.raw OUT.wav BITS   a WAV of what `out` made in s16, s24 or s32, which are BITS 16, 24 and 32
  sound.py low HERTZ                 the blob of an equaliser that keeps the tones below HERTZ, for `bytes`
  sound.py high HERTZ                the blob of one that keeps the tones above

`tone`, `wav`, `low` and `high` take `--rate RATE`, else they have 48000 frames a second. `wav`, `low` and `high` take
`--channels CHANNELS`, else they have 2.
"""
import array
import functools
import math
import struct
import sys
import wave

PCM, EXTENSIBLE = 1, 0xFFFE
BYTES = {"16": 2, "24": 4, "32": 4}  # of a sample in an output


def number(word):
    if not word.isdecimal() or int(word) == 0:
        sys.exit(f"{word}: a whole number above 0 stands here")
    return int(word)


def write(name, channels, width, rate, data):
    with open(name, "wb") as out, wave.open(out) as file:
        file.setparams((channels, width, rate, 0, "NONE", "NONE"))
        file.writeframes(data)


def tone(name, *hertz, rate=48000):
    hertz = [number(h) for h in hertz]
    samples = (8192 * math.sin(2 * math.pi * h * i / rate) for i in range(rate) for h in hertz)
    write(name, len(hertz), 2, rate, struct.pack(f"<{rate * len(hertz)}h", *map(round, samples)))


def samples_of(name):
    """The rate, the channels, the bytes of a sample and the frames of a WAV. Its header may be the longer one that 24 bits have."""
    with open(name, "rb") as file:
        data = file.read()
    at, form = 12, b""
    while data[:4] == b"RIFF" and data[8:12] == b"WAVE" and at + 8 <= len(data):
        part, size = data[at : at + 4], int.from_bytes(data[at + 4 : at + 8], "little")
        inside = data[at + 8 : at + 8 + size]
        if part == b"fmt ":
            form = inside
        if part == b"data" and len(form) >= 16:
            kind, channels, rate, _, frame = struct.unpack("<HHIIH", form[:14])
            if kind == EXTENSIBLE:
                kind = int.from_bytes(form[24:26], "little")
            if kind != PCM or not channels or not rate or frame not in [channels * width for width in (1, 2, 3, 4)]:
                sys.exit(f"{name}: its samples are no whole numbers of 8 to 32 bits")
            return rate, channels, frame // channels, inside[: len(inside) // frame * frame]
        at += 8 + size + size % 2
    sys.exit(f"{name}: no WAV")


def spread(data, width, wider):
    """Samples of some bytes as samples of more, of which these are the upper ones."""
    made = bytearray(len(data) // width * wider)
    for k in range(width):
        made[wider - width + k :: wider] = data[k::width]
    return bytes(made)


def raw(name, out):
    rate, channels, width, data = samples_of(name)
    ticks = -(-1000 * (len(data) // width // channels) // rate)
    if width == 1:  # 8 bits have no sign, and become 16
        data, width = spread(bytes(b ^ 0x80 for b in data), 1, 2), 2
    if width == 3:  # 24 bits become 32
        data, width = spread(data, 3, 4), 4
    with open(out, "wb") as file:
        file.write(data)
    print(f"{rate} {channels} s{8 * width}, {ticks} ticks")


def wav(name, out, bits, rate=48000, channels=2):
    if bits not in BYTES:
        sys.exit(f"{bits}: BITS is 16, 24 or 32")
    with open(name, "rb") as file:
        data = file.read()
    width = BYTES[bits]
    if len(data) % (width * channels):
        sys.exit(f"{name}: its {len(data)} bytes are no frames of {width * channels}")
    samples = array.array({2: "h", 4: "i"}[width], data)
    if bits == "24":  # the fourth byte has the sign alone
        data = b"".join(data[i : i + 3] for i in range(0, len(data), 4))
    write(out, channels, int(bits) // 8, rate, data)
    print("peaks", *(max(map(abs, samples[c::channels]), default=0) for c in range(channels)))


def blob(kind, hertz, rate=48000, channels=2):
    """One section for all channels. The page of formats has the fields; the section adds a1 and a2, so their signs are turned."""
    angle = 2 * math.pi * number(hertz) / rate
    cosine, alpha = math.cos(angle), math.sin(angle) / math.sqrt(2)
    side = 1 - cosine if kind == "low" else 1 + cosine
    b0, b1, a1, a2 = side / 2, side if kind == "low" else -side, 2 * cosine, alpha - 1
    coefficients = (round(c / (1 + alpha) * 2**30) for c in (a2, a1, b0, b1, b0))
    behind = struct.pack(f"<7i{channels}i", 0, channels, 1, *[0] * (4 + channels))
    behind += struct.pack("<6i", 1, 1, 0, 0, 0, 0) + struct.pack("<7i", *coefficients, 0, 16384)
    print((struct.pack("<4s7i", b"SOF\0", 0, len(behind), 0, 0, 0, 0, 0) + behind).hex())


# each form: its function, the least and the most of its words, and its options
FORMS = {
    "tone": (tone, 2, 9, ["rate"]),
    "raw": (raw, 2, 2, []),
    "wav": (wav, 3, 3, ["rate", "channels"]),
    "low": (functools.partial(blob, "low"), 1, 1, ["rate", "channels"]),
    "high": (functools.partial(blob, "high"), 1, 1, ["rate", "channels"]),
}


def main(words):
    function, least, most, takes = FORMS.get(" ".join(words[:1]), (None, 0, 0, []))
    words, options = words[1:], {}
    while len(words) >= 2 and words[-2] in ["--" + option for option in takes]:
        options[words[-2][2:]] = number(words[-1])
        words = words[:-2]
    if function is None or not least <= len(words) <= most:
        sys.exit(__doc__)
    try:
        function(*words, **options)
    except OSError as fault:
        sys.exit(f"{fault.filename}: {fault.strerror}")


main(sys.argv[1:])

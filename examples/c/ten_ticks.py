#!/usr/bin/env python3
"""Plays ten milliseconds through the graph of examples/base.tplg, by ctypes: ten_ticks.py LIBRARY IN OUT. The library is a shared one:

    cc -shared -o libsof_c.so -Wl,--whole-archive ../crates/sof_c/out/libsof_c.a -Wl,--no-whole-archive "$KIT/c/liblibc_c.a"

It exports the functions of sof_c.h whose names end in _unchecked: none of their pointers may be NULL.
"""
import ctypes
import struct
import sys


class Device(ctypes.Structure):
    """A handle: closed where it is made."""

    _fields_ = [("at", ctypes.c_void_p), ("held", ctypes.c_bool)]


class Dsp:
    """A device of the library. A call that is refused raises a RuntimeError with its number."""

    def __init__(self, library, room):
        self.library = ctypes.CDLL(library)
        self.library.sof_c_ticks_unchecked.restype = ctypes.c_uint64
        self.device = Device()
        self.do("new", ctypes.c_uint32(room))

    def do(self, name, *words):
        status = getattr(self.library, f"sof_c_{name}_unchecked")(ctypes.byref(self.device), *words)
        if status:
            raise RuntimeError(f"sof_c_{name}: {status}")

    def free(self):
        self.library.sof_c_free_unchecked(ctypes.byref(self.device))

    def exchange(self, request):
        reply, count = ctypes.create_string_buffer(384), ctypes.c_size_t()
        data = ctypes.create_string_buffer(request, max(len(request), 1))
        self.do("exchange", data, ctypes.c_size_t(len(request)), reply, ctypes.c_size_t(384), ctypes.byref(count))
        return reply.raw[: count.value]

    def fill(self, slot, piece):
        data = ctypes.create_string_buffer(piece, max(len(piece), 1))
        self.do("fill", ctypes.c_uint32(slot), data, ctypes.c_size_t(len(piece)))

    def read(self, slot):
        out, count = ctypes.create_string_buffer(61440), ctypes.c_size_t()
        self.do("read", ctypes.c_uint32(slot), out, ctypes.c_size_t(61440), ctypes.byref(count))
        return out.raw[: count.value]


def message(command, size, **words):
    """A message of so many bytes, with words at places: at8=1 is the word 1 at byte 8."""
    data = bytearray(size)
    struct.pack_into("<II", data, 0, size, command)
    for place, word in words.items():
        struct.pack_into("<I", data, int(place[2:]), word)
    return bytes(data)


def small_graph():
    yield message(0x30010000, 76, at8=0, at12=1, at16=1, at28=36, at48=2)
    yield message(0x30200000, 44, at8=1, at12=12, at16=1, at28=768)
    yield message(0x30010000, 80, at8=2, at12=2, at16=1, at28=36, at48=2)
    yield message(0x30100000, 48, at8=3, at12=1, at16=2, at24=1000)
    yield message(0x30030000, 16, at8=0, at12=1)
    yield message(0x30030000, 16, at8=1, at12=2)
    yield message(0x30130000, 12, at8=3)
    # 48000 frames a second; at 72 the tag and two channels, at 76 two valid bytes of two, at 92 the channels' map
    yield message(0x60010000, 108, at24=84, at28=28, at68=48000, at72=2 << 16, at76=2 | 2 << 16, at80=192, at92=1 << 16)
    yield message(0x60040000, 12, at8=0)


def main(library, source, target):
    dsp = Dsp(library, 65536)
    dsp.do("add_input", ctypes.c_uint32(0))
    dsp.do("add_output", ctypes.c_uint32(2))
    dsp.do("boot", ctypes.c_uint32(65536))
    for request in small_graph():
        error = struct.unpack_from("<i", dsp.exchange(request), 8)[0]
        if error:
            sys.exit(f"error {error} to {request.hex()}")
    with open(source, "rb") as file:
        dsp.fill(0, file.read(1048576))
    with open(target, "wb") as file:
        for _tick in range(10):
            dsp.do("tick")
            file.write(dsp.read(2))
    print(dsp.library.sof_c_ticks_unchecked(ctypes.byref(dsp.device)), "ticks")
    dsp.free()


if __name__ == "__main__":
    if len(sys.argv) != 4:
        sys.exit(__doc__)
    main(*sys.argv[1:])

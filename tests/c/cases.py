#!/usr/bin/env python3
"""Tries the library for C on the cases of tests/cases, and says what differs.

  tests/c/cases.py LIBRARY [TRACE ..]    the shared library; with traces: on these alone

A topology of a case of `check` counts where the case has its file, and the program is to say what it has and needs, or what is wrong with
it. Each trace that a case is to write counts, and each that it reads and the program replays: a device of the library is booted, cut, sent
messages and given ticks record by record, and has to give the replies of the trace. The last line is 'N passed, N failed'.
"""
import ctypes
import os
import struct
import sys

HERE = os.path.dirname(os.path.abspath(__file__))
CASES = os.path.join(HERE, "..", "cases")
sys.dont_write_bytecode = True
sys.path.insert(0, os.path.join(HERE, ".."))
import recipes  # noqa: E402

COUNTS = ("pipelines", "components", "buffers", "routes", "streams", "controls")
FAULTS = ["", "truncated", "magic", "abi", "header", "payload", "name", "control", "tokens"]


class Verdict(ctypes.Structure):
    _fields_ = [
        ("status", ctypes.c_uint32),
        ("cause", ctypes.c_uint32),
        ("number", ctypes.c_uint32),
        ("reserved", ctypes.c_uint32),
        ("at", ctypes.c_uint64),
        *((name, ctypes.c_uint64) for name in ("need", *COUNTS)),
    ]


def files_of(folder):
    found = {}
    for name in os.listdir(folder):
        path = os.path.join(folder, name)
        if os.path.isfile(path):
            found[name] = read(path)
    return found


def lines_of(verdict):
    """The lines that the program is to say of a verdict."""
    if verdict.status == 0:
        return [f"{name} {getattr(verdict, name)}" for name in (*COUNTS, "need")]
    if verdict.status == 11:
        number = f" {verdict.number}" if FAULTS[verdict.cause] in ("abi", "control") else ""
        return [f"topology {FAULTS[verdict.cause]} {verdict.at}{number}"]
    if verdict.status == 12:
        return [f"topology rule {verdict.cause} {verdict.at}"]
    return [f"status {verdict.status}"]


class Device(ctypes.Structure):
    _fields_ = [("at", ctypes.c_void_p), ("held", ctypes.c_bool)]


def records(trace):
    at = 0
    while at < len(trace):
        kind, size = struct.unpack_from("<II", trace, at)
        yield kind, trace[at + 8 : at + 8 + size]
        at += 8 + size


def first_wrong(library, trace):
    """The number of the first record at which a device of the library differs, or 0. A lost reply has no record to compare."""
    device, reply, count = Device(), ctypes.create_string_buffer(384), ctypes.c_size_t()
    call = lambda name, *words: getattr(library, f"sof_c_{name}_unchecked")(ctypes.byref(device), *words)
    assert call("new", ctypes.c_uint32(16777216)) == 0
    given = None
    for number, (kind, data) in enumerate(records(trace), 1):
        if kind == 1:
            right = call("boot", ctypes.c_uint32(struct.unpack("<I", data)[0])) == 0
        elif kind == 2:
            right = call("cut") == 0
        elif kind == 3:
            request = ctypes.create_string_buffer(data, max(len(data), 1))
            status = call("exchange", request, ctypes.c_size_t(len(data)), reply, ctypes.c_size_t(384), ctypes.byref(count))
            right, given = status == 0, reply.raw[: count.value]
        elif kind == 4:
            right = given == data
        else:
            right = kind == 6 or call("tick") == 0
        if not right:
            break
    else:
        number = 0
    call("free")
    return number


def try_trace(library, name, trace):
    """What differs of a trace, or None."""
    number = first_wrong(library, trace)
    return f"{name}: record {number}" if number else None


def try_check(library, name, data, expected):
    """What differs of a topology, or None."""
    verdict = library.sof_c_check_unchecked(ctypes.create_string_buffer(data, max(len(data), 1)), ctypes.c_size_t(len(data)))
    lines = lines_of(verdict)
    return None if lines == expected else f"{name}: {lines}, not {expected}"


def try_case(library, words, files):
    """What differs of each topology and trace of a case, or None of each."""
    said = files.get("stdout", b"").decode(errors="replace").splitlines()
    data = files.get(words[1]) if len(words) == 2 else None
    if words[0] == "check" and data is not None and said and said[-1].startswith(("need ", "topology ")):
        yield try_check(library, words[1], data, said)
    if words[0] == "replay" and data is not None and files["status"].strip() == b"0":
        yield try_trace(library, words[1], data)
    for name in sorted(files):
        if name.startswith("expected/") and name.endswith(".trace") and files[name]:
            yield try_trace(library, name, files[name])


def cases():
    """The name of each case, its words and its files."""
    for folder, _below, names in sorted(os.walk(CASES)):
        if "words" in names:
            files = files_of(folder)
            words = files["words"].decode(errors="replace").split("\n")[:-1]
            if words[:1] in (["check"], ["trace"], ["replay"]):
                files.update(recipes.make(files.pop("made", b"").decode(), files))
                yield os.path.relpath(folder, CASES), words, files


def read(path):
    with open(path, "rb") as file:
        return file.read()


def main(path, traces):
    library = ctypes.CDLL(path)
    library.sof_c_check_unchecked.restype = Verdict
    tried = [(".", try_trace(library, trace, read(trace))) for trace in traces]
    if not traces:
        tried = [(case, wrong) for case, words, files in cases() for wrong in try_case(library, words, files)]
    failed = [f"FAILED {case}: {wrong}" for case, wrong in tried if wrong]
    print("\n".join([*failed, f"{len(tried) - len(failed)} passed, {len(failed)} failed"]))
    return bool(failed) or not tried


if __name__ == "__main__":
    if len(sys.argv) < 2:
        sys.exit(__doc__)
    sys.exit(main(sys.argv[1], sys.argv[2:]))

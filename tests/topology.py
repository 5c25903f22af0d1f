"""Spells topology files, as docs/FORMATS.md says, apart from the program: single blocks, and graphs at the limits of a topology."""
import struct

KINDS = {
    "output": 1,
    "mux": 2,
    "mixer": 3,
    "pga": 4,
    "aif_in": 11,
    "aif_out": 12,
    "dai_in": 13,
    "dai_out": 14,
    "buffer": 16,
    "scheduler": 17,
    "effect": 18,
}
MIXER, VOLUME, HOST, DAI, BUFFER, SCHEDULER = 3, 4, 11, 14, 16, 17
SIZE, PERIOD, FORMAT = 100, 200, 402
FORMATS = 4 | 64 | 1024  # s16, s24 and s32


def words(*values):
    return struct.pack(f"<{len(values)}I", *(value % 2**32 for value in values))


def name(text):
    return text.encode().ljust(44, b"\0")


def block(kind, index, records):
    payload = b"".join(records)
    return words(0x41536F43, 5, 0, kind, 36, 0, len(payload), index, len(records)) + payload


def numbers(tokens):
    pairs = [word for token in sorted(tokens) for word in (token, tokens[token])]
    return words(12 + 8 * len(tokens), 4, len(tokens), *pairs) if tokens else b""


def texts(tokens):
    items = b"".join(words(token) + name(tokens[token]) for token in sorted(tokens))
    return words(12 + 48 * len(tokens), 1, len(tokens)) + items if tokens else b""


def volume_control(text, channels, least, most, tlv):
    head = words(204, 1) + name(text) + words(0, 0, 0, 1, 136, 1, *tlv, *[0] * (32 - len(tlv)))
    body = words(360, least, most, most, 0, channels, *[16, 0, 0, 0] * 8, 0)
    return head + body


def widget(kind, index, text, stream="", tokens={}, format_text=None, control=b"", named={}):
    private = numbers(tokens) + texts({FORMAT: format_text} if format_text else named)
    record = words(132, kind) + name(text) + name(stream) + bytes(28) + words(1 if control else 0, len(private))
    return block(5, index, [record + private + control])


def masked(data, text, channels, least, most):
    """A topology file with a control of masks at the widget of this name, which is alone in its block and has no control yet."""
    parts, at = [], 0
    while at < len(data):
        kind, _, _, size = struct.unpack_from("<4I", data, at + 12)
        head, records = data[at : at + 36], data[at + 36 : at + 36 + size]
        at += 36 + size
        if kind == 5 and records[8:52] == name(text):
            control = volume_control("Masks", int(channels), int(least), int(most), ())
            records = records[:124] + words(1) + records[128:] + control
            head = head[:24] + words(len(records)) + head[28:]
        parts.append(head + records)
    return b"".join(parts)


def routes(pairs):
    return block(4, 0, [name(sink) + name("") + name(source) for source, sink in pairs])


def pcm(text, number, stream):
    """A PCM that plays 8000 to 192000 frames a second of 1 to 8 samples."""
    streams = b"".join(words(72) + bytes(68) for _ in range(8))
    caps = words(104) + name(stream) + struct.pack("<Q", FORMATS) + words(0, 8000, 192000, 1, 8, *[0] * 7)
    none = words(104) + bytes(100)
    record = words(912) + name(text) + name(text) + words(number, number, 1, 0, 0) + streams + words(0) + caps + none
    return block(7, 0, [record + words(0, 0, 0)])


def spelled_widget(kind, index, text, stream, *tokens):
    stated = dict(token.split("=") for token in tokens)
    numbers_of = {int(token): int(value) for token, value in stated.items() if value.isdigit()}
    texts_of = {int(token): value for token, value in stated.items() if not value.isdigit()}
    return widget(KINDS[kind], int(index), text, "" if stream == "-" else stream, numbers_of, named=texts_of)


def dai_pairs(count):
    """So many DAIs that capture, each through a buffer to a DAI that plays, in one pipeline."""
    widgets, edges = [], []
    for k in range(int(count)):
        parts = (KINDS["dai_in"], f"FROM{k}", {}), (BUFFER, f"B{k}", {SIZE: 64}), (DAI, f"TO{k}", {})
        widgets += [widget(kind, 1, text, tokens=tokens) for kind, text, tokens in parts]
        edges += [(f"FROM{k}", f"B{k}"), (f"B{k}", f"TO{k}")]
    widgets.append(widget(SCHEDULER, 1, "PIPE1", "FROM0", {PERIOD: 1000}))
    return b"".join(widgets) + routes(edges)


def pipelines_in_a_row(count):
    """A host in the first of so many pipelines, a DAI in the last, and a volume with a control in each between.

    A buffer in each pipeline but the last leads to the next.
    """
    last = int(count) - 1
    widgets, edges = [], []
    for k in range(last + 1):
        text = "PCM0P" if k == 0 else "DAI0" if k == last else f"VOL{k}"
        kind = HOST if k == 0 else DAI if k == last else VOLUME
        control = volume_control("Level", 2, 0, 32, (-6400, 200, 1)) if kind == VOLUME else b""
        widgets.append(widget(kind, k + 1, text, "P0" if k == 0 else "", control=control))
        if k < last:
            widgets.append(widget(BUFFER, k + 1, f"B{k}", tokens={SIZE: 768}))
            edges.append((text, f"B{k}"))
            edges.append((f"B{k}", "DAI0" if k + 1 == last else f"VOL{k + 1}"))
        widgets.append(widget(SCHEDULER, k + 1, f"PIPE{k + 1}", text, {PERIOD: 1000}))
    return b"".join(widgets) + routes(edges) + pcm("Main", 0, "P0")


def at_the_limits(more=""):
    """16 hosts, each through four volumes and two mixers, and a row of mixers from chain to chain to one DAI.

    It has 32 pipelines, 128 components, 127 buffers, 16 PCMs and 64 controls. `more` names what it has one more of than is
    right: a pipeline, a component, a buffer (129), a PCM or a control.
    """
    widgets, edges = [], []

    def join(source, sink, index):
        buffer = f"B{len(edges)}"
        widgets.append(widget(BUFFER, index, buffer, tokens={SIZE: 768}))
        edges.append((source, buffer, sink))

    row = None
    for chain in range(16):
        first, second = 2 * chain + 1, 2 * chain + 2
        host = f"PCM{chain}P"
        parts = [(HOST, host, first)]
        parts += [(VOLUME, f"VOL{chain}.{k}", first if k < 2 else second) for k in range(4)]
        parts += [(MIXER, f"MIX{chain}.{k}", second) for k in range(2)]
        if more == "control" and chain == 0:
            parts[-1] = (VOLUME, *parts[-1][1:])
        for kind, text, index in parts:
            stream = f"P{chain}" if kind == HOST else ""
            control = volume_control("Level", 2, 0, 32, (-6400, 200, 1)) if kind == VOLUME else b""
            widgets.append(widget(kind, index, text, stream, control=control))
        for (_, source, index), (_, sink, _) in zip(parts, parts[1:]):
            join(source, sink, index)
        for index, sname in ((first, host), (second, f"VOL{chain}.2")):
            widgets.append(widget(SCHEDULER, index, f"PIPE{index}", sname, {PERIOD: 1000}))
        last = f"MIX{chain}.1"
        if row is None:
            row = last
            continue
        join_here = f"ROW{chain}"
        widgets.append(widget(MIXER, second, join_here))
        join(row, join_here, second)
        join(last, join_here, second)
        row = join_here
    widgets.append(widget(DAI, 32, "DAI0", format_text="s32le"))
    join(row, "DAI0", 32)
    if more == "pipeline":
        widgets.append(widget(SCHEDULER, 33, "PIPE33", "PCM0P", {PERIOD: 1000}))
    if more == "component":
        widgets.append(widget(MIXER, 32, "ALONE"))
    if more == "buffer":
        widgets += [widget(BUFFER, 32, f"ALONE{k}", tokens={SIZE: 768}) for k in range(2)]
    pairs = [pair for source, buffer, sink in edges for pair in ((source, buffer), (buffer, sink))]
    pcms = [pcm(f"Main {k}", k, f"P{k}") for k in range(17 if more == "pcm" else 16)]
    return b"".join(widgets) + routes(pairs) + b"".join(pcms)


RECIPES = {
    "outputs": lambda first, last: b"".join(widget(KINDS["output"], 0, f"W{n}") for n in range(int(first), int(last) + 1)),
    "limits": at_the_limits,
    "pairs": dai_pairs,
    "row": pipelines_in_a_row,
    "widget": spelled_widget,
    "route": lambda source, sink: routes([(source, sink)]),
    "pcm": lambda text, number, stream: pcm(text, int(number), stream),
}

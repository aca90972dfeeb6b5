"""Readable orders and their bytes."""
import re
import struct

from reading.text import Wrong, shown, text_of

# command byte, words, number: d a float, B a byte, I 32 bits, empty for none
COMMANDS = [
    (1, "amplitude", "d"),
    (2, "level", "B"),
    (3, "max time", "d"),
    (4, "interval", "d"),
    (5, "dx level", "B"),
    (6, "skip", "B"),
    (7, "begin", ""),
    (8, "advance", "I"),
    (9, "end", ""),
]
BY_CODE = {code: (name, kind) for code, name, kind in COMMANDS}
HEX = re.compile(r"[0-9A-Fa-f]{16}")


def bytes_of(data):
    """The bytes of a readable order, itself given as bytes."""
    out = b""
    for number, line in enumerate(text_of(data).split("\n"), 1):
        line = line.split("#")[0].strip()
        if line:
            try:
                out += line_bytes(line)
            except (ValueError, struct.error):
                raise Wrong(f"line {number} is no command, or its number does not fit: {shown(line)}") from None
    return out


def line_bytes(line):
    words = line.split()
    if words[0] == "bytes":
        return bytes(int(word, 16) for word in words[1:])
    for code, name, kind in COMMANDS:
        named = name.split()
        if words[: len(named)] == named and len(words) == len(named) + len(kind):
            if kind == "d":
                return bytes([code]) + float_bytes(words[-1])
            return bytes([code]) + (struct.pack("<" + kind, int(words[-1])) if kind else b"")
    raise ValueError


def float_bytes(text):
    if HEX.fullmatch(text):
        return struct.pack("<Q", int(text, 16))
    if text == "nan":
        return struct.pack("<Q", 0x7FF8000000000000)
    x = float(text)
    if abs(x) == float("inf") and text.lstrip("+-") != "inf":
        raise ValueError
    return struct.pack("<d", x)


def float_text(bits):
    x = struct.unpack("<d", struct.pack("<Q", bits))[0]
    return f"{bits:016X}" if x != x else repr(x)


def lines_of(data):
    """The lines of a readable order with these bytes; of a damaged one as far as it goes, then `Wrong`."""
    at, fault, ended = 0, None, False
    while at < len(data) and fault is None and not ended:
        name, kind = BY_CODE.get(data[at], (None, ""))
        size = struct.calcsize("<" + kind)
        operand = data[at + 1 : at + 1 + size]
        if name is None:
            fault = f"at byte {at}: {data[at]:02X} is no command"
        elif len(operand) < size:
            fault = f"at byte {at}: `{name}` has {len(operand)} of the {size} bytes of its number"
        else:
            number = struct.unpack("<" + kind.replace("d", "Q"), operand)
            yield " ".join([name] + [float_text(n) if kind == "d" else str(n) for n in number])
            ended = data[at] == 9
            at += 1 + size
    rest = data[at:]
    for k in range(0, len(rest), 32):
        yield "bytes " + " ".join(f"{b:02X}" for b in rest[k : k + 32])
    if fault is None and not ended:
        fault = f"at byte {at}: the order ends without `end`"
    elif fault is None and rest:
        fault = f"at byte {at}: {len(rest)} bytes after `end`"
    if fault:
        raise Wrong(fault)

"""The lines that document 01 lets the program print."""
import re
import struct
from typing import NamedTuple

from reading.readable import float_text
from reading.text import Wrong, shown, text_of

MOST_STEPS = 2147483647
DECIMAL = r"(0|[1-9][0-9]{0,9})"
FLOAT = r"(?:7FF8000000000000|(?![7F]FF(?!0{13}))[0-9A-F]{16})"  # a NaN only so
FRAME = re.compile(r"frame((?: [0-9A-F]{16})+)")
NAN = re.compile(r" [7F]FF(?!0{13})")
OUTCOME = re.compile(rf"(collapse|timeout|broken|spent) {DECIMAL} ({FLOAT}) ({FLOAT}|none)")
REFUSAL = re.compile(rf"refused (?:([1-4]) {DECIMAL}|(5|6|7|8|11|13|14))")
VECTORS = ["field", "radial gradient", "conj momentum", "mass", "radial factor", "lapse", "char speed", "energy density"]


class Frame(NamedTuple):
    numbers: list  # as printed


class Outcome(NamedTuple):
    name: str
    steps: int
    time: str
    mass: str


class Refusal(NamedTuple):
    number: int
    position: int = None

    def __str__(self):
        return f"refused {self.number}" + ("" if self.position is None else f" {self.position}")


def frame_size(dx_level):
    return 2 + 9 * (2**dx_level + 1)


# the dx levels of levels up to 7
SIZES = {frame_size(d) for d in range(8)}


def value(float_digits):
    return struct.unpack(">d", bytes.fromhex(float_digits))[0]


def parsed(line):
    """The line, given as bytes with its newline, as a Frame, an Outcome or a Refusal."""
    if not line.endswith(b"\n"):
        raise Wrong(f"it has no newline, the output is cut in it: {shown(text_of(line[:80]))}")
    text = text_of(line[:-1])
    found = frame(text) or outcome(text) or refusal(text)
    if found is None:
        raise Wrong(f"01 does not allow it: {shown(text)}")
    return found


def frame(text):
    if not FRAME.fullmatch(text):
        return None
    numbers = text.split(" ")[1:]
    if len(numbers) not in SIZES:
        raise Wrong(f"no frame has {len(numbers)} numbers")
    if NAN.search(text):
        raise Wrong("no frame has a NaN")
    return Frame(numbers)


def outcome(text):
    match = OUTCOME.fullmatch(text)
    if not match or (match[1] == "collapse") == (match[4] == "none") or int(match[2]) > MOST_STEPS:
        return None
    return Outcome(match[1], int(match[2]), match[3], match[4])


def refusal(text):
    match = REFUSAL.fullmatch(text)
    if not match or match[2] and int(match[2]) > 4096:
        return None
    return Refusal(int(match[1]), int(match[2])) if match[1] else Refusal(int(match[3]))


def in_decimals(line):
    """What `read` prints for a line, hexadecimal floats as decimal numbers."""
    if isinstance(line, Frame):
        return "\n".join(named([decimal(digits) for digits in line.numbers]))
    if isinstance(line, Outcome):
        return f"{line.name} {line.steps} {decimal(line.time)} {line.mass if line.mass == 'none' else decimal(line.mass)}"
    return str(line)


def decimal(float_digits):
    return float_text(int(float_digits, 16))


def named(numbers):
    """A frame's numbers, its vectors by name."""
    count = (len(numbers) - 2) // 9
    yield "frame time " + numbers[0]
    for k, name in enumerate(VECTORS):
        yield f"  {name} " + " ".join(numbers[1 + k * count : 1 + (k + 1) * count])
    yield "  total energy " + numbers[1 + 8 * count]
    yield "  alternate mass " + " ".join(numbers[2 + 8 * count :])

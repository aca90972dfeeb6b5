"""02's one spelling of an order: "settings as 01 to 06, and consecutive advances unchanged"."""
from reading.lines import Refusal
from reading.reader import MOST_BYTES, Refused, read, size


def spelled(data):
    """The bytes of the spelling of the order with these bytes, or Refused: 8 above 4,096 bytes, else as the reader refuses."""
    if len(data) > MOST_BYTES:
        raise Refused(Refusal(8))
    read(data)
    settings, rest = parts(data)
    return b"".join(sorted(settings, key=lambda setting: setting[0])) + rest


def parts(data):
    """Of an order that the reader accepts: the bytes of each setting, as they stand, and all bytes from 07 on."""
    settings, at = [], 0
    while data[at] != 7:
        end = at + 1 + size(data[at])
        settings.append(data[at:end])
        at = end
    return settings, data[at:]

"""Text from bytes, and how a command says what is wrong."""
import re

# control characters other than tab and line ends, and the byte order mark
NO_TEXT = re.compile("[\x00-\x08\x0b\x0c\x0e-\x1f\x7f-\x9f\ufeff]")


class Wrong(Exception):
    """What is wrong with an input, for a person."""


def text_of(data):
    try:
        text = data.decode("utf-8")
    except UnicodeDecodeError:
        raise Wrong("the input is no text") from None
    if text.startswith("\ufeff"):
        raise Wrong("the input is no text: it starts with a byte order mark")
    if NO_TEXT.search(text):
        raise Wrong("the input is no text")
    return text


def shown(text):
    """The start of a line, for a message."""
    return ascii(text if len(text) <= 60 else text[:60] + "..")[1:-1]

"""Document 01's order reader and the refusals that an order's own bytes decide: 1 to 8 and 11."""
import struct
from typing import NamedTuple

from reading.lines import Refusal
from reading.readable import BY_CODE

MOST_BYTES = 4096
LENT = 7  # the level that the program lends memory for


class Refused(Exception):
    """Carries the Refusal."""


class Order(NamedTuple):
    amplitude: float
    level: int
    max_time: float
    interval: float
    dx_level: int
    skip: int
    budgets: list


def accepted(data):
    """The order with these bytes, or Refused. Only 13 is left open: whether the initial state holds a NaN."""
    if len(data) > MOST_BYTES:
        raise Refused(Refusal(8))
    order = read(data)
    number = begin(order)
    if number:
        raise Refused(Refusal(number))
    return order


def read(data):
    settings, budgets, at = {}, None, 0  # settings by command byte; budgets once 07 has come
    while at < len(data):
        command, operand = data[at], operand_at(data, at)
        number = fault(command, operand, settings, budgets)
        if number:
            raise Refused(Refusal(number, at))
        at += 1 + size(command)
        if command == 9:
            if at < len(data):
                raise Refused(Refusal(3, at))
            return Order(*(settings[c] for c in range(1, 7)), budgets)
        if command == 8:
            budgets.append(operand)
        elif command == 7:
            budgets = []
        else:
            settings[command] = operand
    raise Refused(Refusal(1, len(data)))


def size(command):
    return struct.calcsize("<" + BY_CODE[command][1])


def operand_at(data, at):
    """The number of the command there, 0 for one that has none; None where it is cut or there is no command."""
    if data[at] not in BY_CODE or at + 1 + size(data[at]) > len(data):
        return None
    return (struct.unpack_from("<" + BY_CODE[data[at]][1], data, at + 1) or (0,))[0]


def fault(command, operand, settings, budgets):
    """What is wrong with a command after those before it, tested as 01 says: unknown byte, 1, switch, 3, 4."""
    begun = budgets is not None
    if command not in BY_CODE:
        return 2
    if operand is None:
        return 1
    if command == 6 and operand > 1:
        return 2
    if (command <= 6 and (begun or command in settings)) or (command == 7 and begun) or (command == 8 and not begun):
        return 3
    if (command == 7 and len(settings) < 6) or (command == 9 and not begun):
        return 4
    return None


def begin(order):
    """What begin refuses of the settings alone, in its order."""
    if not 5 <= order.level <= 16:
        return 5
    if order.interval * (2**order.level + 1) < 1:
        return 6
    if order.dx_level > order.level:
        return 7
    if order.level > LENT:
        return 11
    return None

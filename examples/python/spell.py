"""Two orders that differ in the sequence of their settings have one spelling; a cut order is refused: python3 spell.py LIBRARY

LIBRARY is the shared object that examples/python/spell links. The names are those of include/collapse.h."""
import ctypes
import sys

SPELLED, REFUSED_ROOM = 0, 17
# for the refusals 1 to 4
WORDS = {1: 'the order breaks off', 2: 'no command, or a skip above 1', 3: 'a command out of its place',
         4: 'a setting or 07 is missing'}
# how many bytes follow the command bytes 01 to 09
OPERANDS = {1: 8, 2: 1, 3: 8, 4: 8, 5: 1, 6: 1, 7: 0, 8: 4, 9: 0}
# skip 1, dx level 5, interval 1, max time 4, level 5, amplitude 40, begin, advance 1000, end
ONE = bytes.fromhex('0601 0505 04000000000000F03F 030000000000001040 0205 010000000000004440 07 08E8030000 09')
OTHER = bytes.fromhex('0205 010000000000004440 0601 030000000000001040 0505 04000000000000F03F 07 08E8030000 09')


def load(path):
    """The library, with the types of the function that spells."""
    library = ctypes.CDLL(path)
    library.collapse_spell.argtypes = [ctypes.c_char_p, ctypes.c_size_t, ctypes.c_char_p, ctypes.c_size_t,
                                       ctypes.POINTER(ctypes.c_size_t)]
    library.collapse_spell.restype = ctypes.c_uint32
    return library


def commands(order):
    """Each command with its operand, in hexadecimal."""
    words, at = [], 0
    while at < len(order):
        end = at + 1 + OPERANDS.get(order[at], 0)
        words.append(order[at:end].hex().upper())
        at = end
    return ' '.join(words)


def spell(library, order):
    out, position = ctypes.create_string_buffer(64), ctypes.c_size_t()
    answer = library.collapse_spell(order, len(order), out, len(out), ctypes.byref(position))
    print(f'order    {len(order)} bytes: {commands(order)}')
    if answer == SPELLED:
        print(f'spelling {len(order)} bytes: {commands(out[:len(order)])}')
    elif answer == REFUSED_ROOM:
        print('refused 17: too little room')
    else:
        print(f'refused {answer} at {position.value}: {WORDS[answer]}')


def main():
    library = load(sys.argv[1])
    for order in ONE, OTHER, OTHER[:-3]:
        spell(library, order)


main()

"""The threshold amplitude of level 5 before time 4, between 20 and 40, by 40 halvings: python3 threshold.py LIBRARY

LIBRARY is the shared object that examples/python/threshold links. The names are those of include/collapse.h."""
import ctypes
import sys

AMPLITUDE, LEVEL, MAX_TIME, INTERVAL, DX_LEVEL, SKIP = range(6)
RECORD_SIZE = 12
FOUND = 0
WHY = {0: 'the halvings are used', 1: 'the ends differ by 1 unit', 2: "the middle's run is neither timeout nor collapse",
       13: "the middle's run is refused"}
# 2^-36: 2^42 of these units are amplitude 64
UNIT = 2.0 ** -36


def load(path):
    """The library, with the types of the functions that a search wants."""
    library = ctypes.CDLL(path)
    memory = [ctypes.POINTER(ctypes.c_double), ctypes.c_size_t]
    for name in 'collapse_state_size', 'collapse_work_size':
        function = getattr(library, name)
        function.argtypes, function.restype = [ctypes.c_uint32], ctypes.c_size_t
    numbers = [ctypes.c_double, ctypes.c_uint64, ctypes.c_uint64, ctypes.c_uint32, ctypes.c_uint32]
    library.collapse_search.argtypes, library.collapse_search.restype = memory + numbers + memory * 3, ctypes.c_uint32
    return library


def search(library, record, low, high, halvings, budget):
    """Both ends, the halvings made, and why the search stopped."""
    level = int(record[LEVEL])
    state = (ctypes.c_double * library.collapse_state_size(level))()
    work = (ctypes.c_double * library.collapse_work_size(level))()
    found = (ctypes.c_double * 4)()
    answer = library.collapse_search(record, len(record), UNIT, low, high, halvings, budget, state, len(state), work, len(work),
                                     found, len(found))
    if answer != FOUND:
        sys.exit(f'search refused: {answer}')
    return found


def main():
    record = (ctypes.c_double * RECORD_SIZE)()
    record[LEVEL], record[MAX_TIME], record[INTERVAL] = 5, 4.0, 1.0
    low, high, made, why = search(load(sys.argv[1]), record, 20 << 36, 40 << 36, 40, 1000)
    print(f'timeout  at {low * UNIT:.17g}')
    print(f'collapse at {high * UNIT:.17g}')
    print(f'{low:.0f} and {high:.0f} units of 2^-36, {made:.0f} halvings made: {WHY[why]}')


main()

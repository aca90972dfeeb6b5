"""A run at level 10 in budgets of 500 attempts, its frames kept: python3 run.py LIBRARY

LIBRARY is the shared object that examples/python/run links. The names are those of include/collapse.h."""
import ctypes
import sys
from array import array

try:
    import numpy
except ImportError:
    numpy = None

AMPLITUDE, LEVEL, MAX_TIME, INTERVAL, DX_LEVEL, SKIP, TIME, STEPS, BROKEN, FRAMES, ATTEMPTS, MASS, SIZE = range(13)
BEGUN, FULL, COLLAPSED, BROKE, TIMED_OUT, SPENT = 0, 110, 111, 112, 113, 114
OUTCOMES = {COLLAPSED: 'collapse', BROKE: 'broken', TIMED_OUT: 'timeout'}


def load(path):
    """The library, with the types of its functions."""
    library = ctypes.CDLL(path)
    memory = [ctypes.POINTER(ctypes.c_double), ctypes.c_size_t]
    for name in 'collapse_state_size', 'collapse_work_size', 'collapse_frame_size':
        function = getattr(library, name)
        function.argtypes, function.restype = [ctypes.c_uint32], ctypes.c_size_t
    library.collapse_begin.argtypes, library.collapse_begin.restype = memory * 4, ctypes.c_uint32
    library.collapse_advance.argtypes, library.collapse_advance.restype = memory * 4 + [ctypes.c_uint32], ctypes.c_uint32
    return library


class Run:
    """A run and the memories that it lends to every call."""

    def __init__(self, library, level, dx_level, room):
        self.library = library
        self.size = library.collapse_frame_size(dx_level)
        self.record = (ctypes.c_double * SIZE)()
        self.record[LEVEL], self.record[DX_LEVEL] = level, dx_level
        self.state = (ctypes.c_double * library.collapse_state_size(level))()
        self.work = (ctypes.c_double * library.collapse_work_size(level))()
        self.frames = (ctypes.c_double * (room * self.size))()
        self.kept = []

    def lend(self):
        """The four memories, each a pointer and a length."""
        return [x for memory in (self.record, self.state, self.work, self.frames) for x in (memory, len(memory))]

    def keep(self):
        """Copies the last call's frames."""
        for i in range(int(self.record[FRAMES])):
            frame = self.frames[i * self.size:(i + 1) * self.size]
            self.kept.append(numpy.array(frame) if numpy else array('d', frame))

    def begin(self):
        answer = self.library.collapse_begin(*self.lend())
        if answer != BEGUN:
            sys.exit(f'begin refused: {answer}')
        self.keep()

    def advance(self, budget):
        """So many attempts, in as many calls as the frame memory asks for; the outcome's number."""
        while True:
            answer = self.library.collapse_advance(*self.lend(), budget)
            if answer < FULL:
                sys.exit(f'advance refused: {answer}')
            self.keep()
            if answer != FULL:
                return answer
            budget -= int(self.record[ATTEMPTS])


def main():
    run = Run(load(sys.argv[1]), level=10, dx_level=6, room=4)
    run.record[AMPLITUDE], run.record[MAX_TIME], run.record[INTERVAL], run.record[SKIP] = 40.0, 2.0, 0.0625, 0
    run.begin()
    answer = SPENT
    while answer == SPENT:
        answer = run.advance(500)
        print(f'{run.record[STEPS]:4.0f} steps, time {run.record[TIME]:.6f}, {len(run.kept)} frames')
    print('outcome', OUTCOMES[answer])
    print(f'steps {run.record[STEPS]:.0f}')
    print(f'time {run.record[TIME]:.17g}')
    if answer == COLLAPSED:
        print(f'mass {run.record[MASS]:.17g}')
    print(f'frames {len(run.kept)} of {run.size} numbers, the last at time {run.kept[-1][0]:.17g}')


main()

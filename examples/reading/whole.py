"""Whether an output is all that the program prints for an order. An order of at most 4,096 bytes that the reader and begin
accept prints begin's frame unless skipped, then for each 08 its frames and one line that is no frame; any other order
prints one line, a refusal that is not 14."""
import copy

from reading import lines
from reading.lines import Frame, Refusal
from reading.reader import Refused, accepted
from reading.run import ZERO, Run
from reading.text import Wrong


class Output:
    """Takes the lines of an output one by one; `Wrong` at one that the order with these bytes does not print there."""

    def __init__(self, data):
        self.count = 0  # lines
        self.refusal = None  # the one line of a refused order
        self.refused = False  # it has come
        self.answered = 0  # the 08 whose line has come
        try:
            self.order = accepted(data)
            self.begun = self.order.skip == 1  # begin's frame has come, or there is none
            self.run = Run(self.order.max_time)
        except Refused as refused:
            self.refusal = refused.args[0]

    def copy(self):
        other = copy.copy(self)
        if not self.refusal:
            other.run = copy.copy(self.run)
        return other

    def take(self, raw):
        self.count += 1
        try:
            self.line(lines.parsed(raw))
        except Wrong as wrong:
            raise Wrong(f"line {self.count}: {wrong}") from None

    def line(self, line):
        if self.refused:
            raise Wrong("the order is refused, and prints no second line")
        if self.refusal and line != self.refusal:
            raise Wrong(f"the order is refused, and prints only `{self.refusal}`")
        if self.refusal or (line == Refusal(13) and self.count == 1):
            self.refused = True
        elif isinstance(line, Frame):
            self.frame(line.numbers)
        elif isinstance(line, Refusal) and line.number != 14:
            raise Wrong(f"`{line}` is no answer to this order")
        elif not self.begun:
            raise Wrong("begin's frame is missing before it")
        else:
            self.run.answer(line, self.budget())
            self.answered += 1

    def frame(self, numbers):
        if self.order.skip:
            raise Wrong("a frame, and the order skips output")
        size = lines.frame_size(self.order.dx_level)
        if len(numbers) != size:
            raise Wrong(f"a frame of {len(numbers)} numbers; those of the order have {size}")
        if self.begun:
            self.budget()
            self.run.frame(numbers[0])
        elif numbers[0] != ZERO:
            raise Wrong("begin's frame is not at time 0")
        self.begun = True

    def budget(self):
        """Of the 08 that the next line belongs to."""
        if self.answered == len(self.order.budgets):
            raise Wrong("the last line of the order stands before it")
        return self.order.budgets[self.answered]

    def end(self):
        """At the end of the output: Wrong if lines are missing. The answer is whether the order prints nothing."""
        if self.refused:
            return False
        if self.refusal:
            raise Wrong(f"the output is cut: `{self.refusal}` is missing")
        if not self.begun:
            raise Wrong("the output is cut: begin's frame is missing")
        due = len(self.order.budgets)
        if self.answered < due:
            raise Wrong(f"the output is cut: the lines of {due - self.answered} of the {due} advances are missing")
        return self.count == 0

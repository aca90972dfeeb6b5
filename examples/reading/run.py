"""A run as an output shows it: what document 01 says of the steps and times of its lines."""
from reading.lines import MOST_STEPS, Refusal, value
from reading.text import Wrong

ZERO = "0" * 16


class Run:
    """Takes the times of frames and the lines of advances, one by one; `Wrong` at one that no run prints there."""

    def __init__(self, max_time):
        self.max_time = max_time
        self.steps, self.time = 0, ZERO  # after the advance before
        self.frames, self.frame_time = 0, ZERO  # frames of the next advance, and the time that the next must be above
        self.goes_on = False  # known not to have ended
        self.end = None  # the line of a run that has ended

    def frame(self, time):
        if self.end:
            raise Wrong("a frame after the end of the run")
        if not value(time) > value(self.frame_time):
            raise Wrong("a frame that is not later than what stands before it")
        self.frames += 1
        self.frame_time = time

    def answer(self, line, budget):
        if self.end:
            if line != self.end:
                raise Wrong("the run has ended, and each later advance prints the line of its end")
        elif isinstance(line, Refusal):
            self.refused(budget)
        else:
            self.outcome(line, budget)
        self.frames = 0

    def refused(self, budget):
        if self.steps + budget <= MOST_STEPS:
            raise Wrong(f"`refused 14` for {self.steps} steps and a budget of {budget}")
        if self.frames:
            raise Wrong("an advance is refused, and has frames before its line")
        self.goes_on = True

    def outcome(self, line, budget):
        made = line.steps - self.steps
        # in the initial state: no budget is too large then
        at_once = line.name == "collapse" and made == 0 and not self.goes_on
        if self.steps + budget > MOST_STEPS and not at_once:
            raise Wrong(f"{self.steps} steps and a budget of {budget} give `refused 14`")
        possible = {
            "collapse": 0 < made <= budget or at_once,
            "timeout": 0 < made <= budget,
            "broken": 0 <= made < budget,  # the last attempt made no step
            "spent": made == budget,
        }
        if not possible[line.name]:
            raise Wrong(f"`{line.name}` at {line.steps} steps, after {self.steps} steps and a budget of {budget}")
        self.times(line, made)
        if line.name == "spent":
            self.goes_on = True
            self.steps, self.time, self.frame_time = line.steps, line.time, line.time
        else:
            self.end = line

    def times(self, line, made):
        """Every step raises the time, a frame has the time of its step, and timeout means a time above max time."""
        rises, stays = value(line.time) > value(self.time), line.time == self.time
        if not (rises if made else stays):
            raise Wrong(f"time {line.time} after time {self.time} and {made} steps")
        if self.frames > made:
            raise Wrong(f"{self.frames} frames in {made} steps")
        if self.frames and not value(self.frame_time) <= value(line.time):
            raise Wrong("a frame of the advance is later than its end")
        late = line.steps > 0 and value(line.time) > self.max_time
        if line.name != "collapse" and late != (line.name == "timeout"):
            raise Wrong(f"`{line.name}` at time {value(line.time)!r}, and max time is {self.max_time!r}")

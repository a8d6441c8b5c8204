"""Numbers of docs/RULES.md, and what one module hands another: jobs, demands, blocks, intervals and refusals."""
import dataclasses

HORIZON = 256
PLACES = 64
LAST_TICK = 2 ** 48 - 1


class Refused(Exception):
    """A refusal: its number and its values."""

    def __init__(self, number, *values):
        super().__init__(number, *values)
        self.number, self.values = number, values


@dataclasses.dataclass(frozen=True, order=True, slots=True)
class Demand:
    """Units of work due from a start up to an end, both in ticks from now."""
    start: int
    end: int
    units: int


@dataclasses.dataclass(frozen=True, slots=True)
class Job:
    """A job. The work of an open one is the work left."""
    ticket: int
    arrival: int
    deadline: int
    work: int

    def seen_from(self, now):
        """The demand of the job, once now is so late."""
        return Demand(max(self.arrival - now, 0), self.deadline - now, self.work)

    def window_len(self):
        """The ticks of the window."""
        return self.deadline - self.arrival


@dataclasses.dataclass(frozen=True, slots=True)
class Interval:
    """An interval from a start up to an end, and the work inside it."""
    start: int
    end: int
    work: int


@dataclasses.dataclass(frozen=True, slots=True)
class Block:
    """A critical block: its speed is work over length, and its ticks lie from start up to end."""
    work: int
    length: int
    start: int
    end: int

    def told_at(self, now):
        """The block in ticks of time, of one in ticks from now."""
        return Block(self.work, self.length, now + self.start, now + self.end)

"""The book: its calls as docs/RULES.md says them.

The settings in force are found from above: they start at the top and are lowered as long as every interval can hold
the work inside it.
"""
import bisect
import collections
import dataclasses
import functools
import itertools

import codec
from rules import HORIZON, LAST_TICK, PLACES, Block, Demand, Interval, Job, Refused


def intervals(demands):
    """Each interval from a start to a later end, by start, then end: the start, the end and the work inside."""
    ends = sorted({demand.end for demand in demands})
    for start in sorted({demand.start for demand in demands}):
        due = collections.Counter()
        for demand in demands:
            if start <= demand.start:
                due[demand.end] += demand.units
        inside = 0
        for end in ends:
            if start < end:
                inside += due[end]
                yield start, end, inside


def first_overload(top, demands):
    """The overloaded interval with the least start and, among those, the least end."""
    overloaded = (found for found in intervals(demands) if found[2] > top * (found[1] - found[0]))
    return next((Interval(*found) for found in overloaded), None)


class Lowering:
    """Settings that are lowered from the top.

    A list does the work where no interval from a start to an end has more work inside than the list has units there.
    So all ticks start at the top, and level by level, the last tick first, each is lowered by 1 unless an interval
    around it would lack units. A tick that can't be lowered stays as it is from then on. The intervals around each tick
    of a piece, between two cuts that follow one another, are the same.
    """

    def __init__(self, ticks, top, demands):
        self.starts = sorted({demand.start for demand in demands})
        self.ends = sorted({demand.end for demand in demands})
        self.level = top
        self.found = [0] * ticks
        # The ticks that can still be lowered.
        cuts = sorted({0, *self.starts, *self.ends, ticks})
        self.pieces = [range(*piece) for piece in zip(cuts, cuts[1:])]
        # The units beyond the work inside, by start and by end.
        work = {(start, end): inside for start, end, inside in intervals(demands)}
        self.spare = [[top * (b - a) - work.get((a, b), 0) for b in self.ends] for a in self.starts]

    def lowerable(self):
        """How many ticks can be lowered, by start and by end."""
        can_fall = [0] * len(self.found)
        for piece in self.pieces:
            can_fall[piece.start:piece.stop] = [1] * len(piece)
        before = [0, *itertools.accumulate(can_fall)]
        return [[max(before[end] - before[start], 0) for end in self.ends] for start in self.starts]

    def pass_levels(self):
        """Passes at once the levels that every interval can spare."""
        counts = self.lowerable()
        pairs = [pair for rows in zip(self.spare, counts) for pair in zip(*rows)]
        passed = min([self.level, *(units // count for units, count in pairs if count)])
        self.spare = [[units - passed * count for units, count in zip(*rows)] for rows in zip(self.spare, counts)]
        self.level -= passed

    def lower_piece(self, piece):
        """Lowers the last ticks of the piece, as many as the intervals around it can spare. The others stay."""
        first = bisect.bisect_left(self.ends, piece.stop)
        around = self.spare[:bisect.bisect_right(self.starts, piece.start)]
        count = min([len(piece), *itertools.chain.from_iterable(row[first:] for row in around)])
        for row in around if count else ():
            row[first:] = [units - count for units in row[first:]]
        stays, falls = piece[:len(piece) - count], piece[len(piece) - count:]
        self.found[stays.start:stays.stop] = [self.level] * len(stays)
        return falls

    def lower(self):
        """Lowers each tick that can be lowered by 1."""
        lowered = [self.lower_piece(piece) for piece in reversed(self.pieces)]
        self.pieces = [piece for piece in reversed(lowered) if piece]
        self.level -= 1


@functools.lru_cache(None)
def settings_in_force(ticks, top, demands):
    """The settings in force."""
    lowering = Lowering(ticks, top, demands)
    while lowering.level > 0:
        lowering.pass_levels()
        if lowering.level > 0:
            lowering.lower()
    return tuple(lowering.found)


def fastest(demands, ticks):
    """The interval with the most work over length; among several the least start, then the greatest end.

    Only an interval from a start to an end can be it: between other times there is no more work and more length.
    """
    best = Interval(0, ticks, 0)
    for start, end, inside in intervals(demands):
        ahead = inside * (best.end - best.start) - best.work * (end - start)
        if ahead > 0 or ahead == 0 and start == best.start:
            best = Interval(start, end, inside)
    return best


def blocks(ticks, demands):
    """The critical blocks, in ticks from now."""
    free, found = list(range(ticks)), []
    while demands:
        time = [bisect.bisect_left(free, tick) for tick in range(ticks + 1)]
        seen = [Demand(time[demand.start], time[demand.end], demand.units) for demand in demands]
        best = fastest(seen, ticks)
        low, high = best.start, best.end
        found.append(Block(best.work, high - low, free[low], free[high - 1] + 1))
        demands = [demand for demand, at in zip(demands, seen) if not (low <= at.start and at.end <= high)]
        free = free[:low] + free[high:]
    return found


def check_offer(job, now):
    """Refuses a field of an offer that it can't have."""
    if job.ticket == 0:
        raise Refused(5, 1)
    if job.arrival < now:
        raise Refused(5, 2)
    if not job.arrival < job.deadline <= min(now + HORIZON, LAST_TICK):
        raise Refused(5, 3)
    if job.work == 0:
        raise Refused(5, 4)


@dataclasses.dataclass
class Book:
    """Now, the top, and the open jobs by ticket, with the work left of each."""
    now: int
    top: int
    jobs: dict

    @classmethod
    def of(cls, now, top, jobs=()):
        return cls(now, top, {job.ticket: job for job in jobs})

    def demands(self):
        return [job.seen_from(self.now) for job in self.jobs.values()]

    def overload(self, demands):
        return first_overload(self.top, demands)

    def settings(self):
        return settings_in_force(HORIZON, self.top, tuple(sorted(self.demands())))

    def blocks(self):
        return [block.told_at(self.now) for block in blocks(HORIZON, self.demands())]

    def bill(self, model):
        return sum(map(model, self.settings()))

    def by_deadline(self):
        return sorted(self.jobs.values(), key=lambda job: (job.deadline, job.ticket))

    def save(self):
        return codec.image(self.now, self.top, self.by_deadline())

    def may_hold(self, job):
        """Whether the open job has work left, a window of such a length, and a deadline ahead."""
        return (job.work > 0 and 1 <= job.window_len() <= HORIZON
                and self.now < job.deadline <= min(self.now + HORIZON, LAST_TICK))

    def is_lawful_but_for_overload(self):
        return (self.now <= LAST_TICK and 1 <= self.top <= 255 and len(self.jobs) <= PLACES and 0 not in self.jobs
                and all(map(self.may_hold, self.jobs.values())))

    def said_by(self, image):
        """The book of an image, which may be overloaded.

        The first wrong record is the first up to which the image is not that of the book that the records so far say.
        """
        records = codec.records_in(image)
        first = codec.numbers(records[0])
        jobs = []
        for number, record in enumerate(records):
            if number and record[0] == codec.OPEN_JOB:
                jobs.append(codec.numbers(record))
            said = self.of(first.arrival, first.work, jobs)
            upto = codec.RECORD_LEN * (number + 1)
            if not said.is_lawful_but_for_overload() or said.save()[:upto] != image[:upto]:
                raise Refused(13, number)
        return said

    def load(self, image):
        if len(image) < codec.IMAGE_LEN:
            raise Refused(10, codec.IMAGE_LEN)
        said = self.said_by(image[:codec.IMAGE_LEN])
        if said.overload(said.demands()):
            raise Refused(13, codec.IMAGE_RECORDS)
        self.now, self.top, self.jobs = said.now, said.top, said.jobs

    def offer(self, job):
        check_offer(job, self.now)
        if job.ticket in self.jobs:
            raise Refused(6, job.ticket)
        if len(self.jobs) == PLACES:
            raise Refused(7, PLACES)
        overload = self.overload([*self.demands(), job.seen_from(self.now)])
        if overload:
            raise Refused(8, self.now + overload.start, self.now + overload.end, overload.work)
        self.jobs[job.ticket] = job

    def strike(self, ticket):
        if ticket not in self.jobs:
            raise Refused(9, ticket)
        del self.jobs[ticket]

    def serve(self, setting):
        """Gives the units of a tick to the jobs that have arrived: what each of them got, in the order of serving."""
        entries = []
        for job in [job for job in self.by_deadline() if job.arrival <= self.now]:
            units = min(job.work, setting)
            setting -= units
            if units:
                entries.append((job.ticket, units))
            self.jobs[job.ticket] = Job(job.ticket, job.arrival, job.deadline, job.work - units)
        return entries

    def tick(self):
        """Serves one tick: its setting, and what each served ticket got."""
        if self.now == LAST_TICK:
            raise Refused(11, self.now)
        setting = self.settings()[0]
        entries = self.serve(setting)
        self.jobs = {ticket: job for ticket, job in self.jobs.items() if job.work}
        self.now += 1
        return setting, entries

"""Books whose windows end in a few ticks, answered by the exhaustive search of schedule.py."""
import functools
import random
import sys

import book
import schedule
from book import Book
from rules import HORIZON


@functools.lru_cache(100)
def exact_lists(ticks, demands):
    return schedule.exact_lists(ticks, demands)


class SmallBook(Book):
    """A book that searches all sharings for its answers."""

    def exact(self, demands):
        """The ticks up to the last deadline, and what each sharing gives them. All others get nothing."""
        ticks = max([1, *(demand.end for demand in demands)])
        return ticks, exact_lists(ticks, tuple(sorted(demands)))

    def within_top(self, demands):
        ticks, exact = self.exact(demands)
        return ticks, [settings for settings in exact if max(settings) <= self.top]

    def overload(self, demands):
        found = schedule.first_overload(self.top, demands)
        if bool(found) == bool(self.within_top(demands)[1]):
            sys.exit(f'overload and sharings differ at top {self.top} with {demands}')
        return found

    def settings(self):
        ticks, exact = self.exact(self.demands())
        return schedule.in_force(exact) + (0,) * (HORIZON - ticks)

    def blocks(self):
        ticks, _ = self.exact(self.demands())
        return [block.told_at(self.now) for block in schedule.blocks(ticks, self.demands())]

    def bill(self, model):
        """The least that a list draws which does the work. Draws never fall, so an exact list is among the least."""
        ticks, exact = self.within_top(self.demands())
        return min(sum(map(model, load)) for load in exact) + (HORIZON - ticks) * model(0)


def is_answered_alike(small):
    """Whether book.py finds what the search does: settings, overload and blocks."""
    enough = sum(demand.units for demand in small.demands)
    overload = book.first_overload(small.top, small.demands)
    settings = book.settings_in_force(small.ticks, enough if overload else small.top, tuple(small.demands))
    return (settings == schedule.in_force(schedule.exact_lists(small.ticks, small.demands))
            and overload == schedule.first_overload(small.top, small.demands)
            and book.blocks(small.ticks, small.demands) == schedule.blocks(small.ticks, small.demands))


def unlike():
    """How many of 1,000 small books are not answered alike."""
    chance = random.Random(5)
    plans = schedule.WORKED + [schedule.by_chance(chance) for _ in range(992)]
    return sum(not is_answered_alike(small) for small in plans)

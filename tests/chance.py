"""Records by chance, one after another, that suit the book which those before them lead to."""
import random

from codec import RECORD_LEN, TICK, offer, strike
from rules import HORIZON, LAST_TICK


class Calls:
    """A file that grows call by call, and the book after them. How a call is added is left to those who derive."""

    def __init__(self, seed, book):
        self.chance = random.Random(seed)
        self.book = book

    def add(self, *calls):
        """Adds the calls to the file, and makes them of the book."""
        raise NotImplementedError

    def ticket(self):
        chance = self.chance
        return chance.choice((chance.randrange(1, 300), chance.randrange(1, 300), chance.randrange(65_536), 65_535))

    def label(self):
        chance = self.chance
        return chance.choice((b'fader', b'cue', b'', bytes(chance.randrange(0x20, 0x7F) for _ in range(6))))

    def sensible_offer(self, most, longest):
        """An offer within its bounds, with no longer window than asked and at most so many units a tick."""
        now, chance = self.book.now, self.chance
        ahead = chance.choice((0, 0, chance.randrange(4), chance.randrange(40), chance.randrange(HORIZON)))
        longest = min(longest, HORIZON - ahead)
        length = chance.choice((1, longest, chance.randint(1, longest), chance.randint(1, longest)))
        arrival, ticket = now + ahead, self.ticket()
        work = chance.randint(1, min(1 + int(most * length), 65_535))
        return offer(ticket, arrival, arrival + length, work, self.label())

    def bad_offer(self):
        """An offer with some fields at or beyond the edge of what they can be."""
        now, chance = self.book.now, self.chance
        arrival = chance.choice((now, now, now, now + 255, now + 256, max(0, now - 1), LAST_TICK))
        deadline = chance.choice((arrival + 1, now + 256, now + 256, now + 257, arrival, now, LAST_TICK))
        work = chance.choice((0, 0, 1, 1_024, 1_025, 65_535))
        return offer(chance.choice((0, self.ticket(), self.ticket())), arrival, min(deadline, LAST_TICK), work)

    def strike(self):
        """A strike, more often than not of an open job."""
        if self.chance.random() < 0.8:
            return strike(self.chance.choice([*self.book.jobs, self.ticket()]))
        return strike(self.chance.choice([0, 65_535, self.ticket()]))

    def spoilt(self, record):
        """A record with some bytes that may be forbidden."""
        chance, record = self.chance, bytearray(record)
        for _ in range(chance.randrange(1, 3)):
            byte = chance.choice((0, 0x1F, 0x20, 0x4F, 0x53, 0x54, 0x7F, chance.randrange(256)))
            record[chance.randrange(RECORD_LEN)] = byte
        return bytes(record)

    def some(self, count, most, longest, offers, ticks):
        """So many records, of which about these parts are sensible offers and ticks."""
        for _ in range(count):
            which = self.chance.random()
            if which < offers:
                record = self.sensible_offer(most, longest)
            elif which < offers + ticks:
                record = TICK
            else:
                record = self.chance.choice((self.strike(), self.bad_offer()))
            self.add(self.spoilt(record) if self.chance.random() < 0.04 else record)

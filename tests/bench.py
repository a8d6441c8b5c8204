"""What `bench` has to print, and the files that it is tried on."""
import pathlib

import codec
from book import Book
from chance import Calls
from codec import RECORD_LEN, TICK, Offer, Strike, offer, strike
from rules import Refused

LIMIT = 65_520
TOP = 4

SAMPLE = b''.join((offer(7, 0, 2, 3, b'fader'), offer(9, 0, 3, 1), TICK, offer(5, 1, 2, 5), TICK,
                   offer(5, 2, 3, 1, b'cue\0')))
SAMPLE_LINES = b'O 7 ok fader\nO 9 ok house\nT 0 2 7:2\nR 72 8 1 2 6\nT 1 1 7:1\nR 120 3 141\n'


def words(*values):
    return ' '.join(map(str, values))


def accepted(book, said):
    """The line of what a record says, once the book has accepted it."""
    if isinstance(said, Offer):
        book.offer(said.job)
        return words('O', said.job.ticket, 'ok', said.label or 'house')
    if isinstance(said, Strike):
        book.strike(said.ticket)
        return words('S', said.ticket, 'ok')
    now = book.now
    setting, entries = book.tick()
    return words('T', now, setting, *(f'{ticket}:{units}' for ticket, units in entries))


def line(book, offset, record):
    """The line of a record."""
    try:
        return accepted(book, codec.read(offset, record))
    except Refused as refused:
        return words('R', offset, refused.number, *refused.values)


def transcript(data):
    """All lines of a file. No record follows a cut one."""
    book, records = Book.of(0, TOP), codec.records_in(data[:LIMIT])
    lines = [line(book, RECORD_LEN * number, record) + '\n' for number, record in enumerate(records)]
    return ''.join(lines).encode('ascii')


class File(Calls):
    """A file of records."""

    def __init__(self, seed):
        super().__init__(seed, Book.of(0, TOP))
        self.records = []

    def add(self, *calls):
        for record in calls:
            line(self.book, RECORD_LEN * len(self.records), record)
            self.records.append(record)

    def strike_half(self):
        open_tickets = list(self.book.jobs)
        self.add(*map(strike, self.chance.sample(open_tickets, len(open_tickets) // 2)))

    def phase(self):
        """Many small jobs, more work than can be done (two ways), some work, little work, only ticks, or strikes."""
        phases = ((110, 0.02, 256, 0.9, 0.04), (60, 3, 9, 0.6, 0.3), (60, 2, 99, 0.6, 0.3), (60, 1, 60, 0.3, 0.6),
                  (60, 0.3, 12, 0.3, 0.6), (80, 1, 1, 0, 1), None)
        phase = self.chance.choice(phases)
        if phase:
            self.some(*phase)
        else:
            self.strike_half()


def forbidden_bytes(file):
    """The bytes at the edges of what may stand there, at each byte of a good record of each kind."""
    for at in range(RECORD_LEN):
        for byte in (0x00, 0x01, 0x1F, 0x20, 0x21, 0x7E, 0x7F, 0xFF):
            now = file.book.now
            for good in (offer(0x0102, now, now + 9, 2, b'fader'), strike(0x0102), TICK):
                file.add(good[:at] + bytes([byte]) + good[at + 1:])


def labels(file):
    """Offers with labels at the edges of what they can be."""
    now = file.book.now
    for label in (b' a  b ', b'     x', b'x     ', b'!~ ~! ', b'house', b' ', b'~~~~~~'):
        file.add(offer(1, now, now + 1, 1, label), strike(1))


def field_edges(file):
    """Offers at the edges of what their fields can be."""
    now = file.book.now
    file.add(offer(0, now + 2, now + 1, 0), offer(1, now + 2, now + 1, 0), offer(1, now + 2, now + 2, 1),
             offer(1, now + 2, now + 3, 0))
    file.add(offer(1, now, now + 257, 1), offer(1, now, now + 256, 1), offer(1, now, now + 256, 1))
    file.add(strike(1), strike(1))
    file.add(offer(1, now, now + 256, 1_025), offer(1, now, now + 256, 65_535), offer(1, now, now + 256, 1_024))
    file.add(offer(2, now + 255, now + 256, 1), strike(1))


def tight_books(file):
    """Books that can do just the work that they hold."""
    now = file.book.now
    file.add(offer(1, now, now + 4, 14), offer(2, now + 2, now + 4, 4), offer(2, now + 2, now + 4, 2), *[TICK] * 5)
    now = file.book.now
    file.add(offer(2, now, now + 1, 2), offer(1, now, now + 1, 2), offer(3, now, now + 1, 1), TICK)
    file.add(offer(1, now, now + 2, 1), offer(1, now + 1, now + 2, 1))
    file.add(offer(9, now + 1, now + 11, 4), offer(8, now + 5, now + 7, 6), *[TICK] * 12)


def full_book(file):
    """A book whose places are all taken."""
    now = file.book.now
    file.add(*(offer(1_000 + i, now + 3 * i, now + 3 * i + 4, 1 + i % 7) for i in range(66)))
    file.add(offer(1_000, now, now + 2, 1), TICK, TICK)
    file.add(strike(1_063), offer(2_000, now + 250, now + 252, 9), offer(2_000, now + 250, now + 252, 3),
             offer(2_001, now + 2, now + 4, 1), TICK)
    file.add(*map(strike, list(file.book.jobs)), TICK)


def long_file():
    """More than bench reads: the edges, then records by chance, the last of them cut."""
    file = File(256)
    for part in (labels, field_edges, tight_books, full_book, forbidden_bytes):
        part(file)
    while len(file.records) < 2_741:
        file.phase()
    return b''.join(file.records)[:RECORD_LEN * 2_740 + 11]


def by_chance(seed):
    """A short file whose last record is often cut."""
    file = File(seed)
    count = file.chance.randrange(40)
    kinds = ((0.1, 256, 0.8, 0.1), (3, 9, 0.5, 0.3), (1, 60, 0.3, 0.6), (0.3, 12, 0.4, 0.5))
    file.some(count, *file.chance.choice(kinds))
    data = b''.join(file.records)
    return data[:max(0, len(data) - file.chance.randrange(48))]


def tries():
    """Files by chance and files about as long as what is read, each with its transcript."""
    files = [by_chance(seed) for seed in range(1_500)]
    files += [(TICK * 3_000)[:size] for size in (LIMIT - 1, LIMIT, LIMIT + 1, LIMIT + 24)]
    for data in files:
        yield data, transcript(data)


def stored():
    """Each stored file with what it has to hold."""
    long = long_file()
    return {
        pathlib.Path('samples/example.records'): SAMPLE,
        pathlib.Path('samples/example.txt'): SAMPLE_LINES,
        pathlib.Path('crates/bench/stdin'): long,
        pathlib.Path('crates/bench/stdout'): transcript(long),
    }

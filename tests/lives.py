"""The files that `questions` is tried on: calls in the lives of small books, which a search answers, and of others."""
import collections
import pathlib

from bench import words
from book import Book, first_overload
from chance import Calls
from codec import IMAGE_ITEM, IMAGE_RECORDS, RECORD_LEN, TICK, image_item, offer, open_job, strike
from questions import Run
from rules import LAST_TICK, PLACES, Job
from small_lives import small_life
from wrong_images import wrong_images


class File(Calls):
    """A file of calls, and what has to be printed of them."""

    def __init__(self, seed):
        super().__init__(seed, Book.of(0, 1))
        self.run = Run(self.book)
        self.data = bytearray()
        self.lives = collections.Counter()
        self.kinds = collections.Counter()

    def add(self, *calls):
        for item in calls:
            self.data += item
            said = self.run.call(item).split()
            self.kinds[kind_of(said)] += 1

    def load(self, *images):
        self.add(*map(image_item, images))

    def begin(self, kind, now, top, jobs=()):
        """Begins a life of such a book with an image."""
        self.lives[kind.__name__] += 1
        self.run.turn(kind)
        self.book = self.run.book
        self.load(Book.of(now, top, jobs).save())

    def spoilt(self, record):
        """A record with some bytes that may be forbidden. It does not become an image."""
        found = super().spoilt(record)
        return found if found[0] != IMAGE_ITEM else self.spoilt(record)

    def most_work(self, arrival, deadline):
        """The greatest work of such a window that overloads no interval."""
        fits, fails = 0, 65_536
        while fails - fits > 1:
            work = (fits + fails) // 2
            demand = Job(0, arrival, deadline, work).seen_from(self.book.now)
            if first_overload(self.book.top, [*self.book.demands(), demand]):
                fails = work
            else:
                fits = work
        return fits

    def add_edge(self, ticket, arrival, deadline):
        """Offers one unit more than can be done, and then just what can."""
        most = self.most_work(arrival, deadline)
        if most < 65_535:
            self.add(offer(ticket, arrival, deadline, most + 1))
        if most:
            self.add(offer(ticket, arrival, deadline, most))


def kind_of(said):
    """The words of a line that say what kind of answer it is: of refusals 5 and 13 the value belongs to them."""
    if said[0] != 'R':
        return said[0]
    return words(*said[:3 if said[1] in ('5', '13') else 2])


def new_book(file):
    """Calls of a new book, which is at 0 with top 1."""
    file.lives['Book'] += 1
    file.add(TICK, strike(1), offer(1, 1, 3, 3), offer(1, 1, 3, 2), offer(1, 2, 4, 1), offer(2, 1, 257, 254))
    file.add(*[TICK] * 3)


def worked_books(file):
    """The books that docs/RULES.md works."""
    for top, jobs in (
        (1, []),
        (4, [(0, 2, 3), (0, 3, 1)]),
        (4, [(0, 10, 4), (4, 6, 6)]),
        (4, [(2, 3, 1), (0, 3, 2)]),
        (4, [(0, 1, 2), (0, 1, 2)]),
        (3, [(0, 1, 2), (0, 1, 2)]),
        (4, [(0, 4, 14), (2, 4, 4)]),
        (255, [(0, 256, 65_535), (0, 256, 65_280), (0, 256, 1)]),
        (255, [(0, 257, 1), (0, 256, 1)]),
    ):
        file.begin(Book, 0, top)
        file.add(*(offer(ticket, *job) for ticket, job in enumerate(jobs, 1)))
        file.add(*[TICK] * (4 if top < 255 else 1))


def edge_offers(file):
    """Offers at the edges of what their fields can be, alone and two wrong at once."""
    now = file.book.now
    for ticket in (0, 1, 9, 65_535):
        for arrival in (now - 1, now, now + 255, now + 256):
            for deadline in (arrival, now + 1, now + 256, now + 257):
                if 0 <= arrival <= LAST_TICK and deadline <= LAST_TICK:
                    file.add(offer(ticket, arrival, deadline, file.chance.choice((0, 1, 1, 2))))


def field_edges(file):
    """Records at the edges of what their fields can be, from the first tick to the last."""
    for now in (0, 7, 1_000, LAST_TICK - 300, LAST_TICK - 256, LAST_TICK - 2, LAST_TICK - 1, LAST_TICK):
        job = Job(9, max(now - 5, 0), now + 2, 3)
        file.begin(Book, now, 4, [job] if job.deadline <= LAST_TICK else [])
        edge_offers(file)
        file.add(strike(0), strike(1), strike(9), strike(9), TICK, TICK)


def again(ticket, job, work=None):
    """An offer of the job under another ticket."""
    return offer(ticket, job.arrival, job.deadline, work or job.work)


def fill(file, top, demands):
    """Opens 64 jobs, and asks at the edges of what the book can do."""
    now = file.chance.randrange(10_000)
    jobs = [Job(65_535 - i, now + start, now + end, work) for i, (start, end, work) in enumerate(demands)]
    file.begin(Book, now, top, jobs[:62])
    first, (next_to_last, last) = jobs[0], jobs[62:]
    file.add(again(3, next_to_last), again(4, last), strike(4))
    file.add_edge(4, last.arrival, last.deadline)
    file.add(again(4, last, 1), again(5, last, 1), again(5, last, 65_535), offer(0, now, now + 1, 1))
    file.add(offer(6, now, now + 257, 1), strike(first.ticket))
    file.add_edge(first.ticket, first.arrival, first.deadline)
    file.add(*[TICK] * 2)


def full_books(file):
    """Books with all 64 places taken.

    They have equal windows, a chain, 64 blocks side by side, 64 blocks around one another, and the greatest work.
    """
    fill(file, 64, [(0, 1, 1)] * 64)
    fill(file, 4, [(3 * i, 3 * i + 4, 1) for i in range(64)])
    fill(file, 255, [(4 * i, 4 * i + 4, 3 * i + 1) for i in range(64)])
    fill(file, 255, [(i, 256 - i, 2 * i + 2 if i < 63 else 13_000) for i in range(64)])
    fill(file, 255, [(0, 256, 1_020)] * 64)


def images_of_one_job(file, now):
    """All wrong images of a book with one job."""
    book = Book.of(now, 9, [Job(3, now - 7, now + 9, 4)])
    for number in (0, 1, 2, PLACES):
        file.load(*wrong_images(book, number))


def images_of_all_numbers(file, full):
    """Images with a wrong record of each number, of a full book and of books with few jobs."""
    for number in range(IMAGE_RECORDS):
        few = Book.of(full.now, full.top, list(full.jobs.values())[:file.chance.randrange(8)])
        for book in (full, few):
            file.load(file.chance.choice(wrong_images(book, number)))
            if len(file.book.jobs) > 8:
                file.load(few.save())


def overloaded_images(file, now):
    """Images of one job, with just too much work and with just not too much."""
    for top, start, end, work in ((3, 0, 2, 7), (255, 0, 256, 65_281), (1, -255, 1, 2), (1, -255, 1, 1)):
        file.load(Book.of(now, top, [Job(1, now + start, now + end, work)]).save())


def crowded_images(file, now):
    """Images, wrong and right, with an interval that is overloaded."""
    jobs = [Job(ticket, now, now + 1, 1) for ticket in range(1, 11)] + [Job(11, now, now + 9, 3)]
    crowded = Book.of(now, 9, jobs)
    file.load(crowded.save(), *(file.chance.choice(wrong_images(crowded, number)) for number in (0, 11, 40)))


def images(file):
    """Images of books at one tick, of which most are wrong."""
    now = 5_000
    jobs = [Job(500 + 3 * i, now - 100 + 2 * i, now + 40 + 2 * (i // 2), 1 + i % 5) for i in range(64)]
    full = Book.of(now, 9, jobs)
    file.begin(Book, 44, 3, [Job(7, 40, 50, 6)])
    images_of_one_job(file, now)
    images_of_all_numbers(file, full)
    overloaded_images(file, now)
    crowded_images(file, now)
    file.load(full.save())
    file.add(TICK)


def long_life(file, top, most, longest):
    """A life of a larger book."""
    chance = file.chance
    file.begin(Book, chance.randrange(10 ** 9), top)
    saved = file.book.save()
    for _ in range(3):
        file.some(5, most, longest, 0.8, 0.15)
        now = file.book.now
        start = now + chance.randrange(200)
        file.add_edge(file.ticket(), start, chance.randrange(start + 1, now + 257))
        file.add(TICK, chance.choice((image_item(saved), image_item(file.book.save()), TICK)))


def long_lives(file):
    """Lives of larger books: long windows, many jobs, tops up to 255."""
    for kind in ((1, 0.05, 256), (4, 2, 20), (16, 3, 256), (64, 20, 200), (200, 90, 256), (255, 40, 256),
                 (255, 255, 30), (255, 300, 256)):
        long_life(file, *kind)


def odd_lists(file):
    """Lists of more records than an image has, and of too few bytes. The last one ends the file."""
    image = file.book.save()
    file.add(image_item(image + open_job(Job(1, 1, 2, 1)), IMAGE_RECORDS + 1))
    file.add(image_item(image, IMAGE_RECORDS)[:-1])


def whole():
    """The stored file."""
    file = File(3)
    for part in (new_book, worked_books, field_edges, full_books, images, long_lives):
        part(file)
    for _ in range(200):
        small_life(file)
    odd_lists(file)
    return file


def by_chance(seed):
    """A file of small lives, and a larger one, whose last record is cut."""
    file = File(seed)
    for _ in range(10):
        small_life(file)
    chance = file.chance
    file.begin(Book, chance.randrange(2 ** 47), chance.randrange(1, 256))
    file.some(20, *chance.choice(((0.05, 256, 0.9, 0.1), (20, 99, 0.6, 0.3), (90, 256, 0.6, 0.3))))
    file.load(chance.choice(wrong_images(file.book, chance.randrange(IMAGE_RECORDS))))
    file.add(TICK[:chance.randrange(1, RECORD_LEN)])
    return file


def tries():
    """Files by chance, each with what has to be printed of it."""
    for seed in range(1_000, 1_100):
        file = by_chance(seed)
        yield bytes(file.data), file.run.output()


def missing(file):
    """Which kinds of answers never come."""
    refusals = [f'R {number}' for number in (2, 3, 6, 7, 8, 9, 10, 11)]
    fields = [f'R 5 {field}' for field in range(1, 5)]
    records = [f'R 13 {number}' for number in range(IMAGE_RECORDS + 1)]
    return [name for name in ['L', 'O', 'S', 'T', *refusals, *fields, *records] if not file.kinds[name]]


def summary(file):
    """How many calls there are, and how many get each kind of answer."""
    counts = collections.Counter()
    for name, count in file.kinds.items():
        counts[words(*name.split()[:2])] += count
    small, others = file.lives['SmallBook'], file.lives['Book']
    each = ', '.join(f'{name} {count} times' for name, count in sorted(counts.items()))
    return f'{file.kinds.total()} calls in the lives of {small} small books and {others} others: {each}'


def stored(file):
    """Each stored file with what it has to hold."""
    return {
        pathlib.Path('crates/questions/stdin'): bytes(file.data),
        pathlib.Path('crates/questions/stdout'): file.run.output(),
    }

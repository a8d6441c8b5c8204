"""Short lives of small books by chance, each call added to a file (lives.py)."""
import schedule
from book import Book
from codec import IMAGE_RECORDS, TICK, offer, strike
from rules import LAST_TICK, Job, Refused
from small import SmallBook
from wrong_images import wrong_images


def small_window(file, ticks):
    """A window of a small book; near the last tick it may be none."""
    start = file.book.now + file.chance.randrange(ticks)
    end = file.chance.randrange(start + 1, file.book.now + ticks + 1)
    return min(start, LAST_TICK), min(end, LAST_TICK)


def small_jobs(file, now, ticks, top):
    """The jobs of a small book by ticket, some of which came before now. They may overload it."""
    chance, jobs = file.chance, {}
    for _ in range(chance.randrange(4)):
        start = chance.randrange(ticks)
        end = chance.randrange(start + 1, ticks + 1)
        arrival = now + start if start else max(now - chance.randrange(3), 0)
        if now + end <= LAST_TICK:
            work = chance.randrange(1, 2 + top * (end - start) // 2)
            ticket = file.ticket() or 1
            jobs[ticket] = Job(ticket, arrival, now + end, work)
    return jobs


def small_offer(file, ticks, top):
    arrival, deadline = small_window(file, ticks)
    ticket = file.chance.choice([file.ticket() or 1] * 20 + [*file.book.jobs])
    file.add(offer(ticket, arrival, deadline, file.chance.randrange(1, 2 + top * max(deadline - arrival, 1) // 2)))


def small_edge(file, ticks, top):
    arrival, deadline = small_window(file, ticks)
    if arrival < deadline:
        file.add_edge(file.ticket() or 1, arrival, deadline)


def stays_small(image, ticks, top):
    """Whether the image is refused, or its windows end in so many ticks and its top is no greater than this."""
    book = Book.of(0, 1)
    try:
        book.load(image)
    except Refused:
        return True
    return book.top <= top and all(job.deadline <= book.now + ticks for job in book.jobs.values())


def small_load(file, ticks, top, saved):
    """An image: the one that was saved, of another small book, or a wrong one."""
    chance, book = file.chance, file.book
    now = chance.choice((0, book.now, chance.randrange(2 ** 47)))
    other = Book(now, chance.randrange(1, top + 1), small_jobs(file, now, ticks, top))
    number = chance.choice((0, 1, 1 + len(book.jobs), chance.randrange(IMAGE_RECORDS)))
    image = chance.choice((other.save(), saved, chance.choice(wrong_images(book, number))))
    if stays_small(image, ticks, top):
        file.load(image)


def small_refused(file):
    """An offer with fields that they can't have."""
    now, chance = file.book.now, file.chance
    arrival = chance.choice((now, max(now - 1, 0)))
    ticket = chance.choice((0, file.ticket()))
    return offer(ticket, arrival, chance.choice((arrival, min(now + 257, LAST_TICK))), chance.choice((0, 1)))


def small_spoilt(file):
    """A record with bytes that may be forbidden."""
    now = file.book.now
    return file.spoilt(file.chance.choice((TICK, strike(3), offer(3, now, now, 1))))


def small_call(file, ticks, top, saved):
    """A call of a small book, which has at most five open jobs."""
    which = file.chance.random()
    if which < 0.55 and len(file.book.jobs) < 5:
        file.chance.choice((small_offer, small_offer, small_edge))(file, ticks, top)
    elif which < 0.84:
        file.add(TICK)
    elif which < 0.89:
        file.add(file.strike())
    elif which < 0.92:
        file.add(small_spoilt(file))
    elif which < 0.95:
        file.add(small_refused(file))
    else:
        small_load(file, ticks, top, saved)


def small_life(file):
    """A short life of a small book."""
    chance = file.chance
    ticks = chance.randrange(2, 8)
    top = chance.randrange(1, {2: 9, 3: 8, 4: 7, 5: 5, 6: 4, 7: 3}[ticks])
    now = chance.choice((0, 0, chance.randrange(100), chance.randrange(LAST_TICK - 299),
                         LAST_TICK - chance.randrange(8)))
    jobs = small_jobs(file, now, ticks, top)
    while schedule.first_overload(top, Book(now, top, jobs).demands()):
        jobs.popitem()
    file.begin(SmallBook, now, top, jobs.values())
    saved = file.book.save()
    for _ in range(chance.randrange(8, 15)):
        small_call(file, ticks, top, saved)

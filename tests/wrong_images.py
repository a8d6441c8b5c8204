"""Records of images, and images, of which most are wrong."""
import dataclasses
import functools

from codec import BLANK, RECORD_LEN, clock, numbers, open_job, records_in
from rules import HORIZON, LAST_TICK, Job


def changed(record, at, byte):
    return record[:at] + bytes([byte]) + record[at + 1:]


def with_spaces(record):
    """The record with a space at each byte of its end."""
    return [changed(record, at, 0x20) for at in range(18, RECORD_LEN)]


def wrong_clocks(book):
    """Records of now and the top of which most are wrong."""
    record = clock(book.now, book.top)
    tops = [clock(book.now, top) for top in (0, 1, 255, 256, 65_535)]
    spoilt = [changed(record, at, byte) for at, byte in ((1, 1), (2, 1), (3, 9), (10, 1), (15, 3))]
    return tops + spoilt + with_spaces(record)


def wrong_fields(now, job):
    """Open jobs with other fields, of which most are wrong."""
    other = functools.partial(dataclasses.replace, job)
    starts = (job.deadline - 257, job.deadline - 256, job.deadline, job.deadline + 1)
    ends = (now + 256, now + 257)
    return [
        other(ticket=0),
        other(work=0),
        other(arrival=max(now - 1, 0), deadline=now),
        *(other(arrival=start) for start in starts if 0 <= start <= LAST_TICK),
        *(other(arrival=end - 256, deadline=end) for end in ends if 256 <= end <= LAST_TICK),
    ]


def wrong_orders(before, job):
    """Open jobs that can't follow those before."""
    first, last = before[0], before[-1]
    tickets = [dataclasses.replace(job, ticket=first.ticket), dataclasses.replace(job, ticket=last.ticket)]
    return tickets + [dataclasses.replace(last, ticket=max(last.ticket - 1, 1)), last]


def wrong_jobs(book, before, record):
    """Records of an open job, after those of others, of which most are wrong."""
    job = numbers(record)
    jobs = wrong_fields(book.now, job) + (wrong_orders(before, job) if before else [])
    kinds = [changed(record, 0, byte) for byte in (0x00, 0x43, 0x4B, 0x4F)]
    return [*map(open_job, jobs), *kinds, changed(record, 1, 1), *with_spaces(record), BLANK]


def wrong_blanks(book):
    """Records after those of the open jobs of which most are wrong."""
    job = open_job(Job(65_535, book.now, min(book.now + HORIZON, LAST_TICK), 1))
    return [changed(BLANK, at, 1) for at in range(RECORD_LEN)] + [changed(BLANK, 0, 0x4A), job, b' ' * RECORD_LEN]


def wrong_records(book, records, number):
    """Other records of that number, of which most are wrong there."""
    if number == 0:
        return wrong_clocks(book)
    if number > len(book.jobs):
        return wrong_blanks(book)
    return wrong_jobs(book, [numbers(record) for record in records[1:number]], records[number])


def wrong_images(book, number):
    """Images of the book with another record of that number. Most are wrong there."""
    records = records_in(book.save())
    before, record, after = records[:number], records[number], records[number + 1:]
    found = [[*before, other, *after] for other in wrong_records(book, records, number)]
    if 0 < number < len(book.jobs):
        found.append([*before, after[0], record, *after[1:]])
    return [b''.join(image) for image in found]

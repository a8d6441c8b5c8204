"""Records, images, and the items that `questions` reads, to bytes and from bytes, as docs/FORMATS.md has them."""
import dataclasses
import struct

from rules import PLACES, Job, Refused

RECORD_LEN = 24
IMAGE_RECORDS = 1 + PLACES
IMAGE_LEN = IMAGE_RECORDS * RECORD_LEN
BLANK = bytes(RECORD_LEN)

OFFER, STRIKE, TICK_KIND = b'OST'
CLOCK, OPEN_JOB = b'CJ'
IMAGE_ITEM = ord('I')

# Kind, 0, ticket, arrival, deadline, work, label.
FIELDS = struct.Struct('>BBH6s6sH6s')

# What may stand at each byte of a record: k kind, z zero, n any byte, p a byte of a label, s a space.
LAYOUTS = {
    OFFER: 'kz' + 'n' * 16 + 'p' * 6,
    STRIKE: 'kz' + 'nn' + 'z' * 14 + 's' * 6,
    TICK_KIND: 'kz' + 'z' * 16 + 's' * 6,
}
ALLOWED = {
    'k': lambda byte: True,
    'z': lambda byte: byte == 0,
    'n': lambda byte: True,
    'p': lambda byte: 0x20 <= byte <= 0x7E,
    's': lambda byte: byte == 0x20,
}


@dataclasses.dataclass(frozen=True)
class Offer:
    """What an offer says, its label without the last spaces."""
    job: Job
    label: str


@dataclasses.dataclass(frozen=True)
class Strike:
    """What a strike says."""
    ticket: int


@dataclasses.dataclass(frozen=True)
class Tick:
    """What a tick says."""


def pack(kind, job, label=bytes(6)):
    """A record with these fields."""
    arrival, deadline = (tick.to_bytes(6, 'big') for tick in (job.arrival, job.deadline))
    return FIELDS.pack(kind, 0, job.ticket, arrival, deadline, job.work, label)


def numbers(record):
    """The numbers of a record, whatever its other bytes are."""
    _, _, ticket, arrival, deadline, work, _ = FIELDS.unpack(record)
    return Job(ticket, int.from_bytes(arrival, 'big'), int.from_bytes(deadline, 'big'), work)


def offer(ticket, arrival, deadline, work, label=b''):
    """The record of an offer."""
    return pack(OFFER, Job(ticket, arrival, deadline, work), label.ljust(6))


def strike(ticket):
    """The record of a strike."""
    return pack(STRIKE, Job(ticket, 0, 0, 0), b' ' * 6)


TICK = pack(TICK_KIND, Job(0, 0, 0, 0), b' ' * 6)


def read(offset, record):
    """What the record says that begins at this offset."""
    if len(record) < RECORD_LEN:
        raise Refused(1, offset)
    if record[0] not in LAYOUTS:
        raise Refused(2, offset)
    for at, (layout, byte) in enumerate(zip(LAYOUTS[record[0]], record)):
        if not ALLOWED[layout](byte):
            raise Refused(3, offset + at)
    if record[0] == TICK_KIND:
        return Tick()
    job = numbers(record)
    return Strike(job.ticket) if record[0] == STRIKE else Offer(job, record[18:].decode('ascii').rstrip(' '))


def clock(now, top):
    """The first record of an image."""
    return pack(CLOCK, Job(0, now, 0, top))


def open_job(job):
    """The record of an open job in an image."""
    return pack(OPEN_JOB, job)


def image(now, top, jobs):
    """The image with these open jobs, in this order."""
    records = [clock(now, top), *map(open_job, jobs)]
    return b''.join(records).ljust(IMAGE_LEN, b'\0')


def records_in(data):
    """The records of an image or of a file. The last one may be cut."""
    return [data[at:at + RECORD_LEN] for at in range(0, len(data), RECORD_LEN)]


def image_item(data, count=None):
    """The item of an image: so many of its records, or those up to the last that is not blank."""
    if count is None:
        count = -(-len(data.rstrip(b'\0')) // RECORD_LEN)
    return bytes([IMAGE_ITEM, count]) + data[:count * RECORD_LEN]


def item_len(data):
    """How many bytes the item has with which the data begins, unless it is cut."""
    if data[0] != IMAGE_ITEM:
        return RECORD_LEN
    count = data[1] if len(data) > 1 else 0
    return 2 + count * RECORD_LEN


def image_in(item):
    """The list that the item of an image loads. Blank records follow those of an item that is whole."""
    records = item[2:]
    return records.ljust(IMAGE_LEN, b'\0') if len(item) == item_len(item) else records


def items_in(data):
    """The items of a file. The last one may be cut."""
    while data:
        size = item_len(data)
        yield data[:size]
        data = data[size:]

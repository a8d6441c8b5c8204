"""What `questions` has to print: what each call answers, and what every question answers after it."""
import dataclasses
import itertools

import bench
import codec
from bench import words
from book import Book
from rules import Refused

# Two cubes, the greatest cube, a floor over a cube, and a measured model.
MODELS = [
    lambda s: 10 + s ** 3,
    lambda s: s ** 3,
    lambda s: 66_000_000 + 255 * s ** 3,
    lambda s: max(s, 2) ** 3,
    lambda s: s * (s + 1) // 2,
]


@dataclasses.dataclass(frozen=True)
class Answers:
    """What the questions answer."""
    settings: tuple
    blocks: list
    bills: list
    image: bytes


# No book answers this.
NOTHING = Answers((), [], [], bytes(codec.IMAGE_LEN))


def asked(book):
    return Answers(book.settings(), book.blocks(), [book.bill(model) for model in MODELS], book.save())


def runs(settings):
    return [f'{setting}*{len(list(run))}' for setting, run in itertools.groupby(settings)]


def dotted(record):
    """The record up to its last byte that is not 00, in hexadecimal, with a dot for a byte 00."""
    return ''.join(f'{byte:02x}' if byte else '.' for byte in record.rstrip(b'\0'))


def new_records(image, before):
    """The records of the image that stood otherwise in the image before, with their numbers."""
    pairs = zip(codec.records_in(image), codec.records_in(before))
    return [f'{number}:{dotted(record)}' for number, (record, old) in enumerate(pairs) if record != old]


def told(answers, before):
    """The lines of the answers, after those before."""
    if answers == before:
        return ['as before']
    return [
        words('settings', *runs(answers.settings)),
        words('blocks', *(f'{block.work}/{block.length}@{block.start}-{block.end}' for block in answers.blocks)),
        words('bills', *answers.bills),
        words('image', *new_records(answers.image, before.image), 'same'),
    ]


def accepted(book, item):
    """The line of an item, once the book has accepted it. A label is not told."""
    if item[0] == codec.IMAGE_ITEM:
        book.load(codec.image_in(item))
        return 'L ok'
    line = bench.accepted(book, codec.read(0, item))
    return words(*line.split()[:3]) if line[0] == 'O' else line


class Run:
    """The lines of one item after another."""

    def __init__(self, book):
        self.book, self.lines = book, []
        self.answers, self.printed = None, NOTHING

    def turn(self, kind):
        """Goes on with a book of this kind."""
        self.book, self.answers = kind(self.book.now, self.book.top, self.book.jobs), None

    def call(self, item):
        """Makes the call of the item, and says its line. The questions are asked again where the book has changed."""
        before = self.book.save()
        try:
            line = accepted(self.book, item)
        except Refused as refused:
            line = words('R', refused.number, *refused.values)
        if self.answers is None or self.book.save() != before:
            self.answers = asked(self.book)
        self.lines += [line, *told(self.answers, self.printed)]
        self.printed = self.answers
        return line

    def output(self):
        return ''.join(line + '\n' for line in self.lines).encode('ascii')


def output(data):
    """All lines of a file."""
    run = Run(Book.of(0, 1))
    for item in codec.items_in(data):
        run.call(item)
    return run.output()

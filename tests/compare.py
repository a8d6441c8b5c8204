#!/usr/bin/env python3
"""Compares what is stored, or what the programs print, with what the modules here work out.

    tests/compare.py                        check the stored files
    tests/compare.py --write                write the stored files anew
    tests/compare.py --against NAME=PATH    run the built program PATH on files made by chance, and compare its output;
                                            NAME is bench or questions, and both can be given
    tests/compare.py --print NAME=FILE      print what bench or questions has to print for FILE

The modules follow docs/FORMATS.md and docs/RULES.md, and share no code with the programs. Small books are answered by
an exhaustive search over all sharings and all pairs (schedule.py), and larger ones by a book of its own (book.py).
"""
import argparse
import pathlib
import subprocess
import sys

sys.dont_write_bytecode = True

import bench
import lives
import questions
import schedule
import small

ROOT = pathlib.Path(__file__).resolve().parent.parent
TRIES = {'bench': bench.tries, 'questions': lives.tries}
OUTPUTS = {'bench': bench.transcript, 'questions': questions.output}


def stored(file):
    """Each stored file with what it has to hold."""
    return {**bench.stored(), **lives.stored(file), **schedule.stored()}


def wrongly_stored(files):
    """The stored files that hold something else."""
    for name, held in files.items():
        path = ROOT / name
        if not path.is_file() or path.read_bytes() != held:
            yield f'{name} is not what it has to be'


def disagreements(file):
    """Where the oracle differs from an example worked by hand, or from itself."""
    if bench.transcript(bench.SAMPLE) != bench.SAMPLE_LINES:
        yield 'the example of docs/FORMATS.md is answered otherwise'
    if questions.output(bytes(file.data)) != file.run.output():
        yield 'search and book answer the file of questions otherwise'
    if small.unlike():
        yield 'search and book answer small books otherwise'


def gaps(file):
    """The answers that no call gets."""
    return (f'no call of questions answers {name}' for name in lives.missing(file))


def check():
    """Checks the stored files. Answers whether all is as it has to be."""
    file = lives.whole()
    files = stored(file)
    faults = [*wrongly_stored(files), *disagreements(file), *gaps(file)]
    for fault in faults:
        print(f'compare.py: {fault}')
    print(f'compare.py: questions are asked after {lives.summary(file)}')
    print(f'compare.py: {len(files)} stored files compared, {len(faults)} faults')
    return not faults


def write():
    for path, held in stored(lives.whole()).items():
        (ROOT / path).write_bytes(held)
    return True


def is_printed(program, data, output):
    run = subprocess.run([program], input=data, capture_output=True, check=False)
    return run.returncode == 0 and run.stdout == output


def against(name, program):
    """Compares what the program prints for files made by chance. Answers whether all are alike."""
    alike = [is_printed(program, data, output) for data, output in TRIES[name]()]
    print(f'compare.py: {name} prints {alike.count(True)} files alike and {alike.count(False)} otherwise')
    return all(alike)


def show(name, path):
    sys.stdout.buffer.write(OUTPUTS[name](pathlib.Path(path).read_bytes()))
    return True


def named(text):
    """The name of a program and a path."""
    name, _, path = text.partition('=')
    if name not in TRIES or not path:
        raise argparse.ArgumentTypeError(f'{text} is not bench=PATH or questions=PATH')
    return name, path


def arguments():
    parser = argparse.ArgumentParser(description=__doc__, formatter_class=argparse.RawDescriptionHelpFormatter)
    ways = parser.add_mutually_exclusive_group()
    ways.add_argument('--write', action='store_true', help='write the stored files anew')
    ways.add_argument('--against', nargs='+', type=named, metavar='NAME=PATH', help='compare what programs print')
    ways.add_argument('--print', type=named, metavar='NAME=FILE', help='print what a program has to print')
    return parser.parse_args()


def main():
    asked = arguments()
    if asked.write:
        return write()
    if asked.against:
        return all([against(*pair) for pair in asked.against])
    if asked.print:
        return show(*asked.print)
    return check()


if __name__ == '__main__':
    sys.exit(0 if main() else 1)

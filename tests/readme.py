#!/usr/bin/env python3
"""Checks that README.md shows the crate `example` as it is: its program, its line in crates.txt and what it prints."""
import pathlib
import re
import sys

ROOT = pathlib.Path(__file__).resolve().parent.parent
EXAMPLE = ROOT / 'crates' / 'example'


def blocks(text):
    """The fenced blocks of a page."""
    return re.findall(r'^```\w*\n(.*?)^```$', text, re.M | re.S)


def wanted():
    """What README.md has to show, by name."""
    lines = (ROOT / 'crates.txt').read_text().splitlines()
    line = next((line for line in lines if line.startswith('example:')), None)
    return {'program': (EXAMPLE / 'src' / 'main.rt').read_text(), 'output': (EXAMPLE / 'stdout').read_text(),
            'line of crates.txt': line}


def missing(page):
    """The names of what README.md does not show."""
    shown = [*blocks(page), *re.findall(r'`([^`\n]+)`', page)]
    return [name for name, text in wanted().items() if text not in shown]


def main():
    gone = missing((ROOT / 'README.md').read_text())
    for name in gone:
        print(f'readme.py: README.md does not show the {name} of the crate example')
    return not gone


if __name__ == '__main__':
    sys.exit(0 if main() else 1)

#!/usr/bin/env python3
"""headings.py

Each heading that this folder names is one of docs/SPECIFICATION.md, and each of those that has a rule for a calculation is named here."""
import pathlib
import re
import sys

here = pathlib.Path(__file__).resolve().parent
PAGE = here.parents[1] / 'docs' / 'SPECIFICATION.md'
# what words and promises are, what was compared, and what follows for lists of calls
NO_CALCULATION = ('Words and units', 'What is promised', 'House P and the original')
FOLLOWS = ('Lists of calls', 'Equality of books')


def headings():
    section = ''
    for line in PAGE.read_text().split('\n'):
        found = re.match(r'(##+) (.*)', line)
        if found and len(found[1]) == 2:
            section = found[2]
        elif found:
            yield section, found[2].strip()


def named():
    for path in sorted(here.glob('*.py')):
        for found in re.finditer(r'(?<=Specification, )[A-Z][^;:.\n]*', path.read_text()):
            yield path.name, found.group().strip()


def main():
    page, names = list(headings()), list(named())
    wrong = [f'{file} names a heading that is not there: {name}' for file, name in names if name not in [heading for _, heading in page]]
    wrong += [f'no function names {heading}' for section, heading in page
              if section not in NO_CALCULATION and heading not in FOLLOWS and heading not in [name for _, name in names]]
    if wrong:
        sys.exit('headings.py:\n' + '\n'.join(wrong))
    print(f'headings: {len(set(name for _, name in names))} of {len(page)} are named')


if __name__ == '__main__':
    main()

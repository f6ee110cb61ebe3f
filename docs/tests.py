"""docs/tests.txt: what must be there to be tested, a kind and what there is of it a line. docs/check_tests writes it and holds the tree to it."""
import antt

path = antt.top / 'docs' / 'tests.txt'


def read():
    """By kind, the rest of each line."""
    found = {}
    for line in path.read_text().split('\n') if path.exists() else []:
        kind, _, rest = line.split('#')[0].strip().partition(' ')
        if kind:
            found.setdefault(kind, []).append(rest)
    return found

"""The contracts of the functions that a crate promises: of src/promised.rt and src/session.rt, and of each function that C calls. Each clause is on one line."""
import re

import antt

PROMISING = ('promised.rt', 'session.rt')
BEGIN = re.compile(r'^pub (extern "C" )?fn (\w+)', re.M)
BODY = re.compile(r'^(?:\{$(.*?)^\}|\{\})$', re.M | re.S)


class Contract:
    """`clauses` are its `requires` and `ensures`, each with its name (or '') and its proposition."""

    def __init__(self, path, for_c, name, text, body):
        self.path, self.for_c, self.name, self.body = path, for_c, name, antt.one_line(body)
        head, *clauses = re.split(r'\n\s*(?=(?:requires|ensures)\b)', text)
        self.head = re.sub(r'\( ', '(', re.sub(r',? \)', ')', antt.one_line(head)))
        self.clauses = [re.match(r'(requires|ensures) ?(\w*) ?\{ (.*) \}$', antt.one_line(clause)) for clause in clauses]
        if None in self.clauses:
            raise SystemExit(f'{path}: a clause of {name} cannot be read')
        self.clauses = [clause.groups() for clause in self.clauses]

    def ensured(self):
        return {name: proposition for word, name, proposition in self.clauses if word == 'ensures'}

    def parameters(self):
        return re.findall(r'(\w+): ', re.search(r'\((.*)\)', self.head).group(1))

    def lines(self):
        return [self.head, *(f"  {' '.join(part for part in (word, name) if part)} {{ {proposition} }}" for word, name, proposition in self.clauses)]


def uses(path):
    """What the names in a file's contracts stand for: each with its module and its name there."""
    found = {}
    for module, listed, alone in re.findall(r'^ghost use ([\w.]+?)\.(?:\{([^}]*)\}|(\w+));', path.read_text(), re.M):
        for name in (listed or alone).split(','):
            parts = name.strip().split(' as ')
            found[parts[-1]] = (module, parts[0])
    return found


def conclusion(text):
    """What stands behind the last arrow that is in no brackets."""
    depth, begin = 0, 0
    for place, c in enumerate(text):
        depth += (c in '({[') - (c in ')}]')
        if c == '→' and depth == 0:
            begin = place + 1
    return text[begin:].strip()


def of_file(path):
    text = '\n'.join(antt.without_line_comment(line) for line in path.read_text().split('\n'))
    for begun in BEGIN.finditer(text):
        if begun.group(1) or path.name in PROMISING:
            body = BODY.search(text, begun.start())
            if body is None:
                raise SystemExit(f'{path}: no end of {begun.group(2)} is found')
            yield Contract(path, bool(begun.group(1)), begun.group(2), text[begun.start():body.start()], body.group(1) or '')


def contracts(crate):
    """The contracts of a crate, file by file."""
    return [contract for path in sorted((antt.top / 'crates' / crate / 'src').rglob('*.rt')) for contract in of_file(path)]

"""The .antt files of the crates, read as far as docs/theorems and docs/check_theorems need: what each file imports, and each item with its parameters, its type and its body."""
import pathlib, re

top = pathlib.Path(__file__).resolve().parent.parent
WORD = r"[^\s(){};,λ.:=\\→]+"
NAME = re.compile(WORD + r"(?:\." + WORD + r")*")
ITEM = re.compile(r"((?:(?:pub|abbrev|unfoldable|record|data|ruleset) )*)(" + WORD + r")(.*)", re.S)


def crates():
    """The crates of crates.txt in its order, which is lowest first."""
    lines = [line.split('#')[0] for line in (top / 'crates.txt').read_text().split('\n')]
    return [line.split(':')[0].split()[0] for line in lines if ':' in line]


def one_line(text):
    return ' '.join(text.split())


def without_line_comment(line):
    """A line of code without its comment."""
    return re.sub(r'(^|\s)//.*', '', line).rstrip()


def without_comment(line):
    return re.sub(r'(^|\s)--.*', '', line).rstrip()


class Item:
    """A record, a data type, a ruleset or a value: `words` are those before its name, `parameters` those of the modules that it stands in, `type` what
    stands behind its name, `parts` the fields, the constructors or the clauses, each on one line."""

    def __init__(self, file, name, words, parameters, type_, parts):
        self.file, self.name, self.parameters, self.type, self.parts = file, name, parameters, one_line(type_), parts
        self.public = 'pub' in words or 'ruleset' in words
        self.sort = next((word for word in ('record', 'data', 'ruleset', 'abbrev', 'unfoldable') if word in words), '')  # of a value with a proof none

    def text(self):
        return ' '.join([*self.parameters, self.type, *self.parts])

    def is_type(self):
        return self.sort in ('record', 'data') or re.search(r'(^|[ →:])Type( \d+|_)?$', self.type) is not None

    def head(self):
        return one_line(' '.join([self.sort, self.name, *self.parameters, self.type]))


class File:
    def __init__(self, path):
        self.path = path
        self.crate = path.relative_to(top / 'crates').parts[0]
        self.inside = path.relative_to(top / 'crates' / self.crate)
        self.module = '.'.join(['Rattle', self.crate, *self.inside.with_suffix('').parts])
        self.names, self.aliases, self.items = {}, {}, {}
        self.order = []
        lines = [without_comment(line) for line in path.read_text().split('\n')]
        self.read([line for line in lines if line.strip()], [])

    def read(self, lines, parameters):
        for block in blocks(lines):
            self.read_block(block, parameters)

    def read_block(self, block, parameters):
        first = block[0].strip()
        if re.match(r'(pub )?(unfoldable pub )?use ', first):
            self.read_use(one_line(' '.join(block)))
        elif first.startswith('module '):
            end = next(i for i, line in enumerate(block) if line.endswith('where'))
            header = one_line(' '.join(block[:end + 1]))
            inner = re.match(r'module \S+ ?(.*?) ?where$', header).group(1)
            self.read(block[end + 1:], parameters + ([inner] if inner else []))
        elif not re.match(r'(pub )?mod |unfolding ', first):
            self.read_item(block, parameters)

    def read_item(self, block, parameters):
        text = '\n'.join(block).strip()
        begun = ITEM.match(text)
        words, name, rest = begun.groups() if begun else ('', '', '')
        words = words.split()
        if 'record' in words or 'data' in words:
            end = next((i for i, line in enumerate(block) if line.endswith('where')), len(block) - 1)
            type_ = ITEM.match('\n'.join(block[:end + 1]).strip()).group(3)
            fields = [re.sub(r'^pub ', '', one_line(' '.join(part))) for part in blocks(block[end + 1:])]
            self.add(Item(self, name, words, parameters, re.sub(r'\s*\bwhere$', '', type_), fields))
        elif 'ruleset' in words:
            self.add(Item(self, name, words, parameters, '', [one_line(rest)]))
        elif re.match(r'\s*:(\s|$)', rest):
            self.add(Item(self, name, words, parameters, rest, []))
        elif self.order:
            self.order[-1].parts.append(one_line(text))  # a clause of the value above

    def add(self, item):
        self.items.setdefault(item.name, item)
        self.order.append(item)

    def read_use(self, line):
        path, listed, alias = re.match(r'(?:pub )?(?:unfoldable pub )?use ([^\s{]+?)\.?(?:\{(.*)\})?(?: as (\S+))?$', line).groups()
        if alias:
            self.aliases[alias] = path
        for name in (listed or '').split(','):
            parts = name.split(' as ')
            if parts[0].strip():
                self.names[parts[-1].strip()] = (path, parts[0].strip())


def blocks(lines):
    """The lines, split where one begins at the least indentation."""
    found = []
    for line in lines:
        indent = len(line) - len(line.lstrip())
        if not found or indent <= least and line.strip()[0] not in '})':
            least = indent
            found.append([line])
        else:
            found[-1].append(line)
    return found


class Sources:
    """All .antt files that git would have: not what `rt` writes (out/)."""

    def __init__(self):
        self.files = {}
        for crate in crates():
            for folder in ('specs', 'proofs'):
                for path in sorted((top / 'crates' / crate / folder).rglob('*.antt')):
                    file = File(path)
                    self.files[file.module] = file

    def exported(self, module, name):
        """The item that a file's name stands for, through what the file passes on."""
        while module in self.files:
            file = self.files[module]
            if name in file.items:
                return file.items[name]
            if name not in file.names:
                return None
            module, name = file.names[name]
        return None

    def resolved(self, file, word):
        """The item of the repository that a word of a file names, if any."""
        if '.' in word:
            front, last = word.rsplit('.', 1)
            if front in file.aliases:
                return self.exported(file.aliases[front], last)
            word = word.split('.')[0]  # a field of a value, or the value of an imported name
        return self.exported(file.module, word)

    def named(self, item):
        """Every item that an item's text names, apart from itself."""
        found = {self.resolved(item.file, word) for word in NAME.findall(item.text())}
        return found - {None, item}

#!/usr/bin/env python3
"""Holds docs/PROMISES.md to the tree: its names, files and edits exist, and every public function and every edit stands in it.

Use: tests/promises.py [PAGE]. The crates are those of crates.txt; a heading with "(crate `x`)" opens the section of crate x.
A name is of its section's crate, or of the one that the text says: "`f` of `walk`", "walk's f", "walk: f", "crate `walk`, f".
"""
import re
import sys
from fnmatch import filter as matching
from pathlib import Path

ROOT = Path(__file__).resolve().parent.parent
PAGE = Path(sys.argv[1]) if len(sys.argv) > 1 else ROOT / 'docs/PROMISES.md'
CRATES = re.findall(r'^(\w+):', (ROOT / 'crates.txt').read_text(), re.M)
CRATE = '(?:' + '|'.join(CRATES) + r')\b'
# Words of the language and its library, which no crate defines.
LANGUAGE = {'true', 'false', 'requires', 'ensures', 'ap'}
# Where the names of a column stand; those of other columns and of prose stand anywhere in their crate.
ANYWHERE = ('src', 'types', 'specs', 'proofs', 'files')
COLUMNS = {
    'definition': ('specs', 'types'),
    'field': ('specs',),
    'theorem': ('proofs',),
    'contract or theorem': ('src', 'proofs'),
    'law': ('src', 'proofs'),
}
passed, missed = 0, 0


def check(good, place, what):
    global passed, missed
    passed, missed = passed + bool(good), missed + (not good)
    if not good:
        print(f'missed: {place}: {what}')


class Crate:
    def __init__(self, name):
        self.path = ROOT / 'crates' / name
        self.program = (self.path / 'src/main.rt').exists()
        self.functions = []  # the public ones: place, name, and name with its type where it is a method
        self.names = {role: set() for role in ANYWHERE}
        for file in sorted(self.path.glob('src/**/*.rt')):
            self.read_code(file)
        # A definition is cited where it is public; a theorem stands though it is not.
        words = '(?:unfoldable |abbrev |record |data )*'
        for role, which in ('specs', ''), ('proofs', '?'):
            for file in self.path.glob(role + '/**/*.antt'):
                self.names[role] |= set(re.findall(rf'^(?: *{words}pub ){which}{words}(\S+) ', file.read_text(), re.M))
        self.names['files'] = {file.stem for file in self.path.glob('specs/*.antt')}
        folders = self.path / 'must-fail', ROOT / 'edits' / name
        self.edits = {file.stem: file.relative_to(ROOT) for folder in folders for file in folder.glob('*.edit')}

    def read_code(self, file):
        owner = ''
        for number, line in enumerate(file.read_text().split('\n'), 1):
            if found := re.match(r'(?:impl|pub struct|pub enum) (\w+)', line):
                owner = found[1] + '::'
                self.names['types'].add(found[1])
            if found := re.match(r'( *)(pub )?fn (\w+)', line):
                whole = owner * bool(found[1]) + found[3]
                self.names['src'] |= {found[3], whole}
                if found[2]:
                    self.functions.append((f'{file.relative_to(ROOT)}:{number}', found[3], whole))

    def has(self, name, roles):
        return any(matching(self.names[role], name) for role in roles)


class Text:
    """A cell of a table or a paragraph, with the line that it begins on and the crates of its section."""

    def __init__(self, text, line, here):
        self.text, self.line, self.here = text, line, here

    def place(self, start):
        return f'{PAGE.name}:{self.line + self.text.count(chr(10), 0, start)}'

    def owners(self, found):
        """The crates that a name may be of, going by what is said between the semicolons around it."""
        before, behind = self.text[:found.start()].split(';')[-1], self.text[found.end():].split(';')[0]
        if said := re.match(rf'\s+of\s+`?({CRATE})', behind):
            return [said[1]]
        if said := re.search(rf"^\s*({CRATE}): |\b({CRATE})'s? (?:`?[\w-]+`?, )*$|\bcrate `({CRATE})`, ", before):
            return [said[1] or said[2] or said[3]]
        return self.here + re.findall(rf'\s+of\s+`?({CRATE})', behind) if self.here else CRATES

    def names(self, roles):
        for found in re.finditer(r'`([^`]+)`(\s+of\s+proofs/)?', self.text):
            if '/' in found[1]:
                roots = [ROOT] + [crates[name].path for name in self.here or CRATES]
                good = any(list(root.glob(found[1] + end)) for root in roots for end in ('', '.antt'))
                check(good, self.place(found.start()), f'`{found[1]}` is no file or folder: correct the path')
            elif found[1] not in CRATES or not re.search(r'(\bof|\bcrates?|\bprograms?|,|and)\s+$', self.text[:found.start()]):
                for word in set(re.findall(r"[^\W\d][\w'*:-]+", found[1])) - LANGUAGE:
                    self.name(word, found, ('proofs',) if found[2] else roles)

    def name(self, word, found, roles):
        owners = self.owners(found)
        where = ' or '.join(roles[:4]) + ' of ' + (' or '.join(owners) if owners != CRATES else 'any crate')
        good = any(crates[owner].has(word, roles) for owner in owners)
        check(good, self.place(found.start()), f'`{word}` is no name in {where}: correct it, or say which crate it is of')

    def files(self):
        folder = ''
        named = rf'(?:({CRATE}) )?\b(src|specs|proofs)/(\w+(?:\.\w+)?)|(?<![\w/])(\w+\.(?:antt|rt))\b'
        for found in re.finditer(named, self.text):
            folder, name = found[2] or folder, found[3] or found[4]
            owners = [found[1]] if found[1] else self.owners(found)
            good = any((crates[owner].path / folder / (name + end)).exists() for owner in owners for end in ('', '.antt'))
            check(good, self.place(found.start()), f'{folder}/{name} is no file of {" or ".join(owners)}: correct its name')
        reading = r'(?:\b[Rr]ead|`specs/`)(?:\s+`specs/`)?(?:\s+in this order:)?((?:[,;]?\s+(?:and |for \w+ also )?[A-Z]\w+)+)'
        for found in re.finditer(reading, self.text):
            for word in re.findall(r'\b(?!S\d)[A-Z]\w+', found[1]):
                good = any(word in crates[name].names['files'] for name in self.here)
                check(good, self.place(found.start()), f'specs/{word} is no file: correct the order of reading')

    def edits(self):
        for found in re.finditer(r'\w+_\w+', self.text):
            owners = self.owners(found)
            listed.update((owner, found[0]) for owner in owners)
            good = any(found[0] in crates[owner].edits for owner in owners)
            check(good, self.place(0), f'{found[0]} is no edit of {" or ".join(owners)}: write it, or correct its name')


def read_page():
    here, columns = [], []
    for block in re.finditer(r'^[#|].*|^(?:[^#|\n].*\n?)+', PAGE.read_text(), re.M):
        line, text = PAGE.read_text().count('\n', 0, block.start()) + 1, block[0]
        cells = [cell.strip() for cell in text.strip('|').split('|')] if text[0] == '|' else []
        if text[0] == '#':
            opened = re.search(r'\(crates? .*\)', text)
            here = re.findall(rf'`({CRATE})`', opened[0]) if opened else []
            check(here or not opened, f'{PAGE.name}:{line}', 'the heading names no crate of crates.txt: correct it')
        for name in here:
            mentioned.setdefault(name, set()).update(re.findall(r'`([^`]+)`', text))
        for column, cell in zip(columns, cells):
            part = Text(cell, line, here)
            part.edits() if column == 'edit' else part.files() if column == 'file' else part.names(COLUMNS.get(column, ANYWHERE))
        if text[0] not in '#|':
            Text(text, line, here).names(ANYWHERE)
            Text(text, line, here).files()
        columns = columns or cells if cells else []


crates = {name: Crate(name) for name in CRATES}
listed, mentioned = set(), {}
read_page()
for name, crate in crates.items():
    if not crate.program:
        check(name in mentioned, 'crates.txt', f'{name} has no section in {PAGE.name}: add one, headed "(crate `{name}`)"')
        for place, short, whole in crate.functions:
            good = {short, whole} & mentioned.get(name, set())
            check(good, place, f'`{whole}` stands in no row of the section of {name} in {PAGE.name}: add it to one')
        for edit, file in sorted(crate.edits.items()):
            check((name, edit) in listed, file, f'the edit stands in no row of {PAGE.name}: name it in the edit column of one')
print(f'{passed} passed, {missed} failed')
sys.exit(missed > 0)

#!/usr/bin/env python3
"""Shifts the labels of models: every label from --from on (3) goes up by --by (1), so that one more term can be fixed.

Use: tests/shift.py [--from N] [--by N] [--dynamic] [--show] FILE..
FILE is a model or an input of tests/vectors; or cases, *.tsv, whose third column is an input as printf %b reads it; or a page,
*.md, whose lines of a model stand between backticks or in a block, tabs shown as blanks, and "label 3" in the row of one.
--dynamic also sets the first value of dynamic registers from 1 to 3. Files are written in place, with --show to standard output.
Lines that are not of a model's form stay byte for byte. Of a page, the lines left for a person are told: those that speak of a
label, and the rows of registers that --dynamic changed.
"""
import argparse
import re
import sys
from pathlib import Path

# The parts of a term that are labels, by kind, and the operands that an action uses, by op: places of the line's fields.
PARTS = {9: (3, 4), 10: (3,), 11: (3,), 12: (3,), 13: (3,), 14: (3, 4), 15: (4,)}
OPERANDS = {op: (4, 5) if op in (7, 8, 9, 10, 11, 12, 17) else (4,) for op in (1, 2, 5, *range(7, 18), 19)}
FIELDS = {'E': 5, 'A': 6, 'L': 5}
DYNAMIC = '3'
# The table holds 512 terms: a label that is past this names nothing whatever the fixed ones are, and stays.
FAR = 1024
LINE = re.compile(r'[EAL](?:\t(?:0|[1-9]\d{0,4}))+')


class Shift:
    def __init__(self, first, by, dynamic):
        self.first, self.by, self.dynamic = first, by, dynamic

    def places(self, fields):
        """The places of a line's fields that are labels."""
        if fields[0] == 'E':
            return (1, *PARTS.get(int(fields[2]), ()))
        return OPERANDS.get(int(fields[2]), ()) if fields[0] == 'A' else (4,)

    def line(self, line):
        """A line of a model, its labels shifted; another line as it is."""
        fields = line.split('\t')
        if not LINE.fullmatch(line) or len(fields) != FIELDS[line[0]] or max(map(int, fields[1:])) > 65535:
            return line
        register = fields[0] == 'L' and fields[3] == DYNAMIC and fields[4] == '1'
        for place in self.places(fields):
            label = int(fields[place])
            if self.first <= label < FAR:
                fields[place] = str(label + self.by)
        if register and self.dynamic:
            fields[4] = '3'
        return '\t'.join(fields)

    def model(self, text):
        """A model's text; what follows the last LF is no line."""
        *lines, rest = text.split('\n')
        return '\n'.join([self.line(line) for line in lines] + [rest])

    def cases(self, text):
        lines = text.split('\n')
        for number, line in enumerate(lines):
            columns = line.split('\t')
            if len(columns) > 2:
                columns[2] = self.escaped(columns[2])
                lines[number] = '\t'.join(columns)
        return '\n'.join(lines)

    def escaped(self, text):
        """An input as printf %b reads it. A line of a model has no escape but its tabs."""
        lines = ['']
        for sign in re.findall(r'\\.|.', text):
            if sign == '\\n':
                lines.append('')
            else:
                lines[-1] += sign
        shifted = [self.line(line.replace('\\t', '\t')).replace('\t', '\\t') for line in lines[:-1]]
        return '\\n'.join(shifted + lines[-1:])

    def spaced(self, line):
        """A line with its tabs shown as blanks."""
        return line if '\t' in line else self.line(line.replace(' ', '\t')).replace('\t', ' ')

    def page(self, text, name):
        lines, fenced = text.split('\n'), False
        for number, line in enumerate(lines):
            fenced ^= line.startswith('```')
            block = re.match(' {4}', line)
            if fenced or block:
                indent = block[0] if block else ''
                lines[number] = indent + self.spaced(line[len(indent):])
                continue
            lines[number] = re.sub('`([^`]+)`', lambda span: f'`{self.spaced(span[1])}`', line)
            if line.startswith('|') and LINE.search(line.replace(' ', '\t')):
                lines[number] = re.sub(r'\b(label|term) (\d+)\b', self.named, lines[number])
                left = self.dynamic and re.search(rf'`L \d+ \d+ {DYNAMIC} 3`', lines[number])
            else:
                left = self.speaks(line)
            if left:
                print(f'left: {name}:{number + 1}: {lines[number]}', file=sys.stderr)
        return '\n'.join(lines)

    def named(self, found):
        """A label named in the row of a line."""
        label = int(found[2])
        return f'{found[1]} {label + self.by * (self.first <= label < FAR)}'

    def speaks(self, line):
        """Whether prose speaks of a label that is shifted."""
        spoken = re.findall(r'\b(?:labels?|terms?)\b([^|]*)', re.sub('`[^`]+`', '', line), re.I)
        return any(int(number) >= self.first for part in spoken for number in re.findall(r'\b\d+\b', part))


def main():
    parser = argparse.ArgumentParser(description=__doc__, formatter_class=argparse.RawDescriptionHelpFormatter)
    parser.add_argument('--from', dest='first', type=int, default=3)
    parser.add_argument('--by', type=int, default=1)
    parser.add_argument('--dynamic', action='store_true')
    parser.add_argument('--show', action='store_true')
    parser.add_argument('files', nargs='+', metavar='FILE')
    given = parser.parse_args()
    shift = Shift(given.first, given.by, given.dynamic)
    for name in given.files:
        # One character for each byte: what is not of a model's form may be any bytes.
        text = Path(name).read_bytes().decode('latin-1')
        if name.endswith('.md'):
            text = shift.page(text, name)
        else:
            text = shift.cases(text) if name.endswith('.tsv') else shift.model(text)
        if given.show:
            sys.stdout.buffer.write(text.encode('latin-1'))
            sys.stdout.flush()
        else:
            Path(name).write_bytes(text.encode('latin-1'))


main()

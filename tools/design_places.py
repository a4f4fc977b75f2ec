#!/usr/bin/env python3
"""Counts the places that docs/DESIGN-PASS.md speaks of, point by point: `tools/design_places.py [-v] [FOLDER]`.

FOLDER is the top of a checkout (this one if none is given). With -v every place is printed as file:line. It reads the
sources of crates/*/src as text and judges nothing: which places stay, and why, is said beside them and on that page."""
import glob
import os
import re
import sys

verbose = '-v' in sys.argv[1:]
rest = [a for a in sys.argv[1:] if a != '-v']
top = rest[0] if rest else os.path.join(os.path.dirname(os.path.abspath(__file__)), '..')
files = {os.path.relpath(p, top): open(p).read() for p in sorted(glob.glob(os.path.join(top, 'crates/*/src/**/*.rt'), recursive=True))}


def say(point, what, places):
    print(f'{point}  {len(places):4}  {what}')
    if verbose:
        for place in places:
            print('          ' + place)


def lines(pattern, within=None):
    found = []
    for name, text in files.items():
        if within and not re.search(within, name):
            continue
        for number, line in enumerate(text.split('\n'), 1):
            if re.search(pattern, line) and not line.lstrip().startswith('//'):
                found.append(f'{name}:{number}: {line.strip()}')
    return found


def blocks(pattern):
    """Matches over whole files, each named by its first line."""
    found = []
    for name, text in files.items():
        for match in re.finditer(pattern, text, re.M):
            number = text.count('\n', 0, match.start()) + 1
            found.append(f'{name}:{number}: {match.group(0).strip().splitlines()[0]}')
    return found


# a function's name and its parameters, as they stand
SIGNATURE = r'^(?:    )?(?:pub )?fn \w+[^{]*?\((?P<p>[^{]*?)\)\s*(?:->|\n|ensures|where|\{)'


def takes(names, least):
    found = []
    for name, text in files.items():
        for match in re.finditer(SIGNATURE, text, re.M):
            have = [n for n in names if re.search(rf'\b{n}: ', match.group('p'))]
            if len(have) >= least:
                number = text.count('\n', 0, match.start()) + 1
                found.append(f'{name}:{number}: {", ".join(have)}')
    return found


NO_ANSWER = r'Nothing|Nobody|Bad|BadAt|Open|Long|End|Refused|Refuse|Deep|Full|Unknown|Unused'
say('1a', 'enums with a case that is no answer', blocks(rf'^(?:pub )?enum \w+ \{{[^}}]*?^    (?:{NO_ANSWER})\b'))
say('1b', 'a flag beside what holds only where it is set', lines(r'^\s+(pub )?(good|going|enters|held|live|closed|accepted): bool,'))
say('1c', 'a number for a kind or a refusal: fields', lines(r'^\s+(pub )?(number|group|op|kind|edition): u(8|16),|^\s+Refused\(u8\)'))
say('1d', 'functions that answer with the number of a refusal', blocks(r'^(?:    )?(?:pub )?fn (?:\w*refusal|early\w*|action_second)\([^{]*?-> u8$'))
say('1e', 'the number of a refusal written out', lines(r'\breturn (1|2|3|4|5|6|7|2[0-6]);|\b(refuse|refused|answer|refusal_at|within_at|refused_step|refused_listing)\((8|9|1[0-2]|2[0-6]|4[01])\b|say_refused\(rt, 2|number: 1[12]|= 11;|== 12|number (!=|==) 0|\bn (!=|==) 0\b'))

say('2a', 'own getters: the element at a place, else a default', blocks(r'^    if \w+(?:\.len\(\) <= \w+| <=? [\w.()]+) \{\s*(?:\w+\()?\w+\[\w+\]\)?\s*\} else \{'))
say('2b', 'own setters: the element at a place, where there is one', blocks(r'^    if \w+ < \d+ \{\s*\w+\[\w+\] = \w+;\s*\}'))
say('2c', 'own minimum, maximum, saturating sum and difference, own and', blocks(r'^(?:pub )?fn (?:larger|later|shorter|most_of|less|one_less|one_more|one_try_more|sum|cap|worth|both|bit|path_length|used|free_entries)\('))
say('2d', 'functions that only tell the prover a length', blocks(r'^pub fn known\w*\('))
say('2e', 'the five rows of a stack', blocks(r'^pub fn (?:slot|lock|value|var|count)_rows\('))
say('2f', 'functions that both programs have', blocks(r'^fn (?:say|say_refused|with_model|answer|failed|main|empty_page)\(') if False else lines(r'^fn (say|say_refused|with_model|answer|failed|main|empty_page)\(', r'crates/(list|run)/'))
say('2g', 'tests of every record, with a mark whether it is listed', lines(r'i < \w+ as usize'))

say('3', 'loops that count an index by hand', lines(r'^\s+while '))

say('4a', 'conversions written as functions', blocks(r'^(?:pub )?fn (?:pack_\w+|pack|\w+_in|record_of|event_from|bit|up_to_255|counts_row|counts_at|counters_of|counts_of|counters_in)\('))
say('4b', 'equality written out', blocks(r'^fn (?:equal_\w+|same_serial|is_digit)\('))
say('4c', 'a struct copied field by field', lines(r'^\s+(\w+): (\w+)\.\1,$'))

say('5a', 'functions that take tables of a model one by one', takes(['actions', 'lengths', 'machines', 'locations'], 2))
say('5b', 'functions that take a configuration in parts', takes(['slots', 'locks', 'values', 'vars'], 2))
say('5c', 'functions that take a table and its count', takes(['t', 'count'], 2))
say('5d', 'functions that take a page and the place in it', takes(['(?:page|out)', 'at'], 2))
say('5e', 'functions that take records and how many hold', takes(['records', 'n'], 2))
say('5f', 'a large record by value', blocks(r'^(?:    )?(?:pub )?fn \w+[^{]*?\b(?:m: Model|s: Control|d: Draft|c: Claim|stack: \[Control)[^{]*'))

say('6a', 'an array with its length beside it, in a struct', lines(r'^\s+pub (count|length|programs|machine_count|location_count|thread_count): u(8|16),'))
say('6b', 'records packed into numbers', lines(r'^\s+pub (lines|actions|machines|locations|threads|slots|locks|numbers): \[u'))

say('7', 'a match on a number that says which step it is', lines(r'match (op|a\.op|kind|letter|code|number) \{'))

text = ''.join(files.values())
print(f'     {len(files)} files, {text.count(chr(10))} lines, {len(re.findall(r"^ *(?:pub )?fn ", text, re.M))} functions')
proofs = [open(p).read() for p in glob.glob(os.path.join(top, 'crates/*/proofs/**/*.antt'), recursive=True)]
print(f'8    {len(proofs)} proof files, {sum(p.count(chr(10)) for p in proofs)} lines, {sum(len(re.findall(r"^pub [^ ]+ : goal[.]", p, re.M)) for p in proofs)} answers')

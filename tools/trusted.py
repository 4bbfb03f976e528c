#!/usr/bin/env python3
"""What the signed statements rest on, as the tables of docs/TRUSTED.md: python3 tools/trusted.py

Reads 'The statements' and 'What is pinned' of docs/TRUSTED.md and prints 'The definitions' anew: for each file of specs/ the definitions that the
statements name, directly or through each other, with how many lines they have. tools/check_docs.py holds the document to this.
"""
import os
import re

from sources import Tree, Words

TOP = os.path.abspath(os.path.join(os.path.dirname(os.path.abspath(__file__)), '..'))
DOCUMENT = 'docs/TRUSTED.md'


def cells(part):
    """The rows of a part's tables, without their heads."""
    found = [row.split('|') for row in re.findall(r'^\|(.*)\|$', part, re.M)]
    return [row for row in found if not set(''.join(row)) <= set('-: ')]


def section(text, heading):
    parts = re.split(r'^## ', text, flags=re.M)
    return next((part for part in parts if part.split('\n', 1)[0].strip() == heading), '')


def named(text, heading):
    """The file and the name of everything that stands under a heading."""
    rows = cells(section(text, heading))
    return [('crates/' + row[0].strip(), name) for row in rows for name in re.findall(r'`([^`]+)`', row[1])]


class Believed:
    """`files`: for each file the names of the definitions and their lines; `each`: for each row of statements how many lines it rests on alone;
    `missing`: what is named but not declared."""

    def __init__(self, tree, text):
        self.words, self.pinned, self.missing = Words(tree), set(named(text, 'What is pinned')), []
        self.each, found = {}, set()
        for key in named(text, 'The statements'):
            on = self.rests_on(key)
            found |= on
            self.each[key[0]] = self.each.get(key[0], set()) | on
        self.each = {path: sum(self.words.at[key].lines for key in keys) for path, keys in self.each.items()}
        self.files = {}
        for path, name in sorted(found, key=lambda key: (key[0], self.words.order[key])):
            names, lines = self.files.get(path, ([], 0))
            self.files[path] = (names + [name], lines + self.words.at[path, name].lines)

    def rests_on(self, key):
        if key not in self.words.at:
            self.missing.append(key)
            return set()
        return self.words.rests_on(key[0], self.words.at[key].statement, self.pinned) - self.pinned

    def lines(self):
        return sum(lines for _, lines in self.files.values())


def main():
    with open(os.path.join(TOP, DOCUMENT), encoding='utf-8') as f:
        found = Believed(Tree(TOP), f.read())
    for path, lines in found.each.items():
        print(f'{path.removeprefix("crates/")}: rests on {lines} lines')
    print('\n| file | definitions | lines |')
    print('|---|---|---|')
    for path, (names, lines) in found.files.items():
        print(f'| {path.removeprefix("crates/")} | ' + ', '.join(f'`{name}`' for name in names) + f' | {lines} |')
    print(f'| all | | {found.lines()} |')
    for path, name in found.missing:
        print(f'{name} is not declared in {path}')


if __name__ == '__main__':
    main()

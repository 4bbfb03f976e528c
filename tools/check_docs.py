#!/usr/bin/env python3
"""Holds the documents to the code: python3 tools/check_docs.py

- Every public function stands in docs/FUNCTIONS.md by crate, type and name, has its line in crate `settled` over its own contract (but for OPEN), and
  is listed exactly where it has a `requires` or no `ensures`; so is every method of a trait, with the types that have it. What the archive exports has
  the contracts of the library behind it.
- Every theorem, definition and function that a document names is declared in the file that it names; every edit and every link is there, and a
  formula that is printed with file and line reads so there.
- The definitions of docs/TRUSTED.md, with their lines, are exactly what the statements named there rest on.
- A refusal's number, word and sentence are the same wherever they stand. The sheet counts the edits and crates that there are.
"""
import glob
import os
import re
import sys

import trusted
from refusal_words import refusal_troubles
from sources import Tree
from trusted import cells

TOP = os.path.abspath(os.path.join(os.path.dirname(os.path.abspath(__file__)), '..'))
DOCUMENTS = sorted(glob.glob('*.md', root_dir=TOP) + glob.glob('*/README.md', root_dir=TOP) + glob.glob('docs/**/*.md', root_dir=TOP, recursive=True))
FUNCTIONS = 'docs/FUNCTIONS.md'
FORMS = 'docs/DECISIONS.md'
SHEET = 'docs/ACCEPTANCE.md'
ENTRIES = ['records', 'table', 'plan', 'planner', 'judge', 'frame_record', 'frame_begin', 'frame_reports', 'frame_calls', 'frame_lent', 'listing', 'frame_log',
           'replaying', 'panel', 'panel_c', 'input']
# what a reader gives is not its caller's, so no contract settles it
OPEN = {'input::fill'}
# the archive, and the library whose functions it exports
EXPORTS = ('panel_c', 'panel')
troubles = []


def text(path):
    with open(os.path.join(TOP, path), encoding='utf-8') as f:
        return f.read()


def section(document, heading):
    return trusted.section(text(document), heading)


def compare(what, wanted, found):
    """Two sets that must be equal."""
    troubles.extend(f'{what} lacks {name}' for name in sorted(wanted - found))
    troubles.extend(f'{what} has {name}, which should not be there' for name in sorted(found - wanted))


def path_of(function):
    return function.key.replace('.', '::')


def has_line(f, statements):
    """One of the statements, comments apart, is over the contract of this function."""
    crate, rest = f.key.split('.', 1)
    statements = re.sub(r'^\s*--.*$', '', statements, flags=re.M)
    return re.search(rf'(?<![\w.-]){crate}_contracts\.{re.escape(rest)}\.ended\b', statements)


def check_functions(tree):
    """Each public function of a library, by crate, type and name."""
    public = [f for f in tree.functions if f.public and not f.program and f.crate != EXPORTS[0]]
    crates = sorted({f.crate for f in public})
    heads = [head for crate in crates for head in re.findall(r'^- ((?:`[\w:]+`[,\s]*)+)\.', section(FUNCTIONS, crate), re.M)]
    named = {name for head in heads for name in re.findall(r'`([\w:]+)`', head)}
    compare(FUNCTIONS, {path_of(f) for f in public}, named)
    settled = text('crates/settled/proofs/Functions.antt')
    left_open = set(re.findall(r'`([\w:]+)`', ''.join(rows(section(FUNCTIONS, 'Functions whose answer the contract leaves open'), 0))))
    compare(f'{FUNCTIONS}, left open', OPEN, left_open)
    for f in public:
        if path_of(f) in OPEN:
            continue
        if not has_line(f, settled):
            troubles.append(f'Functions.antt of crate settled has no line over the contract of {path_of(f)}')
    asking = set(re.findall(r'`([\w:]+)`', ''.join(rows(section(FUNCTIONS, 'Functions that ask something of their caller'), 0))))
    compare(f'{FUNCTIONS}, asking', {path_of(f) for f in public if ' requires ' in f.contract}, asking)
    silent = {(row[0].strip(), name) for row in cells(section(FUNCTIONS, 'Functions with no `ensures`')) for name in re.findall(r'`(\w+)`', row[1])}
    compare(f'{FUNCTIONS}, no ensures', {(f.path, f.key.split('.')[-1]) for f in tree.functions if ' ensures ' not in f.contract}, silent)


def check_traits(tree):
    """The methods of traits, each with the types that have it."""
    methods = {f.law: path_of(f) for f in tree.functions if f.declares}
    wanted = {f'{methods.get(f.law, "::".join(f.law))} for {path_of(f).rsplit("::", 1)[0].removesuffix(f.trait)}'
              for f in tree.functions if f.trait and not f.declares and not f.program}
    said = [[re.findall(r'`([\w:]+)`', cell) for cell in row[:2]] for row in cells(section(FUNCTIONS, 'Methods of traits'))]
    compare(f'{FUNCTIONS}, methods of traits', wanted, {f'{method} for {of}' for names, types in said for method in names for of in types})


def check_exports(tree):
    """The archive's functions are those of crate panel: under their names, with their clauses."""
    said = {crate: {f.key.split('.')[-1]: f.contract.replace('extern "C" ', '') for f in tree.functions if f.crate == crate and f.public}
            for crate in EXPORTS}
    compare(f'crate {EXPORTS[0]}', set(said[EXPORTS[1]].items()), set(said[EXPORTS[0]].items()))


def check_signatures(tree):
    """The entry points with the types of their parameters, and the events of the runner, as FUNCTIONS.md prints them; each may be called with all inputs."""
    printed = section(FUNCTIONS, 'Entry points, with the types of what they take').split('```')[1].split('\n')[1:-1]
    entries = [f for f in tree.functions if f.public and not f.program and f.crate in ENTRIES and ' requires ' not in f.contract]
    found = [path_of(f).rsplit('::', 1)[0] + ': ' + re.split(' (?:requires|ensures) ', f.contract)[0].strip() for f in entries]
    events = re.search(r'pub enum Event \{.*?\n\}', tree.texts['crates/frame_record/src/lib.rt'], re.S)[0]
    compare(f'{FUNCTIONS}, entry points', set(found + [' '.join(events.split())]), set(printed))
    called = text('crates/settled/proofs/Callable.antt')
    troubles.extend(f'Callable.antt of crate settled has no line over the contract of {path_of(f)}'
                    for f in entries if f.crate != EXPORTS[0] and not has_line(f, called))


def rows(part, column):
    return [row[column] for row in cells(part)]


def declares(name, sources):
    """`pub NAME :`, a public type or a public function; inside a type, a field."""
    word = re.escape(name)
    antt = rf'^\s*(?:(?:abbrev|unfoldable) )?pub (?:(?:data|record) )?{word}(?: |$)'
    rattle = rf'^\s*pub (?:extern "C" )?(?:fn|struct|enum|trait|const) {word}\b'
    return re.search(antt, sources, re.M) or re.search(rattle, sources, re.M)


def check_names(document, tree):
    """A row whose last column names files: every name in its second column is declared in one of them."""
    for row in cells(text(document)):
        paths = re.findall(r'[\w/+-]+\.(?:antt|rt)\b', row[-1]) if len(row) == 3 else []
        paths = ['crates/' + path.removeprefix('crates/') for path in paths]
        missing = [path for path in paths if path not in tree.texts]
        troubles.extend(f'{document}: there is no {path}' for path in missing)
        sources = '\n'.join(tree.texts[path] for path in paths if path not in missing)
        # the table of forms has the names beside the file, the others in the column before it
        named = row[2] if document == FORMS else row[1]
        for name in re.findall(r'`([\w?-]+)`', named) if sources and document != FUNCTIONS else []:
            if not declares(name, sources):
                troubles.append(f'{document}: {name} is not declared in {", ".join(paths)}')


def check_wrong_answers(tree):
    """The statements that FUNCTIONS.md names for wrong answers."""
    wrong = {d.name for d in tree.theorems if d.path in ('crates/settled/proofs/Wrong.antt', 'crates/settled/proofs/Panel.antt')}
    for name in re.findall(r'`wrong\.([\w-]+)`', text(FUNCTIONS)):
        if name not in wrong:
            troubles.append(f'{FUNCTIONS}: crate settled rules out no {name}')
    every = {d.name for d in tree.theorems}
    for said in re.findall(r'Ruled\s+out:(.*?)(?=^- |^#|^\|)', text(FUNCTIONS), re.M | re.S):
        for name in re.findall(r'\(`([a-z]\w*_\w*)`', said):
            if name not in every:
                troubles.append(f'{FUNCTIONS}: no theorem is called {name}')


def check_paths(document):
    """A path below crates/ that a document names is there."""
    for path in re.findall(r'(?<![\w/])crates/[\w/.+-]*\w', text(document)):
        if not os.path.exists(os.path.join(TOP, path)) and not path.startswith('crates/NAME'):
            troubles.append(f'{document}: there is no {path}')


def check_edits(document):
    for crate, names in re.findall(r'(\w+)/must-fail/(\w+(?:, \w+(?=[,)\s|]))*)', text(document)):
        for name in names.split(', ') if crate not in ('target', 'NAME') else []:
            if not os.path.exists(os.path.join(TOP, 'crates', crate, 'must-fail', name + '.edit')):
                troubles.append(f'{document}: there is no edit {crate}/must-fail/{name}')


def check_counts_of_sheet():
    """What the sheet expects of `rt ci`: so many edits refused, and these and the crates passed."""
    edits = len(glob.glob('crates/*/must-fail/*.edit', root_dir=TOP))
    crates = len(re.findall(r'^\w+(?: \w+)?:', text('crates.txt'), re.M))
    for words, wanted in [('must-fail edits: {} refused', edits), ('{} passed, 0 failed', edits + crates)]:
        said = re.findall(words.format(r'(\d+)'), text(SHEET))
        troubles.extend(f'{SHEET}: "{words.format(n)}" should say {wanted}' for n in said if int(n) != wanted)


def check_links(document):
    for link in re.findall(r'\]\(([^)#]+)(?:#[^)]*)?\)', text(document)):
        if not link.startswith('http') and not os.path.exists(os.path.join(TOP, os.path.dirname(document), link)):
            troubles.append(f'{document}: the link {link} leads nowhere')


def check_quotes(document, tree):
    """A formula that a document prints under `FILE`, line N, stands there."""
    for path, line, quoted in re.findall(r'`(crates/[\w/+.-]+)`,\s+line (\d+):\n\n```text\n(.*?)```', text(document), re.S):
        source = tree.texts.get(path, '').split('\n')[int(line) - 1:]
        if ' '.join(quoted.split()) != ' '.join('\n'.join(source[:len(quoted.strip().split('\n'))]).split()):
            troubles.append(f'{document}: {path}, line {line}, does not read as it is printed')


def check_trusted(tree):
    """TRUSTED.md lists exactly the definitions that the signed statements rest on, with their lines."""
    found = trusted.Believed(tree, text(trusted.DOCUMENT))
    troubles.extend(f'{trusted.DOCUMENT}: {name} is not declared in {path}' for path, name in found.missing)
    wanted = {f'{path}: {name}' for path, (names, _) in found.files.items() for name in names}
    compare(trusted.DOCUMENT, wanted, {f'{path}: {name}' for path, name in trusted.named(text(trusted.DOCUMENT), 'The definitions')})
    counted = {path: lines for path, (_, lines) in found.files.items()}
    check_counts('The definitions', dict(counted, **{'crates/all': found.lines()}))
    check_counts('The statements', found.each)


def check_counts(heading, lines):
    for row in cells(section(trusted.DOCUMENT, heading))[1:]:
        if int(row[2]) != lines.get('crates/' + row[0].strip()):
            troubles.append(f'{trusted.DOCUMENT}, {heading}: {row[0].strip()} has {lines.get("crates/" + row[0].strip())} lines, not {row[2].strip()}')


def main():
    tree = Tree(TOP)
    check_functions(tree)
    check_traits(tree)
    check_exports(tree)
    check_signatures(tree)
    check_wrong_answers(tree)
    check_trusted(tree)
    troubles.extend(refusal_troubles(TOP))
    check_counts_of_sheet()
    for document in DOCUMENTS:
        check_names(document, tree)
        check_paths(document)
        check_edits(document)
        check_links(document)
        check_quotes(document, tree)
    print('\n'.join(troubles) + ('\n' if troubles else ''), end='')
    print(f'{len(DOCUMENTS)} documents, {len([f for f in tree.functions if f.public and not f.program])} public functions, {len(troubles)} differences')
    sys.exit(1 if troubles else 0)


if __name__ == '__main__':
    main()

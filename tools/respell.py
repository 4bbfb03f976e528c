#!/usr/bin/env python3
"""Brings the repository's own names to the spelling of today's Rattle: python3 tools/respell.py, once, right after the kit's port.py

Definitions, lemmas, fields and constructors of specs/ and proofs/ go from camelCase and kebab-case to snake_case, at every place that names them: sources,
contracts, must-fail edits and, between back-quotes, comments and documents. A lemma that would fall together with a definition in some file gets `_lem`.
Functions of src/, exported names, strings, inputs and outputs keep theirs. Two crates have the names of libraries of the kit and get others.
docs/PORT.md tells what was run, and when.
"""
import glob
import os
import re
import subprocess

TOP = os.path.abspath(os.path.join(os.path.dirname(os.path.abspath(__file__)), '..'))
CRATES = {'bytes': 'octets', 'log': 'frame_log'}
# lemmas and local names that would take the name of a definition which stands in the same file
CLASH = ['after-plan', 'begin-read', 'entry-at', 'form-of', 'four-at', 'frame-kind', 'is-above', 'is-at', 'largest-time', 'least-says', 'made-text',
         'most-jobs', 'of-digits', 'on-clock', 'plan-read', 'plan-text', 'read-in', 'read-plan', 'refused-text', 'span-at', 'step-at', 'step-of',
         'table-read', 'text-of', 'with-deadline', 'with-step']
# the same, where the name reads right already
CLASH_IN = {'crates/frame_promises/proofs/Cases.antt': ['back_to'], 'crates/frame_promises/proofs/Told.antt': ['back_to', 'read_at'],
            'crates/frame_promises/proofs/Own.antt': ['read_table'], 'crates/frame_record/proofs/Laws.antt': ['is_open'],
            'crates/planner/proofs/Finishing.antt': ['was_read']}
# aliases, parameters and local names, which no line declares
LOCAL = ['theJob', 'jobsOf', 'recordOf', 'ofKept', 'ofSent', 'one-bytes', 'end-bytes', 'shut-then', 'open-still', 'busy-total', 'shut-run', 'over-time',
         'no-space', 'same-plan', 'as-busy', 'told-u', 'is-end', 'busy-small', 'frame-record', 'frame-begin', 'frame-reports', 'frame-calls', 'frame-lent']
# what port.py had turned in the sources, since a library has the same spelling; edits, comments and documents still have it
PORTED = '''
add-at add-kept add-start add-wide all-append all-filter all-map all-of-map all-take and-both and-left and-right as-is as-long as-many
asks-read at-each at-position at-same back-at back-fits back-to base-more begun-sized behind-more below-step body-same by-span bytes-read
callOf callWord callsOf checked-refused choiceOf close-spec closed-on closed-same comes-back cond-map count-map counted-spec digit-low
digit-value digits-more drop-all each-at either-is either-way eitherAt end-back end-read end-same entryAt entryOf enum-told every-call
filled-at filled-more filled-none finish-spec first-back first-below first-found first-more first-some fits-last fits-sum flagsOf formOf
found-at found-none found-nothing frame-back frame-is frame-same free-of givenOf goes-on goes-step going-end going-more good-more has-value
here-end home-all idAt in-frame in-order in-parts in-row in-table inOpen index-of insert-inj is-call is-home is-open is-row isAt isWhole
jobOf kept-more keyAt keyOf kindOf laid-from laid-more laidOf last-more last-of lastOf least-iff least-step length-spec lent-runs lineOf
list-same listFrom listed-back listed-here listedAt low-or-high made-in main-spec map-more map-reverseAux marked-other mask-lt maskOf
moved-here moved-other mul-at near-first near-next never-met next-place nextOf no-byte no-flag no-ones no-room no-table no-text none-left
none-yet not-back not-done not-first not-step not-there nothing-written number-is number-more numberIn numberOf numbers-of of-nan of-number
of-steps ok-end okIn one-byte one-more one-of one-split only-of open-in open-is open-own order-below own-read own-value pair-parts
pairwise-append pairwise-map passed-on passed-then pending-next pick-first pick-second planOf position-first position-in positionOf put-four
put-refused put-spec put-two read-at read-fits read-is read-known read-spec read-table read-whole readOf readOn readingOf reads-now
reads-then record-is rest-all rest-at rest-of return-of room-for room-next room-within row-here row-is row-next row-open row-out row-same
rows-fit rows-next rows-start run-spec runOf said-of saidOf same-answer same-back same-id same-length same-runs same-span same-spec
same-step same-total seen-more seen-none so-far-more some-byte some-left span-fits span-of stands-after step-back step-in step-is step-spec
stepOf stepsOf sub-order table-empty table-is table-more tableEnd tableOf tail-more textOf to-step told-same turn-by turn-on two-at two-back
two-bytes two-from up-to upTo valueAt valueOf walk-kept walk-more was-read where-below whole-is whole-room whole-same with-at with-none
without-gone without-other written-behind written-last zero-by-zero
'''.split()
WORD = r'[^\s(){}.;,"@`]+'


def paths(*patterns):
    return sorted(p for pattern in patterns for p in glob.glob(pattern, root_dir=TOP, recursive=True) if '/out/' not in p)


def read(path):
    with open(os.path.join(TOP, path), encoding='utf-8') as f:
        return f.read()


def snake(name):
    name = re.sub(r"(?<=[A-Za-z0-9_'])-(?=[A-Za-z0-9])", '_', name)
    return re.sub(r'([a-z0-9])([A-Z])', lambda m: f'{m[1]}_{m[2].lower()}', name)


def declared(path):
    """The names that a file of definitions or lemmas declares: `NAME .. :` at the head of a line."""
    for line in read(path).split('\n'):
        head = line.strip()
        if head.startswith(('--', '(', '{', '|', 'λ', 'let ', 'use ', 'rw ', 'ap ', 'elim ')):
            continue
        m = re.match(rf'(?:(?:abbrev|unfoldable|pub)\s+)*({WORD}(?:\s+{WORD})*)\s+:(?:\s|$)', head)
        if m:
            yield from m[1].split()


def spellings():
    names = {n for p in paths('crates/*/specs/**/*.antt', 'crates/*/proofs/**/*.antt') if not p.endswith('/Proof.antt') for n in declared(p)}
    found = {n: snake(n) for n in names if not n[0].isupper() and snake(n) != n}
    return found | {n: snake(n) for n in LOCAL} | {n: snake(n) + '_lem' for n in CLASH} | {'endBytes': 'last_bytes'}


def words(text, new, generated):
    """Each word of `text` by its new name; a field that Rattle makes is named after the source, and never gets `_lem`."""
    def turn(m):
        behind_dot = m.start() > 0 and text[m.start() - 1] == '.'
        name = new.get(m[0], m[0])
        return snake(m[0]) if behind_dot and generated and m[0] in new else name
    return re.sub(WORD, turn, text)


def quoted(text, new):
    return re.sub(r'`[^`\n]+`', lambda m: words(m[0], new, False), text)


def source(path, text, new):
    mark = '--' if path.endswith('.antt') else '//'
    here = dict(new, **{n: n + '_lem' for n in CLASH_IN.get(path, [])})
    lines = []
    for line in text.split('\n'):
        lines.append(quoted(line, new) if line.strip().startswith(mark) else words(line, here, path.endswith('/Proof.antt')))
    return '\n'.join(lines)


def edit(text, new):
    """The texts of a must-fail edit: a projection is written tight, and the names are the new ones."""
    lines = []
    for line in text.split('\n'):
        if line.startswith(('old: ', 'new: ')):
            line = line[:5] + words(re.sub(r'(?<=[\w)\']) \.(?=[a-z0-9])', '.', line[5:]), new, False)
        lines.append(line)
    return '\n'.join(lines)


def document(text, new):
    blocks = re.split(r'(?m)^(```.*)$', text)
    return ''.join(words(b, new, False) if i % 4 == 2 else quoted(b, new) for i, b in enumerate(blocks))


def crates(text):
    """Paths into the crates that have other names now."""
    for old, new in CRATES.items():
        text = re.sub(rf'\bRattle\.{old}\.', f'Rattle.{new}.', text)
        text = re.sub(rf'(?<![\w:]){old}::', f'{new}::', text)
        text = re.sub(rf'\bcrates/{old}/', f'crates/{new}/', text)
    return text


def main():
    new = {n: snake(n) for n in PORTED} | spellings()
    for old, name in CRATES.items():
        subprocess.run(['git', 'mv', f'crates/{old}', f'crates/{name}'], cwd=TOP, check=True)
    for path in paths('crates/**/*.antt', 'crates/**/*.rt', 'crates/*/must-fail/*.edit', '*.md', 'docs/**/*.md'):
        text = read(path)
        if path.endswith('.edit'):
            turned = edit(text, new)
        elif path.endswith('.md'):
            turned = document(text, new)
        else:
            turned = source(path, text, new)
        turned = crates(turned)
        if turned != text:
            with open(os.path.join(TOP, path), 'w', encoding='utf-8') as f:
                f.write(turned)
    listed = '\n'.join(line if line.startswith('#') else ' '.join(CRATES.get(w, CRATES.get(w[:-1], '') + ':' if w[:-1] in CRATES and w.endswith(':') else w)
                                                                  for w in line.split(' ')) for line in read('crates.txt').split('\n'))
    with open(os.path.join(TOP, 'crates.txt'), 'w', encoding='utf-8') as f:
        f.write(listed)


if __name__ == '__main__':
    main()

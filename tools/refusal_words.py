"""The refusals' numbers, words and sentences, wherever they stand, against the table of docs/RULES.md. Used by tools/check_docs.py."""
import os
import re

RULES = 'docs/RULES.md'
WORD_OF = {'NoTimetable': 'NONE'}


def word(variant):
    return WORD_OF.get(variant, variant.upper())


def rules(text):
    part = text.split('## Refusal numbers')[1].split('\n## ')[0]
    return {int(number): (name, sentence) for number, name, sentence in re.findall(r'^\| (\d+) \| ([A-Z]+) \| (.*?) \|$', part, re.M)}


def arms(text):
    """crates/records/src/refusal.rt: `Refusal::Short(p) => (1, Some(p.at))`, and `Refusal::None => (7, None)` where there is no place."""
    found = re.findall(r'Refusal::(\w+)(?:\(p\) => \((\d+), Some\(p\.at\)\)| => \((\d+), None\))', text)
    return {int(placed or alone): (word(v), None) for v, placed, alone in found}


def clauses(text):
    """crates/records/specs/Refusals.antt: `refusal_says (Short p) = 1 ∷ ..`."""
    return {int(n): (word(v), None) for v, n in re.findall(r'^refusal_says \(?(\w+)(?: p\))? = (\d+) ∷', text, re.M)}


def header(text):
    """include/zhiblator.h: the members of `enum zb_refusal`, each with its sentence."""
    body = re.search(r'enum zb_refusal \{(.*?)\};', text, re.S)[1]
    members = re.findall(r'ZB_([A-Z]+)(?: = 1)?,?\s*/\*(.*?)\*/', body, re.S)
    return {at: (name, ' '.join(sentence.split())) for at, (name, sentence) in enumerate(members, 1)}


def c_words(text):
    """examples/c/plan.c: the words in their order."""
    body = re.search(r'words\[\] = \{(.*?)\};', text, re.S)[1]
    return {at: (name, None) for at, name in enumerate(re.findall(r'"(\w*)"', body)) if at}


def python_table(text):
    """The command's own list: (number, 'WORD', 'sentence')."""
    rows = re.findall(r'\(?(\d+)[,:]\s*\(?[\'"]([A-Z]+)[\'"],\s*[\'"](.*?)[\'"]\)', text)
    return {int(number): (name, sentence) for number, name, sentence in rows}


def rust(text):
    """peer/src: `/// 1: sentence` above the variant, and its name."""
    found = {}
    for number, said, variant in re.findall(r'/// (\d+)(?:, [A-Z]+)?: ((?:.*\n\s*/// )*.*)\n\s*(\w+)(?:\(\w+\))?,', text):
        sentence = ' '.join(said.replace('///', ' ').split()).strip('".')
        found[int(number)] = (word(variant), sentence)
    return found


PLACES = [
    ('crates/records/src/refusal.rt', arms, True),
    ('crates/records/specs/Refusals.antt', clauses, True),
    ('include/zhiblator.h', header, True),
    ('examples/c/plan.c', c_words, True),
    ('cli/zhiblator/refusals.py', python_table, True),
    ('peer/src/refusal.rs', rust, True),
    ('peer/src/proved.rs', rust, False),
]


def refusal_troubles(top):
    """Differences, one line each. The last field of a place says whether it has every refusal or those of the library alone."""
    def text(path):
        with open(os.path.join(top, path), encoding='utf-8') as f:
            return f.read()

    said = rules(text(RULES))
    yield from [] if said else [f'{RULES} has no table of refusals']
    for path, read, whole in PLACES:
        found = read(text(path))
        if not found:
            yield f'{path}: no refusal was found'
        for number in sorted(set(found) | (set(said) if whole else set())):
            name, sentence = found.get(number, (None, None))
            wanted = said.get(number, (None, None))
            if name != wanted[0]:
                yield f'{path}: refusal {number} is {name}, in {RULES} {wanted[0]}'
            if sentence is not None and sentence != wanted[1]:
                yield f'{path}: refusal {number} says "{sentence}", in {RULES} "{wanted[1]}"'

"""Answers for people and for programs: refusals, JSON, and colours where a terminal shows them."""
import json
import os
import sys

from .refusals import NONE, Refusal
from .troubles import ACCEPTED, REFUSED

COLOURS = {'here': '34', 'away': '36', 'good': '32', 'bad': '31', 'dim': '2'}


def on_terminal():
    """Colours and bars are for terminals, and only where they are wanted (no-color.org)."""
    return sys.stdout.isatty() and 'NO_COLOR' not in os.environ


def coloured(text, colour):
    return f'\033[{COLOURS[colour]}m{text}\033[0m' if on_terminal() else text


def put_json(keys):
    print(json.dumps(keys, ensure_ascii=False, indent=2))


def least_hint(library, table, given=False):
    """For NONE: the least deadline that the jobs would meet, as a number (None for none) and in words."""
    least = library.least(table)
    if isinstance(least, Refusal):
        return None, 'these jobs meet no deadline up to 4,000'
    if given:
        return least, f'the jobs were kept in table order; in free order the least deadline that they meet is {least}'
    return least, f'the least deadline that these jobs meet is {least}'


def refuse(args, refusal, read, library=None, about='', more=None):
    """Tells a refusal of a file: the lister's line on standard output, its words on standard error.

    `about` names the file in front of the line where there are two, `more` are keys of an answer in part.
    """
    least, hint = None, ''
    if refusal.number == NONE:
        least, hint = least_hint(library, read.data, getattr(args, 'given', False))
    if args.json:
        line = read.line_at(refusal.place) if refusal.placed else None
        keys = {'accepted': False, 'file': read.what, 'refused': refusal.keys(line), 'least': least}
        put_json({**keys, **(more or {})})
        return REFUSED
    print(about + coloured(refusal.line(), 'bad'), flush=True)
    print('; '.join(filter(None, refusal_words(refusal, read) + [hint])), file=sys.stderr)
    return REFUSED


def refusal_words(refusal, read):
    """Its word with its sentence, and its place in words where it has one."""
    return [f'{refusal.word}: {refusal.sentence}', read.where(refusal.place) if refusal.placed else '']


def accept(args, keys, lines):
    """Tells an answer: `keys` for programs, `lines` for people."""
    if args.json:
        put_json({'accepted': True, **keys})
    else:
        for line in lines:
            print(line)
    return ACCEPTED

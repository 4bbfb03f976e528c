"""Files in words, hex or bytes: which of them a file is, and the records of a file in words.

A record in words is one line: its word, its numbers, then a name for people. Blank lines count for nothing, and a
'#' at the start of a line or after white space begins a remark.
"""
import re
from typing import NamedTuple

from . import files
from .troubles import Trouble

WIDEST_QUOTE = 60


class Line(NamedTuple):
    """A line that has a record: its number counted from 1, and its text without the remark."""
    number: int
    text: str


class Form(NamedTuple):
    """A kind of file: each word with its record's kind byte and fields (name, width), the end record, and the bytes
    with which a file in bytes may begin."""
    what: str
    records: dict
    end: bytes
    first: bytes


class Read(NamedTuple):
    """A file as the library takes it. Of one in words also the line of each record by its offset (None for a file in
    hex or bytes), and the names by id, that of the frame under None."""
    what: str
    data: bytes
    lines: dict
    names: dict

    def where(self, place):
        """A place in words."""
        if self.lines is None:
            return f'byte {place}'
        line = self.lines.get(place)
        return f'byte {place}, line {line.number}: {quoted(line.text)}' if line else f'byte {place}, its end'

    def line_at(self, place):
        return self.lines[place].number if place in (self.lines or {}) else None


def printable(text):
    return ''.join(c if c.isprintable() else '?' for c in text)


def quoted(text):
    """Text of a user's within a line of ours: nothing unprintable, nothing endless."""
    text = printable(text)
    return text if len(text) <= WIDEST_QUOTE else text[:WIDEST_QUOTE - 2] + '..'


def is_text(data):
    try:
        text = data.decode('utf-8')
    except UnicodeDecodeError:
        return False
    return not any(c < ' ' and c not in '\t\r\n' or '\x7f' <= c < '\xa0' for c in text)


def text_of(data, known, first):
    """The text of a file in words, None for one in bytes.

    A byte plan can be printable throughout, so only a known word or a remark in front settles it; else text is taken
    for words, to be refused by line, unless it begins as a file in bytes does.
    """
    text = data.decode('utf-8-sig', errors='replace')
    if text.startswith('#') or (text.split() or [''])[0] in known:
        return text
    return None if data[:1] in first or not is_text(data) else text


def hex_of(data, path):
    """The bytes of hex text, None where it is something else."""
    if not re.fullmatch(rb'[0-9A-Fa-f\s]*', data):
        return None
    digits = b''.join(data.split())
    if len(digits) % 2:
        raise Trouble(f'{path}: hex text with an odd number of digits')
    return bytes.fromhex(digits.decode())


def lines_of(text):
    for number, line in enumerate(text.split('\n'), 1):
        line = re.sub(r'(^|\s)#.*', '', line).strip()
        if line:
            yield Line(number, line)


def number_bytes(word, name, width):
    """A number in words as bytes, the low one first; the rules above what bytes can hold are the library's."""
    most = 256 ** width - 1
    if not re.fullmatch('[0-9]+', word):
        raise Trouble(f'{quoted(word)!r} is no whole number from 0 to {most:,}')
    if len(word.lstrip('0')) > 10 or int(word) > most:
        raise Trouble(f'{quoted(word)} is above {most:,}, the largest {name} that its bytes hold')
    return int(word).to_bytes(width, 'little')


def record_of(text, form):
    """The bytes of a record in words, its id (None for a frame) and its name."""
    word, *rest = text.split()
    if word not in form.records:
        raise Trouble(f'{quoted(word)!r} is no word of a {form.what} (those are {", ".join(form.records)})')
    kind, fields = form.records[word]
    try:
        if len(rest) < len(fields):
            raise Trouble(f'{quoted(text)!r} lacks a number')
        body = b''.join(number_bytes(w, name, width) for w, (name, width) in zip(rest, fields))
    except Trouble as why:
        raise Trouble(f'{why}; the line is {word} {" ".join(name.upper() for name, _ in fields)} [name]')
    id = body[0] if fields[0][0] == 'id' else None
    return bytes([kind]) + body, id, printable(' '.join(rest[len(fields):]))


def encoded(text, form, path):
    """A file in words as bytes, with its end record."""
    data, lines, names = bytearray(), {}, {}
    for line in lines_of(text):
        try:
            record, id, name = record_of(line.text, form)
        except Trouble as why:
            raise Trouble(f'{path}, line {line.number}: {why}')
        lines[len(data)] = line
        if name:
            names.setdefault(id, name)
        data += record
    return Read(form.what, bytes(data) + form.end, lines, names)


def read(path, form):
    """A table or a plan from a file in words, hex or bytes."""
    data = files.read(path)
    plain = hex_of(data, path)
    if plain is None:
        text = text_of(data, form.records, form.first)
        if text is not None:
            return encoded(text, form, path)
        plain = data
    return Read(form.what, plain, None, {})

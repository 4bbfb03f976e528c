"""Logs of calls on a frame record, in words and in bytes (docs/REPLAY.md), and the records that they are made of.

The bytes are cut into records here as the proved program cuts them, so that each answer stands beside its call.
"""
import math
import os
import re
import shlex
import struct
from bisect import bisect_left, bisect_right
from typing import NamedTuple

from . import files, records
from .troubles import Trouble
from .words import Line, hex_of, lines_of, number_bytes, quoted, text_of

WIDTHS = {'number': 4, 'id': 1, 'time': 2, 'value': 4}
CALLS = {
    'next': (0x41, ()),
    'span': (0x42, ('id', 'time', 'value')),
    'return': (0x43, ('number', 'id', 'time', 'value')),
    'close': (0x44, ('time',)),
    'read': (0x45, ('id',)),
}
WORDS = ['begin', *CALLS, 'raw']
BY_KIND = {kind: (word, fields) for word, (kind, fields) in CALLS.items()}
BEGIN, BEGIN_HEAD = 0x40, 9
MOST_BYTES = 65536
VALUE = r'[+-]?(nan|inf|([0-9]+\.?[0-9]*|\.[0-9]+)(e[+-]?[0-9]+)?)'


class Piece(NamedTuple):
    """The bytes of one line of a log."""
    start: int
    end: int
    line: Line
    raw: bool


class Log(NamedTuple):
    """A log as the program takes it, with its pieces and where each starts; one given in bytes has none."""
    data: bytes
    pieces: list
    starts: list

    def pieces_of(self, start, end):
        """The pieces that have bytes of this range; they lie one behind another."""
        return self.pieces[max(0, bisect_right(self.starts, start) - 1):bisect_left(self.starts, end)]


class Call(NamedTuple):
    """A record of a log; `words` is None for what cannot be a record, where the run stops."""
    start: int
    end: int
    words: str


def float_bytes(number):
    """The pattern of a 32-bit value, None for a number beyond the largest."""
    try:
        return struct.pack('<f', number)
    except OverflowError:
        return None


def value_bytes(word):
    """A value's pattern: of a number in words, or as it stands."""
    if re.fullmatch('0x[0-9A-Fa-f]{1,8}', word):
        return struct.pack('<I', int(word, 16))
    if not re.fullmatch(VALUE, word.lower()):
        raise Trouble(f'{quoted(word)!r} is no value (a number, nan, inf, or 0x and eight digits)')
    found = float_bytes(float(word))
    if found is None or math.isinf(float(word)) and 'inf' not in word.lower():
        raise Trouble(f'{quoted(word)} is beyond the largest 32-bit value')
    return found


def decimal(pattern):
    """The shortest decimal number that has this pattern."""
    found = struct.pack('<I', pattern)
    number, = struct.unpack('<f', found)
    if not math.isfinite(number):
        return str(number)
    shorter = (float(f'{number:.{digits}g}') for digits in range(1, 10))
    return str(next(text for text in shorter if float_bytes(text) == found))


def field_bytes(word, field):
    return value_bytes(word) if field == 'value' else number_bytes(word, field, WIDTHS[field])


def plan_bytes(words):
    """A plan's steps, each `here` or `away` and an id, in plan order."""
    data = b''
    for choice, id in zip(words[::2], words[1::2] + [None] * (len(words) % 2)):
        if choice not in records.PLAN.records:
            raise Trouble(f'{quoted(choice)!r} is no step of a plan (here ID, away ID)')
        if id is None:
            raise Trouble(f'the last step, {choice!r}, has no id')
        data += bytes([records.PLAN.records[choice][0]]) + number_bytes(id, 'id', WIDTHS['id'])
    return data + records.PLAN.end


def begin_bytes(words, folder):
    if len(words) < 2:
        raise Trouble('begin lacks a word: begin NUMBER TABLE [here ID | away ID] ..')
    number, name, *steps = words
    if name.startswith('hex:'):
        table = raw_bytes([name[4:]])
    else:
        table = records.read_table(os.path.join(folder, name)).data
    plan = plan_bytes(steps)
    lengths = number_bytes(str(len(table)), 'table', 2) + number_bytes(str(len(plan)), 'plan', 2)
    return bytes([BEGIN]) + field_bytes(number, 'number') + lengths + table + plan


def raw_bytes(words):
    digits = ''.join(words)
    if not re.fullmatch('([0-9A-Fa-f]{2})*', digits):
        raise Trouble(f'{quoted(digits)!r} is no hex text of whole bytes')
    return bytes.fromhex(digits)


def call_bytes(words, folder):
    """The bytes of a call in words; a table's path is relative to the log's folder."""
    word, *rest = words
    if word == 'begin':
        return begin_bytes(rest, folder)
    if word == 'raw':
        return raw_bytes(rest)
    if word not in CALLS:
        raise Trouble(f'{quoted(word)!r} is no call (those are {", ".join(WORDS)})')
    kind, fields = CALLS[word]
    if len(rest) != len(fields):
        usage = ' '.join([word] + [field.upper() for field in fields])
        raise Trouble(f'{word} takes {len(fields)} words, and here are {len(rest)}: {usage}')
    return bytes([kind]) + b''.join(field_bytes(w, field) for w, field in zip(rest, fields))


def encoded(text, path):
    data, pieces = bytearray(), []
    folder = os.path.dirname(path)
    for line in lines_of(text):
        try:
            words = shlex.split(line.text)
            piece = call_bytes(words, folder)
        except (Trouble, ValueError) as why:
            raise Trouble(f'{path}, line {line.number}: {why}')
        if piece:
            pieces.append(Piece(len(data), len(data) + len(piece), line, words[0] == 'raw'))
        data += piece
    return Log(bytes(data), pieces, [piece.start for piece in pieces])


def read(path):
    """A log from a file in words, hex or bytes."""
    data = files.read(path)
    plain = hex_of(data, path)
    text = text_of(data, WORDS, b'') if plain is None else None
    log = encoded(text, path) if text is not None else Log(data if plain is None else plain, [], [])
    if len(log.data) > MOST_BYTES:
        raise Trouble(f'{path}: a log of {len(log.data):,} bytes; the replay takes {MOST_BYTES:,}')
    return log


def number_at(data, at, width):
    return int.from_bytes(data[at:at + width], 'little')


def record_at(data, at):
    """The record that begins at a place: its end and its words; None where its kind is unknown or its body is cut."""
    if data[at] == BEGIN:
        table, plan = number_at(data, at + 5, 2), number_at(data, at + 7, 2)
        end = at + BEGIN_HEAD + (table + plan if at + BEGIN_HEAD <= len(data) else 0)
        words = f'begin {number_at(data, at + 1, 4)} (a table of {table} bytes, a plan of {plan})'
    elif data[at] in BY_KIND:
        word, fields = BY_KIND[data[at]]
        words, end = word, at + 1
        for field in fields:
            number, end = number_at(data, end, WIDTHS[field]), end + WIDTHS[field]
            words += f' {decimal(number) if field == "value" else number}'
    else:
        return None
    return (end, words) if end <= len(data) else None


def calls_of(data):
    """The records of a log one after another, up to one that cannot be a record."""
    at = 0
    while at < len(data):
        found = record_at(data, at)
        yield Call(at, *found) if found else Call(at, len(data), None)
        if not found:
            return
        at = found[0]

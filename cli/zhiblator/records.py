"""Tables and plans: their records, in words and in bytes, and what an accepted plan does on its table.

The kinds and layouts are those of the rules' section 'Bytes'. Nothing is judged here.
"""
from typing import NamedTuple

from . import words
from .troubles import Broken

ID, TIME = 1, 2

TABLE = words.Form(
    what='table',
    records={
        'frame': (0x10, (('deadline', TIME),)),
        'here': (0x11, (('id', ID), ('time', TIME))),
        'either': (0x12, (('id', ID), ('time', TIME), ('setup', TIME), ('return', TIME))),
    },
    end=b'\x1F',
    first=b'\x10')

PLAN = words.Form(
    what='plan',
    records={'here': (0x20, (('id', ID),)), 'away': (0x21, (('id', ID),))},
    end=b'\x2F',
    first=b'\x20\x21\x2F')

CHOICES = {kind: word for word, (kind, _) in PLAN.records.items()}


def read_table(path):
    return words.read(path, TABLE)


def read_plan(path):
    return words.read(path, PLAN)


class Stay(NamedTuple):
    """A job of a plan: its span on the panel and its finish."""
    id: int
    choice: str
    start: int
    span_end: int
    finish: int


class Layout(NamedTuple):
    deadline: int
    stays: list
    busy: int
    last: int


def table_rows(table):
    """The records of an accepted table: each its word and its numbers."""
    forms = {kind: (word, fields) for word, (kind, fields) in TABLE.records.items()}
    at = 0
    while table[at:] != TABLE.end:
        word, fields = forms[table[at]]
        numbers, at = [], at + 1
        for _, width in fields:
            numbers.append(int.from_bytes(table[at:at + width], 'little'))
            at += width
        yield word, numbers


def layout_of(table, planned):
    """Starts and ends of an accepted plan's jobs, back to back from tick 0: sums over what the library wrote."""
    (_, (deadline,)), *rows = table_rows(table)
    times = {numbers[0]: numbers[1:] for _, numbers in rows}
    stays, now = [], 0
    for kind, id in zip(planned.plan[0:-1:2], planned.plan[1::2]):
        choice = CHOICES[kind]
        span, wait = times[id][1:] if choice == 'away' else (times[id][0], 0)
        stays.append(Stay(id, choice, now, now + span, now + span + wait))
        now += span
    last = max((stay.finish for stay in stays), default=0)
    if (now, last) != (planned.busy, planned.last):
        said = f'busy {planned.busy} last {planned.last}'
        raise Broken(f'the plan adds up to busy {now} last {last}, and the library says {said}')
    return Layout(deadline, stays, now, last)

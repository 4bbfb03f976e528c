"""The refusals: number, word and sentence, stated here once for the whole command.

Another file with the same sentences is include/zhiblator.h; a test compares the two.
"""
from typing import NamedTuple

REFUSALS = {
    1: ('SHORT', 'bytes end inside a record or before the end record'),
    2: ('KIND', 'kind unknown or not allowed at this place'),
    3: ('RANGE', 'a time above 4,000, or D = 0'),
    4: ('MANY', 'a 33rd job'),
    5: ('TWICE', 'id used before in the same file'),
    6: ('AFTER', 'bytes after the end record'),
    7: ('NONE', 'no timetable meets the deadline'),
    8: ('STRANGER', 'plan names an id that the table lacks'),
    9: ('KEPT', 'plan sends a here-only job away'),
    10: ('LEFT', 'plan lacks a job of the table'),
    11: ('LATE', 'plan run at full entries misses D'),
    12: ('PHASE', 'call not allowed in this phase'),
    13: ('NUMBER', "at begin: frame number not above the last one begun; at return: not the open frame's"),
    14: ('CLOCK', 'time below that of the last accepted event'),
    15: ('WHO', 'id not the one allowed'),
    16: ('VALUE', 'value not a number, or infinite'),
    17: ('EARLY', 'close before D'),
    18: ('ROOM', 'output area shorter than 65 bytes'),
}

NONE = 7
LAST_WITH_PLACE = 6


class Refusal(NamedTuple):
    """A refusal as the library gives it; `place` is the offset of the refused record, for 1 to 6 only."""
    number: int
    place: int = 0

    @property
    def placed(self):
        return self.number <= LAST_WITH_PLACE

    @property
    def word(self):
        return REFUSALS[self.number][0]

    @property
    def sentence(self):
        return REFUSALS[self.number][1]

    def line(self):
        """The lister's line."""
        return f'refused {self.number} at {self.place}' if self.placed else f'refused {self.number}'

    def keys(self, line=None):
        """For programs; `line` is that of a file in words."""
        place = self.place if self.placed else None
        return {'number': self.number, 'word': self.word, 'sentence': self.sentence, 'place': place, 'line': line}

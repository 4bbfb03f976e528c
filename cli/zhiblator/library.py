"""The proved library, loaded as a shared object: the functions of include/zhiblator.h.

Each answers a refusal or what was asked for. The structs' fields stand here as they stand in the header.
"""
import ctypes
from typing import NamedTuple

from . import build
from .refusals import Refusal
from .troubles import Broken

LONGEST_PLAN = 65


def struct(*names):
    return type('Answer', (ctypes.Structure,), {'_fields_': [(name, ctypes.c_uint64) for name in names]})


PLANNED = struct('number', 'place', 'length', 'busy', 'last')
LEAST = struct('number', 'place', 'deadline')
CHECKED = struct('number', 'place', 'last', 'busy')


class Planned(NamedTuple):
    plan: bytes
    busy: int
    last: int


def area(data):
    """Bytes lent to the library; never an empty array, so that the pointer is always a good one."""
    return (ctypes.c_ubyte * max(1, len(data))).from_buffer_copy(data or b'\0')


class Library:
    def __init__(self, path):
        try:
            self.functions = ctypes.CDLL(path)
        except OSError as why:
            raise Broken(f'{path} cannot be loaded: {why}')

    def answer(self, name, kind, *slices):
        """Calls a function over slices, each a pointer and a length; a refusal or the struct of numbers."""
        function = getattr(self.functions, name)
        function.restype = kind
        function.argtypes = [ctypes.POINTER(ctypes.c_ubyte), ctypes.c_size_t] * len(slices)
        numbers = function(*(word for bytes_at, length in slices for word in (bytes_at, length)))
        return Refusal(numbers.number, numbers.place) if numbers.number else numbers

    def plan(self, table, given=False, room=LONGEST_PLAN):
        """The free-order plan, or the given-order one; `room` is what the planner is lent to write in."""
        name, out = ('zb_plan_given' if given else 'zb_plan_free'), area(bytes(LONGEST_PLAN))
        answer = self.answer(name, PLANNED, (area(table), len(table)), (out, room))
        if isinstance(answer, Refusal):
            return answer
        return Planned(bytes(out[:answer.length]), answer.busy, answer.last)

    def least(self, table):
        answer = self.answer('zb_least_deadline', LEAST, (area(table), len(table)))
        return answer if isinstance(answer, Refusal) else answer.deadline

    def check(self, table, plan):
        """A plan that passes, with its figures, or the refusal."""
        answer = self.answer('zb_check_plan', CHECKED, (area(table), len(table)), (area(plan), len(plan)))
        return answer if isinstance(answer, Refusal) else Planned(plan, answer.busy, answer.last)


def load():
    return Library(build.shared_library())

"""replay: the calls of a log made on one frame record by the proved program, each with its answer beside it."""
import re
import subprocess
import sys
from typing import NamedTuple

from .. import build, calls, shown
from ..refusals import Refusal
from ..troubles import ACCEPTED, REFUSED, Broken
from ..words import printable

NAME = 'replay'
HELP = 'make the calls of a log on one frame record and print each with its answer'
EXAMPLE = """\
  ./zhiblator replay logs/late-answer.calls
    return 7 1 46 1.0                                     return accepted
    read 1                                                read late
  One call to a line; '#' begins a remark; a table's path is relative to the log's own folder:
    begin NUMBER TABLE [here ID | away ID] ..    the plan's steps, in plan order; hex:DIGITS for a table in hex
    next
    span ID TIME VALUE                           VALUE: a number, nan, inf, or 0x and the digits of its pattern
    return NUMBER ID TIME VALUE
    close TIME
    read ID
    raw HEX                                      any bytes, as of a damaged record
  A log may also be hex text or a file of bytes (docs/REPLAY.md). A refused call is an answer: the exit code is 1 only
  where the log stops, as this one does at its cut last record.
"""
WIDEST_CALL = 64
ANSWER = re.compile(r'(?P<call>\w+) (?:refused (?P<number>\d+)(?: at (?P<place>\d+))?'
                    r'|fresh (?P<frame>\d+) (?P<pattern>[0-9a-f]{8})|(?P<id>\d+) (?P<choice>here|away)|\w+)')


class Row(NamedTuple):
    """A call with its words and the lines that it stands on, and the program's answer to it with its parts.

    `written` tells whether the words are those of the log, not made from raw bytes.
    """
    call: calls.Call
    lines: list
    words: str
    written: bool
    answer: str
    parts: dict

    @property
    def text(self):
        """The words, with their lines where the log has other words there."""
        if self.written or not self.lines:
            return self.words
        first, last = self.lines[0], self.lines[-1]
        return f'{self.words}   # ' + (f'line {first}' if first == last else f'lines {first} to {last}')

    @property
    def refusal(self):
        return Refusal(int(self.parts['number']), int(self.parts['place'] or 0)) if self.parts.get('number') else None


def arguments(parser):
    parser.add_argument('log', metavar='LOG', help='in words, hex or bytes')
    parser.add_argument('--json', action='store_true', help='for programs')


def run(args):
    log = calls.read(args.log)
    rows = paired(log, answers_of(log.data))
    stopped = rows[-1] if rows and rows[-1].call.words is None else None
    if args.json:
        shown.put_json(keys(log, rows, stopped))
    else:
        show(rows)
    if stopped is None:
        return ACCEPTED
    if not args.json:
        print(stop_words(log, stopped), file=sys.stderr)
    return REFUSED


def answers_of(data):
    """The lines that the proved program prints for a log."""
    done = subprocess.run([build.program('replay')], input=data, stdout=subprocess.PIPE)
    if done.returncode:
        raise Broken(f'the program replay ended with {done.returncode}')
    return done.stdout.decode('ascii').splitlines()


def paired(log, answers):
    """Each call of the log with its answer; they are as many, and each answer begins with its call's word."""
    found = list(calls.calls_of(log.data))
    if len(found) != len(answers):
        raise Broken(f'the log has {len(found)} calls, and the program gave {len(answers)} answers')
    rows = []
    for call, answer in zip(found, answers):
        parts = {} if call.words is None else ANSWER.fullmatch(answer)
        word = 'stopped' if call.words is None else call.words.split()[0]
        if parts is None or answer.split()[0] != word:
            raise Broken(f'the program answered {answer!r} to {call.words!r}')
        rows.append(Row(call, *words_of(log, call), answer, parts and parts.groupdict()))
    return rows


def words_of(log, call):
    """The lines that a call stands on, and its words: as written where it is a line, else as its bytes say."""
    pieces = log.pieces_of(call.start, call.end)
    lines = [piece.line.number for piece in pieces]
    if len(pieces) == 1 and pieces[0][:2] == call[:2] and (call.words is None or not pieces[0].raw):
        return lines, printable(' '.join(pieces[0].line.text.split())), True
    return lines, call.words or f'{call.end - call.start} bytes from {call.start} on', False


def answer_words(row):
    """The program's line; a refusal's word and a value's decimal number behind it."""
    if row.refusal:
        return shown.coloured(f'{row.answer} {row.refusal.word}', 'bad')
    if row.parts.get('pattern'):
        return shown.coloured(f'{row.answer} = {calls.decimal(int(row.parts["pattern"], 16))}', 'good')
    return row.answer


def show(rows):
    """Two columns that never run together: an answer to a longer call stands on the next line."""
    width = min(WIDEST_CALL, max((len(row.text) for row in rows), default=0))
    for row in rows:
        gap = f'\n{"":{width}}' if len(row.text) > width else ''
        print(f'{row.text:{width}}{gap}   {answer_words(row)}')
    met = sorted({row.refusal.number: row.refusal for row in rows if row.refusal}.items())
    if met:
        print()
    for _, refusal in met:
        print(f'{refusal.number} {refusal.word}: {refusal.sentence}')


def stop_words(log, stopped):
    kind, at = log.data[stopped.call.start], stopped.call.start
    known = kind == calls.BEGIN or kind in calls.BY_KIND
    line = f', line {stopped.lines[0]}' if stopped.lines else ''
    why = 'the record is cut' if known else f'no record has the kind {kind:02X}'
    return f'stopped at byte {at}{line}: {why}; nothing behind it is called'


def keys(log, rows, stopped):
    made = [row for row in rows if row is not stopped]
    stop = stopped and {'at': stopped.call.start, 'lines': stopped.lines, 'words': stop_words(log, stopped)}
    return {'accepted': stopped is None, 'calls': [row_keys(row) for row in made], 'stopped': stop}


def row_keys(row):
    fresh = job = None
    if row.parts['pattern']:
        pattern = row.parts['pattern']
        fresh = {'frame': int(row.parts['frame']), 'pattern': pattern, 'value': float(calls.decimal(int(pattern, 16)))}
    if row.parts['id']:
        job = {'id': int(row.parts['id']), 'choice': row.parts['choice']}
    refused = row.refusal and row.refusal.keys()
    return {'at': row.call.start, 'lines': row.lines, 'call': row.words, 'answer': row.answer,
            'refused': refused, 'fresh': fresh, 'job': job}

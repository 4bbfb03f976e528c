"""least: the least deadline that a table's jobs meet."""
from .. import library, records, shown
from ..refusals import Refusal

NAME = 'least'
HELP = "print the least deadline that a table's jobs meet"
EXAMPLE = """\
  ./zhiblator least tables/lost-shift.words
    least 505
  The table's own deadline is ignored.
"""


def arguments(parser):
    parser.add_argument('table', metavar='TABLE', help='in words, hex or bytes')
    parser.add_argument('--json', action='store_true', help='for programs')


def run(args):
    table, proved = records.read_table(args.table), library.load()
    answer = proved.least(table.data)
    if isinstance(answer, Refusal):
        return shown.refuse(args, answer, table, proved)
    return shown.accept(args, {'least': answer}, [f'least {answer}'])

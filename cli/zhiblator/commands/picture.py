"""picture: the plan of a table as an SVG picture."""
import os

from .. import files, library, records, shown
from ..picture import Picture
from ..refusals import Refusal
from ..troubles import ACCEPTED
from ..words import quoted

NAME = 'picture'
HELP = 'draw the plan of a table as SVG'
EXAMPLE = """\
  ./zhiblator picture tables/air-header.words -o target/air-header.svg
  The title is the name behind the table's `frame D`, or else the file's.
"""


def arguments(parser):
    parser.add_argument('table', metavar='TABLE', help='in words, hex or bytes')
    parser.add_argument('--given', action='store_true', help='keep the jobs in table order')
    parser.add_argument('-o', dest='out', metavar='FILE', help='where the picture goes; else standard output')
    parser.set_defaults(json=False)


def run(args):
    table, proved = records.read_table(args.table), library.load()
    answer = proved.plan(table.data, args.given)
    if isinstance(answer, Refusal):
        return shown.refuse(args, answer, table, proved)
    title = table.names.get(None) or quoted(os.path.basename(args.table))
    text = '\n'.join(Picture(title, table.names, records.layout_of(table.data, answer)).lines()) + '\n'
    if args.out:
        files.write(args.out, text.encode('utf-8'))
    else:
        print(text, end='')
    return ACCEPTED

"""check: anybody's plan against its table, and which of the two files a refusal is about."""
from .. import library, records, shown
from ..refusals import NONE, Refusal

NAME = 'check'
HELP = "check anybody's plan against its table"
EXAMPLE = """\
  printf 'away 1\\naway 2\\nhere 3\\n' | ./zhiblator check tables/e.words -
    passes busy 40 last 45
  A refusal says which file it is about: `plan refused 10`, `table refused 1 at 11`.
  A planner's plan as a file: ./zhiblator bytes TABLE --plan FILE
"""


def arguments(parser):
    parser.add_argument('table', metavar='TABLE', help='in words, hex or bytes')
    parser.add_argument('plan', metavar='PLAN', help="in words (lines as 'away 1', 'here 3'), hex or bytes")
    parser.add_argument('--json', action='store_true', help='for programs')


def run(args):
    table, plan = records.read_table(args.table), records.read_plan(args.plan)
    proved = library.load()
    answer = proved.check(table.data, plan.data)
    if isinstance(answer, Refusal):
        read = refused_file(proved, table, plan)
        return shown.refuse(args, answer, read, about=f'{read.what} ')
    keys = {'busy': answer.busy, 'last': answer.last}
    return shown.accept(args, keys, [shown.coloured('passes', 'good') + f' busy {answer.busy} last {answer.last}'])


def refused_file(proved, table, plan):
    """The table's refusals come first; the least deadline refuses the same way exactly where the table is refused."""
    least = proved.least(table.data)
    return table if isinstance(least, Refusal) and least.number != NONE else plan

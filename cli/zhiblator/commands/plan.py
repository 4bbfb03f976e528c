"""plan: the plan of a table as the lister prints it; on a terminal with names and bars."""
import shutil

from .. import library, records, shown
from ..refusals import Refusal

NAME = 'plan'
HELP = 'print the plan of a table'
EXAMPLE = """\
  ./zhiblator plan tables/e.words
    frame 45 jobs 3         the deadline, the number of jobs
    1 away 0 5 45           id, choice, start, span end, finish
    2 away 5 15 25
    3 here 15 40 40
    busy 40 last 45         busy total, last finish
  Not on a terminal these lines are printed alone, byte for byte as the proved lister prints them.
"""
WIDEST_BAR = 60


def arguments(parser):
    parser.add_argument('table', metavar='TABLE', help='in words, hex or bytes')
    parser.add_argument('--given', action='store_true', help='keep the jobs in table order')
    parser.add_argument('--names', action='store_true', help="the table's names behind the job lines")
    parser.add_argument('--json', action='store_true', help='for programs')


def run(args):
    table, proved = records.read_table(args.table), library.load()
    answer = proved.plan(table.data, args.given)
    if isinstance(answer, Refusal):
        return shown.refuse(args, answer, table, proved)
    layout = records.layout_of(table.data, answer)
    if shown.on_terminal():
        lines = terminal_lines(layout, table.names)
    else:
        lines = plain_lines(layout, table.names if args.names else {})
    return shown.accept(args, keys(layout, table.names, args.given), lines)


def keys(layout, names, given):
    jobs = [dict(stay._asdict(), name=names.get(stay.id, '')) for stay in layout.stays]
    order = 'given' if given else 'free'
    return {'order': order, 'deadline': layout.deadline, 'jobs': jobs, 'busy': layout.busy, 'last': layout.last}


def plain_lines(layout, names):
    """The lister's lines, a job's name behind its line."""
    yield f'frame {layout.deadline} jobs {len(layout.stays)}'
    for stay in layout.stays:
        yield ' '.join(map(str, [*stay, names[stay.id]] if stay.id in names else stay))
    yield f'busy {layout.busy} last {layout.last}'


def bar(stay, deadline, width):
    """A job's span full, its answer's time light; rounded outwards, so that the shortest span is seen."""
    start = stay.start * width // deadline
    end, finish = (-(-time * width // deadline) for time in (stay.span_end, stay.finish))
    end = end if stay.span_end > stay.start else start
    return (' ' * start + '█' * (end - start) + '░' * (finish - end)).ljust(width) + '|'


def terminal_lines(layout, names):
    """The same in columns, each job with its bar and its name."""
    widest = max([len(name) for id, name in names.items() if id is not None], default=0)
    width = max(10, min(WIDEST_BAR, shutil.get_terminal_size().columns - 36 - widest))
    yield shown.coloured(f'{"id":>5} choice  start    end finish', 'dim')
    for stay in layout.stays:
        line = f'{stay.id:>5} {stay.choice:<6} {stay.start:>6} {stay.span_end:>6} {stay.finish:>6} '
        drawn = shown.coloured(bar(stay, layout.deadline, width), stay.choice)
        yield f'{line} {drawn} {names.get(stay.id, "")}'.rstrip()
    yield f'frame {layout.deadline} jobs {len(layout.stays)} busy {layout.busy} last {layout.last}'

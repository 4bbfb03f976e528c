"""bytes: a table and its plan in hex with their SHA-256, for the acceptance sheet; or written as files of bytes."""
import hashlib

from .. import files, library, records, shown
from ..refusals import Refusal
from .check import refused_file

NAME = 'bytes'
HELP = 'print a table and its plan in hex with their SHA-256'
EXAMPLE = """\
  ./zhiblator bytes tables/e.words
    table 24 bytes
    10 2D 00 12 01 1E 00 05 00 28 00 12 02 14 00 0A 00 0A 00 11 03 19 00 1F
    sha256 76589fcda9ef3f59bbe8236a7d31bfd42aa34ced1be36d1a55c5b726f4760cfe
    plan 7 bytes
    21 01 21 02 20 03 2F
    sha256 205537dd2af2aeff6240e71e2752e702f23105f39c6aab3cf5ebb58968988e61
  ./zhiblator bytes tables/e.words --table target/e.table --plan target/e.plan
  The second also writes both as files of bytes. What is refused has no plan; its table is shown all the same.
"""
IN_A_ROW = 24


def arguments(parser):
    parser.add_argument('table', metavar='TABLE', help='in words, hex or bytes')
    parser.add_argument('own_plan', metavar='PLAN', nargs='?',
                        help='a plan to check and show; where there is none, the free-order plan is shown')
    parser.add_argument('--table', dest='table_out', metavar='FILE', help='write the table here, as bytes')
    parser.add_argument('--plan', dest='plan_out', metavar='FILE', help='write the plan here, as bytes')
    parser.add_argument('--json', action='store_true', help='for programs')


def run(args):
    table, proved = records.read_table(args.table), library.load()
    plan = None if args.own_plan is None else records.read_plan(args.own_plan)
    answer = proved.check(table.data, plan.data) if plan else proved.plan(table.data)
    files.write(args.table_out, table.data)
    if not args.json:
        put('table', table.data)
    if isinstance(answer, Refusal):
        read = refused_file(proved, table, plan) if plan else table
        return shown.refuse(args, answer, read, proved, f'{read.what} ', {'table': keys(table.data)})
    files.write(args.plan_out, answer.plan)
    if not args.json:
        put('plan', answer.plan)
    return shown.accept(args, {'table': keys(table.data), 'plan': keys(answer.plan)}, [])


def sha256(data):
    return hashlib.sha256(data).hexdigest()


def keys(data):
    return {'hex': data.hex().upper(), 'bytes': len(data), 'sha256': sha256(data)}


def put(what, data):
    print(f'{what} {len(data)} bytes')
    for at in range(0, len(data), IN_A_ROW):
        print(' '.join(f'{byte:02X}' for byte in data[at:at + IN_A_ROW]))
    print(f'sha256 {sha256(data)}')

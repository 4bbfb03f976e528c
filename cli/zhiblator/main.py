"""The command: takes its words apart, runs the subcommand, and turns every trouble into one line and an exit code.

A subcommand is one module of commands/ (NAME, HELP, EXAMPLE, arguments, run) and its place in COMMANDS.
"""
import argparse
import os
import sys
import traceback

from .commands import bytes as bytes_
from .commands import check, least, picture, plan, replay, version
from .troubles import ACCEPTED, BROKEN, USAGE, Trouble
from .words import printable

COMMANDS = [plan, least, check, bytes_, picture, replay, version]

INTRODUCTION = """\
Plans, checks and replays job tables with the proved library.

A table in words, one record to a line ('#' begins a remark; names are for people):
  frame 500                                  the deadline
  here 1 40 valve survey                     id, time: a job that stays on the panel
  either 2 120 15 150 header estimate        id, time here, setup, return: one that may go to a server
A table or a plan may also be hex text or a file of bytes; '-' is standard input.
"""
CODES = """\
exit codes:
  0 accepted; 1 refused by the library, or a log that stops; 2 wrong use, or no table, plan or log at all (no such
  file, a word or number that no record holds); 3 the library could not be built, or an answer does not add up
"""
INTERRUPTED = 130


class Parser(argparse.ArgumentParser):
    def error(self, message):
        raise Trouble(f'{message} (see {self.prog} --help)')


def parser():
    words = Parser(prog='./zhiblator', description=INTRODUCTION, epilog=CODES,
                   formatter_class=argparse.RawDescriptionHelpFormatter)
    words.add_argument('--version', action='store_true', help='what `version` says')
    below = words.add_subparsers(title='subcommands', metavar='SUBCOMMAND',
                                 help='./zhiblator SUBCOMMAND --help tells more')
    for module in COMMANDS:
        one = below.add_parser(module.NAME, help=module.HELP, description=module.HELP + '.',
                               epilog=f'example:\n{module.EXAMPLE}\n{CODES}',
                               formatter_class=argparse.RawDescriptionHelpFormatter)
        module.arguments(one)
        one.set_defaults(run=module.run)
    return words


def run(words):
    said = parser()
    args = said.parse_args(words)
    if args.version:
        return version.run(args)
    if not hasattr(args, 'run'):
        said.print_help(sys.stderr)
        return USAGE
    return args.run(args)


def told(trouble, code):
    """One line, whatever a file is called or another program said."""
    print('zhiblator: ' + printable(' '.join(str(trouble).splitlines())), file=sys.stderr)
    return code


def ready_streams():
    """What cannot be shown is shown by its number; a stream that was closed takes everything and keeps nothing."""
    for name in ('stdout', 'stderr'):
        if getattr(sys, name) is None:
            setattr(sys, name, open(os.devnull, 'w'))
        getattr(sys, name).reconfigure(errors='backslashreplace')


def main(words):
    """The exit code; what is printed is written out before it is given."""
    ready_streams()
    try:
        code = run(words)
        sys.stdout.flush()
        return code
    except Trouble as trouble:
        return told(trouble, trouble.code)
    except KeyboardInterrupt:
        return told('interrupted', INTERRUPTED)
    except OSError as why:
        # what is left in the buffer goes nowhere, also not when Python ends
        os.dup2(os.open(os.devnull, os.O_WRONLY), sys.stdout.fileno())
        gone = isinstance(why, BrokenPipeError)
        return ACCEPTED if gone else told(f'{why.filename or "cannot write"}: {why.strerror}', BROKEN)
    except Exception as why:
        place = traceback.extract_tb(why.__traceback__)[-1]
        name = os.path.basename(place.filename)
        return told(f'internal error at {name}, line {place.lineno}: {type(why).__name__}: {why}', BROKEN)

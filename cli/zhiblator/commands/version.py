"""version: this project's version, the kit that it was proved with, and the kit that is installed."""
from .. import build, first_line
from ..troubles import ACCEPTED

NAME = 'version'
HELP = 'print the version and the kit that it was proved with'
EXAMPLE = """\
  ./zhiblator version
"""


def arguments(_):
    """It takes none."""


def run(_):
    pinned, here = first_line('kit-version'), build.kit_here()
    print(f'zhiblator {first_line("VERSION")}')
    print(f'proved with {pinned}')
    other = ' (another than the one that it was proved with)' if here and here != pinned else ''
    print('installed: ' + (here or 'no kit, rt is not on the path') + other)
    return ACCEPTED

"""Files in and out: what cannot be read or written is told in one plain line; no more is read than a table needs."""
from .troubles import Trouble

MOST_BYTES = 1 << 20

# whether standard input has been taken for a file already
taken = []


def read(path):
    """The bytes of a file; '-' is standard input, which is one file."""
    if path == '-':
        if taken:
            raise Trouble("'-' may stand once: standard input is one file")
        taken.append(path)
    try:
        with open(0 if path == '-' else path, 'rb', closefd=path != '-') as file:
            data = file.read(MOST_BYTES + 1)
    except FileNotFoundError:
        raise Trouble(f'{path}: no such file')
    except IsADirectoryError:
        raise Trouble(f'{path}: a folder, not a file')
    except (OSError, ValueError) as why:
        raise Trouble(f'{path}: cannot be read: {getattr(why, "strerror", None) or why}')
    if len(data) > MOST_BYTES:
        raise Trouble(f'{path}: more than {MOST_BYTES:,} bytes, far above the longest table, plan or log')
    return data


def write(path, data):
    """Writes a file where a path is given."""
    if path is None:
        return
    try:
        with open(path, 'wb') as file:
            file.write(data)
    except (OSError, ValueError) as why:
        raise Trouble(f'{path}: cannot be written: {getattr(why, "strerror", None) or why}')

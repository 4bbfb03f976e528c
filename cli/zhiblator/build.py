"""Proves and builds what a command needs, once: the library as a shared object, and the program `replay`.

All that is made stands under target/. What is newer than every source of its crates is taken as it is.
"""
import contextlib
import fcntl
import os
import re
import shutil
import subprocess
import sys
import time

from . import TOP, first_line
from .troubles import Broken

CRATES, TARGET = os.path.join(TOP, 'crates'), os.path.join(TOP, 'target')
SHOWN_OF_A_FAILURE = 20

# rt has checked a crate; and the verdict on it
CHECKED = re.compile(r'crate (\w+): modules ')
PROVED = re.compile(r'logic=proved ')
# what a crate is built from; rt keeps its work in out/ beside these
SOURCES = ('src', 'specs', 'proofs')


def say(line):
    print(line, file=sys.stderr, flush=True)


def needed(crate):
    """The repository's crates that a crate is built from, itself among them, in the order of crates.txt."""
    with open(os.path.join(TOP, 'crates.txt'), encoding='utf-8') as file:
        listed = [line.split('#')[0].split(':') for line in file]
    uses = {line[0].split()[0]: line[1].split() for line in listed if len(line) == 2}
    wanted, found = [crate], set()
    while wanted:
        name = wanted.pop()
        if name in uses and name not in found:
            found.add(name)
            wanted += uses[name]
    return [name for name in uses if name in found]


def newest_source(crates):
    """When the sources last changed; a folder's time tells of a file that is gone."""
    newest = os.path.getmtime(os.path.join(TOP, 'crates.txt'))
    for top in [os.path.join(CRATES, crate, kind) for crate in crates for kind in SOURCES]:
        for folder, _, names in os.walk(top):
            for path in [folder] + [os.path.join(folder, name) for name in names]:
                newest = max(newest, os.path.getmtime(path))
    return newest


def is_fresh(path, crates):
    return os.path.exists(path) and os.path.getmtime(path) >= newest_source(crates)


@contextlib.contextmanager
def alone():
    """One use builds at a time; the others wait for it, and then find everything built."""
    os.makedirs(TARGET, exist_ok=True)
    with open(os.path.join(TARGET, 'zhiblator.lock'), 'w') as lock:
        try:
            fcntl.flock(lock, fcntl.LOCK_EX | fcntl.LOCK_NB)
        except BlockingIOError:
            say('waiting for another use that is building ..')
            fcntl.flock(lock, fcntl.LOCK_EX)
        yield


def made(path, crate, make):
    """The path of what is built from a crate, made first where it is not there or a source is newer.

    It gets the time at which its making began, so that a source changed meanwhile counts as newer.
    """
    crates = needed(crate)
    if is_fresh(path, crates):
        return path
    try:
        with alone():
            if not is_fresh(path, crates):
                began = time.time()
                make()
                os.utime(path, (began, began))
    except OSError as why:
        raise Broken(f'cannot build under target/: {why}')
    return path


def kit_command():
    """The kit's `rt`; another version than the one that this was proved with is told, and used."""
    rt = shutil.which('rt')
    if rt is None:
        raise Broken("rt, the Rattle kit's command, is not on the path; it proves and builds what this command calls")
    pinned, here = first_line('kit-version'), kit_here()
    if here != pinned:
        say(f'note: this was proved with {pinned}; the kit here is {here}')
    return rt


def kit_here():
    """The one line of the installed kit, None where there is none."""
    if shutil.which('rt') is None:
        return None
    return subprocess.run(['rt', 'version'], stdout=subprocess.PIPE, universal_newlines=True).stdout.strip()


def prove(word, crate):
    """Runs an rt command in a crate's folder and tells each crate as it is proved; what rt prints goes to a file."""
    command = [kit_command(), word]
    crates = needed(crate)
    say(f'proving {len(crates)} crates for {crate}, some minutes the first time; later uses start at once')
    log = os.path.join(TARGET, f'zhiblator-{crate}.log')
    with open(log, 'w', encoding='utf-8') as out:
        run = subprocess.Popen(command, cwd=os.path.join(CRATES, crate), stdin=subprocess.DEVNULL,
                               stdout=subprocess.PIPE, stderr=subprocess.STDOUT, encoding='utf-8', errors='replace')
        with run:
            report(run.stdout, out, crates)
    if run.returncode:
        with open(log, encoding='utf-8') as out:
            say(''.join(out.readlines()[-SHOWN_OF_A_FAILURE:]).rstrip())
        raise Broken(f'rt {word} of crate {crate} ended with {run.returncode}; all that it said is in {log}')


def report(lines, out, crates):
    """Copies rt's lines to `out`, and says a line for each crate that is proved."""
    count, crate = 0, None
    for line in lines:
        out.write(line)
        checked = CHECKED.match(line)
        if checked:
            crate = checked[1]
        elif PROVED.match(line):
            count += 1
            say(f'proved {count} of {len(crates)}: {crate}')


def link(archive, path):
    """The archive as a shared object, put in its place whole."""
    cc = shutil.which('cc')
    if cc is None:
        raise Broken('cc, a C compiler, is not on the path; it links the proved library')
    part = f'{path}.{os.getpid()}'
    run = subprocess.run([cc, '-shared', '-o', part, '-Wl,--whole-archive', archive, '-Wl,--no-whole-archive'],
                         stdout=subprocess.PIPE, stderr=subprocess.STDOUT, universal_newlines=True)
    if run.returncode:
        raise Broken(f'cc could not link the proved library: {run.stdout.strip()}')
    os.replace(part, path)


def taken(crate, name, path):
    """What rt built of a crate, copied to its place under target/."""
    os.makedirs(os.path.dirname(path), exist_ok=True)
    shutil.copy2(os.path.join(CRATES, crate, 'out', name), path)


def shared_library():
    archive, path = os.path.join(TARGET, 'staticlib', 'libpanel.a'), os.path.join(TARGET, 'libzhiblator.so')

    def make():
        if not is_fresh(archive, needed('panel_c')):
            prove('lib', 'panel_c')
            taken('panel_c', 'libpanel_c.a', archive)
        link(archive, path)

    return made(path, 'panel_c', make)


def program(name):
    path = os.path.join(TARGET, 'bin', name)

    def make():
        prove('run', name)
        taken(name, name, path)

    return made(path, name, make)

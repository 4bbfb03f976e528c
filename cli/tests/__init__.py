"""Tests of the command, run as a person runs it: python3 -m unittest discover -s cli/tests -t cli"""
import io
import json
import os
import subprocess
import sys
import tempfile
import unittest
from contextlib import redirect_stderr, redirect_stdout
from typing import NamedTuple

from zhiblator import TOP, build
from zhiblator.main import main

# built before the first test, so that no test meets the lines of a first use
build.shared_library()
build.program('replay')

E = 'frame 45\neither 1 30 5 40\neither 2 20 10 10\nhere 3 25\n'
E_BYTES = bytes.fromhex('102D0012011E00050028001202' '14000A000A00110319001F')
E_PLAN = bytes.fromhex('2101210220032F')
E_LISTED = 'frame 45 jobs 3\n1 away 0 5 45\n2 away 5 15 25\n3 here 15 40 40\nbusy 40 last 45\n'


class Done(NamedTuple):
    code: int
    out: str
    err: str


def zhiblator(*words):
    """Calls the command from the repository's top, in this process: a test makes many calls."""
    out, err = (io.TextIOWrapper(io.BytesIO(), encoding='utf-8') for _ in range(2))
    os.chdir(TOP)
    with redirect_stdout(out), redirect_stderr(err):
        try:
            code = main(list(words))
        except SystemExit as end:
            code = end.code
    out.flush()
    err.flush()
    return Done(code, out.buffer.getvalue().decode(), err.buffer.getvalue().decode())


def started(*words, **more):
    """Starts the command as a program of its own, with its own streams."""
    done = subprocess.run([sys.executable, os.path.join(TOP, 'zhiblator'), *words], cwd=TOP,
                          stdout=subprocess.PIPE, stderr=subprocess.PIPE, **more)
    return Done(done.returncode, done.stdout.decode(), done.stderr.decode(errors='replace'))


class Case(unittest.TestCase):
    """A test with a folder of its own for the files that it offers."""

    def setUp(self):
        folder = tempfile.TemporaryDirectory()
        self.addCleanup(folder.cleanup)
        self.folder = folder.name

    def file(self, content, name='given'):
        path = os.path.join(self.folder, name)
        with open(path, 'wb') as file:
            file.write(content if isinstance(content, bytes) else content.encode())
        return path

    def accepted(self, *words):
        done = zhiblator(*words)
        self.assertEqual((done.code, done.err), (0, ''), done)
        return done.out

    def refused(self, *words):
        """What a refused command prints, and what it says beside."""
        done = zhiblator(*words)
        self.assertEqual(done.code, 1, done)
        self.assertEqual(done.err.count('\n'), 1, done.err)
        return done.out, done.err

    def unusable(self, *words, code=2):
        """The one plain line of what is no use of the command."""
        done = zhiblator(*words)
        self.assertEqual((done.code, done.out), (code, ''), done)
        self.assertRegex(done.err, r'\Azhiblator: .*\n\Z')
        return done.err

    def keys(self, code, *words):
        """What a command with --json prints, parsed."""
        done = zhiblator(*words, '--json')
        self.assertEqual((done.code, done.err), (code, ''), done)
        return json.loads(done.out)

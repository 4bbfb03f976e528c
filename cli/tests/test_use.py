"""Bad use of the command: files that cannot be read, wrong words, closed pipes; and the example tables."""
import os
import pty
import signal
import stat
import subprocess
import sys
import time
from unittest import mock

from zhiblator import TOP, library
from zhiblator.commands import replay

from . import E, Case, zhiblator

# the tables that the project brings; others may stand beside them
EXAMPLES = ['air-header.words', 'cut.table', 'e.words', 'empty.words', 'lost-shift.words', 'thirty-two.words',
            'twice.words']
READERS = ['plan', 'least', 'bytes', 'picture', 'replay']


def as_bytes(name):
    """The path of an example's file of bytes."""
    return os.path.join(TOP, 'tables', name.split('.')[0] + '.table')


class Files(Case):
    def test_what_cannot_be_read(self):
        huge = self.file(b'# ' + b'x' * (1 << 20), 'huge')
        for path, said in (('nowhere', 'no such file'), (self.folder, 'a folder, not a file'),
                           (huge, 'more than 1,048,576 bytes'), ('/dev/zero', 'more than 1,048,576 bytes'),
                           ('zhiblator/x', 'cannot be read: Not a directory'),
                           ('x' * 5000, 'cannot be read: File name too long')):
            for command in READERS:
                self.assertIn(said, self.unusable(command, path))
        for words in (['nowhere', 'tables/e.words'], ['tables/e.words', 'nowhere']):
            self.assertIn('no such file', self.unusable('check', *words))

    def test_a_file_that_may_not_be_read(self):
        path = self.file(E)
        os.chmod(path, 0)
        if os.access(path, os.R_OK):
            self.skipTest('root reads every file')
        self.assertIn('cannot be read: Permission denied', self.unusable('plan', path))

    def test_what_cannot_be_written(self):
        out = os.path.join(self.folder, 'no', 'such', 'folder')
        self.assertIn('cannot be written', self.unusable('picture', 'tables/e.words', '-o', out))
        done = zhiblator('bytes', 'tables/e.words', '--table', out)
        self.assertEqual((done.code, done.err.count('\n')), (2, 1))

    def test_odd_file_names(self):
        for name in ('a table', "it's", '#1', 'tést'):
            self.assertIn('busy 40 last 45', self.accepted('plan', self.file(E, name)))
        self.assertIn('a b: no such file', self.unusable('plan', 'a\nb'))
        name = os.fsencode(self.folder) + b'/\xff'
        done = subprocess.run([sys.executable, 'zhiblator', b'plan', name], cwd=TOP, stderr=subprocess.PIPE)
        self.assertEqual((done.returncode, done.stderr.count(b'\n')), (2, 1))


class Words(Case):
    def test_wrong_words(self):
        table = 'tables/e.words'
        for words in (['plann', table], ['plan'], ['plan', table, table], ['plan', '--wrong', table], ['check', table],
                      ['picture', '--json', table], ['version', table], ['picture', table, '-o']):
            self.assertIn('--help', self.unusable(*words))

    def test_no_words(self):
        done = zhiblator()
        self.assertEqual((done.code, done.out), (2, ''))
        self.assertIn('subcommands', done.err)


class Broken(Case):
    def test_an_answer_that_does_not_add_up(self):
        wrong = library.Planned(bytes.fromhex('2F'), busy=1, last=0)
        with mock.patch.object(library.Library, 'plan', return_value=wrong):
            said = self.unusable('plan', 'tables/empty.words', code=3)
        self.assertIn('the plan adds up to busy 0 last 0, and the library says busy 1 last 0', said)

    def test_answers_that_are_not_as_many_as_the_calls(self):
        with mock.patch.object(replay, 'answers_of', return_value=['next none']):
            self.assertIn('the program gave 1 answers', self.unusable('replay', 'logs/on-time.calls', code=3))
        path = self.file('read 1', 'x.calls')
        with mock.patch.object(replay, 'answers_of', return_value=['next none']):
            self.assertIn("answered 'next none' to 'read 1'", self.unusable('replay', path, code=3))

    def test_an_error_of_our_own(self):
        with mock.patch.object(library, 'load', side_effect=KeyError('x')):
            self.assertIn('internal error at', self.unusable('plan', 'tables/e.words', code=3))


class Streams(Case):
    def shell(self, line):
        done = subprocess.run(['sh', '-c', line, sys.executable], cwd=TOP,
                              stdout=subprocess.PIPE, stderr=subprocess.PIPE)
        return done.returncode, done.stderr.decode()

    def test_closed_streams_and_a_full_disk(self):
        for line, said in (
                ('"$0" zhiblator replay logs/on-time.calls | head -n 1', (0, '')),
                ('"$0" zhiblator plan tables/e.words >&-', (0, '')),
                ('"$0" zhiblator plan tables/cut.table 2>&-', (1, '')),
                ('"$0" zhiblator plan - <&-', (2, 'zhiblator: -: cannot be read: Bad file descriptor\n')),
                ('"$0" zhiblator plan tables/e.words > /dev/full',
                 (3, 'zhiblator: cannot write: No space left on device\n'))):
            self.assertEqual(self.shell(line), said, line)

    def test_interrupted(self):
        os.mkfifo(os.path.join(self.folder, 'pipe'))
        run = subprocess.Popen([sys.executable, 'zhiblator', 'plan', os.path.join(self.folder, 'pipe')], cwd=TOP,
                               stderr=subprocess.PIPE)
        time.sleep(1)
        run.send_signal(signal.SIGINT)
        self.assertEqual((run.communicate()[1], run.returncode), (b'zhiblator: interrupted\n', 130))

    def terminal(self, **env):
        """What the command prints on a terminal."""
        ours, theirs = pty.openpty()
        with open(theirs, 'wb') as out:
            subprocess.run([sys.executable, 'zhiblator', 'plan', 'tables/air-header.words'], cwd=TOP, stdout=out,
                           env={**{k: v for k, v in os.environ.items() if k != 'NO_COLOR'}, **env})
            text = os.read(ours, 65536).decode()
        os.close(ours)
        return text.replace('\r\n', '\n')

    def test_colours_and_bars_on_a_terminal_only(self):
        text = self.terminal(COLUMNS='100')
        self.assertIn('\033[', text)
        self.assertIn('█', text)
        self.assertIn('set-point search', text)
        self.assertEqual(self.terminal(NO_COLOR='1'), self.accepted('plan', 'tables/air-header.words'))


class Examples(Case):
    def test_each_table_prints_its_text(self):
        found = ''
        for name in EXAMPLES:
            done = zhiblator('plan', os.path.join('tables', name))
            found += f'== tables/{name}\n{done.out}{done.err}'
        with open(os.path.join(TOP, 'tables', 'expected.txt'), encoding='utf-8') as file:
            self.assertEqual(found, file.read())

    def test_words_and_bytes_are_the_same_table(self):
        for name in EXAMPLES:
            path = os.path.join(self.folder, name)
            zhiblator('bytes', os.path.join('tables', name), '--table', path)
            with open(path, 'rb') as ours, open(as_bytes(name), 'rb') as theirs:
                self.assertEqual(ours.read(), theirs.read(), name)

    def test_the_lister_prints_the_same(self):
        lister = os.path.join(TOP, 'target', 'bin', 'lister')
        if not os.path.exists(lister):
            self.skipTest('the lister is not built: tools/build')
        for name in EXAMPLES:
            with open(as_bytes(name), 'rb') as table:
                listed = subprocess.run([lister], stdin=table, stdout=subprocess.PIPE).stdout.decode()
            self.assertEqual(zhiblator('plan', os.path.join('tables', name)).out, listed, name)

    def test_the_picture(self):
        with open(os.path.join(TOP, 'docs', 'air-header.svg'), encoding='utf-8') as file:
            self.assertEqual(self.accepted('picture', 'tables/air-header.words'), file.read())

    def test_shebangs_and_run_bits_agree(self):
        for folder in ('', 'tools', '.ci', 'cli/zhiblator', 'cli/zhiblator/commands', 'cli/tests'):
            for entry in os.scandir(os.path.join(TOP, folder)):
                if entry.is_file():
                    with open(entry.path, 'rb') as file:
                        runs = bool(entry.stat().st_mode & stat.S_IXUSR)
                        self.assertEqual(file.read(2) == b'#!', runs, entry.path)

"""Replay: columns, pairing, refusals 12 to 17, and every kind of bad log."""
import os
import shutil

from zhiblator import TOP, calls

from . import E, E_BYTES, Case

BEGIN = 'begin 7 table away 1 away 2 here 3\n'


class Replay(Case):
    def setUp(self):
        super().setUp()
        self.file(E, 'table')

    def log(self, text):
        return self.file(text, 'log.calls')

    def answers(self, text):
        """The answers' column of a log, without the calls."""
        rows = self.accepted('replay', self.log(text)).split('\n\n')[0].splitlines()
        return [row.split('   ')[-1].strip() for row in rows]

    def test_refusals_with_their_words(self):
        text = ('read 1\n' + BEGIN + 'span 2 5 0\nspan 1 5 0\nspan 2 4 0\nspan 2 15 0\nspan 3 40 inf\nspan 3 40 nan\n'
                'return 6 1 41 0\nclose 44\nclose 45\nbegin 7 table away 1 away 2 here 3\nread 9\n')
        found = self.answers(text)
        self.assertEqual([answer for answer in found if 'refused' in answer], [
            'read refused 12 PHASE', 'span refused 15 WHO', 'span refused 14 CLOCK', 'span refused 16 VALUE',
            'span refused 16 VALUE', 'return refused 13 NUMBER', 'close refused 17 EARLY', 'begin refused 13 NUMBER',
            'read refused 15 WHO'])

    def test_the_checks_refusals_at_begin(self):
        self.assertEqual(self.answers('begin 1 hex:10 away 1\nbegin 1 table\nbegin 1 table away 3\n'
                                      'begin 1 table away 9\nbegin 1 table away 2 away 1 here 3\n'),
                         ['begin refused 1 at 0 SHORT', 'begin refused 10 LEFT', 'begin refused 9 KEPT',
                          'begin refused 8 STRANGER', 'begin refused 11 LATE'])

    def test_values_as_decimals(self):
        text = 'frame 9\n' + ''.join(f'here {id} 1\n' for id in range(5))
        self.file(text, 'five')
        values = ['0.1', '-0.0', '1e-45', '0x7f7fffff', '16777216']
        spans = ''.join(f'span {id} 1 {value}\nread {id}\n' for id, value in enumerate(values))
        found = self.answers('begin 1 five here 0 here 1 here 2 here 3 here 4\n' + spans)
        self.assertEqual([answer.split(' = ')[1] for answer in found if ' = ' in answer],
                         ['0.1', '-0.0', '1e-45', '3.4028235e+38', '16777216.0'])

    def test_raw_bytes_are_paired_with_their_answers(self):
        text = BEGIN + 'raw 41 42\nraw 01 05 00\nraw 00000000 45 01 45\nraw 02\nnext\n'
        self.assertEqual(self.accepted('replay', self.log(text)), '\n'.join([
            'begin 7 table away 1 away 2 here 3   begin accepted',
            'next   # line 2                      next 1 away',
            'span 1 5 0.0   # lines 2 to 4        span accepted',
            'read 1   # line 4                    read pending',
            'read 2   # lines 4 to 5              read pending',
            'next                                 next 2 away', '']))

    def test_a_call_that_is_eaten_by_raw_bytes(self):
        found = self.keys(0, 'replay', self.log('raw 45\nnext\nread 1\n'))['calls']
        self.assertEqual([(call['call'], call['lines']) for call in found],
                         [('read 65', [1, 2]), ('read 1', [3])])

    def test_long_calls_do_not_run_into_their_answers(self):
        jobs = range(1, 33)
        self.file('frame 99\n' + ''.join(f'here {id} 1\n' for id in jobs), 'many')
        out = self.accepted('replay', self.log('begin 1 many ' + ' '.join(f'here {id}' for id in jobs) + '\nnext\n'))
        self.assertEqual([line.strip() for line in out.splitlines()][1:],
                         ['begin accepted', 'next' + ' ' * 63 + 'next 1 here'])

    def test_a_log_that_stops(self):
        for text, said in (('next\nraw 99\nnext\n', 'stopped at byte 1, line 2: no record has the kind 99'),
                           ('raw 4201\n', 'stopped at byte 0, line 1: the record is cut'),
                           ('raw 40 07000000 ffff ffff 00', 'stopped at byte 0, line 1: the record is cut'),
                           (b'\x41\x40\x00', 'stopped at byte 1: the record is cut')):
            out, err = self.refused('replay', self.log(text))
            self.assertIn('stopped at ', out)
            self.assertEqual(err, said + '; nothing behind it is called\n')
        keys = self.keys(1, 'replay', self.log('next\nraw 99\n'))
        self.assertEqual((keys['accepted'], keys['stopped']['at'], keys['stopped']['lines']), (False, 1, [2]))

    def test_keys(self):
        keys = self.keys(0, 'replay', self.log(BEGIN + 'next\nspan 1 5 0\nreturn 7 1 9 1.5\nread 1\nread 9\n'))
        found = keys['calls']
        self.assertEqual((keys['accepted'], keys['stopped'], len(found)), (True, None, 6))
        self.assertEqual(found[1]['job'], {'id': 1, 'choice': 'away'})
        self.assertEqual(found[4]['fresh'], {'frame': 7, 'pattern': '3fc00000', 'value': 1.5})
        self.assertEqual((found[5]['refused']['number'], found[5]['refused']['word']), (15, 'WHO'))

    def test_bad_logs_by_line(self):
        for text, said in (
                ('next\nbegn 1', "line 2: 'begn' is no call"),
                ('begin 7 table away', "line 1: the last step, 'away', has no id"),
                ('begin 7 table 1 away', "line 1: '1' is no step of a plan"),
                ('begin 7', 'line 1: begin lacks a word'),
                ('begin 4294967296 table', 'line 1: 4294967296 is above'), ('span 1 2', 'line 1: span takes 3 words'),
                ('next 1', 'line 1: next takes 0 words, and here are 1'),
                ('read -1', "line 1: '-1' is no whole number"),
                ('close 70000', 'line 1: 70000 is above 65,535'), ('span 1 2 x', "line 1: 'x' is no value"),
                ('span 1 2 1e39', 'line 1: 1e39 is beyond'), ('span 1 2 1e999', 'line 1: 1e999 is beyond'),
                ('span 1 2 0x123456789', "line 1: '0x123456789' is no value"), ('raw 4', "line 1: '4' is no hex text"),
                ('raw xx', "line 1: 'xx' is no hex text"), ("begin 7 'table", 'line 1: No closing quotation'),
                ('begin 7 hex:1', "line 1: '1' is no hex text"), ('begin 7 nowhere', 'nowhere: no such file'),
                ('begin 7 log.calls', "line 1: 'begin' is no word of a table"), ('begin 7 .', 'a folder, not a file'),
                ('next\n' * 65537, 'a log of 65,537 bytes; the replay takes 65,536')):
            self.assertIn(said, self.unusable('replay', self.log(text)))

    def test_paths_are_relative_to_the_log(self):
        os.mkdir(os.path.join(self.folder, 'my logs'))
        shutil.move(os.path.join(self.folder, 'table'), os.path.join(self.folder, 'my table'))
        path = self.file("begin 7 '../my table' away 1 away 2 here 3\n", os.path.join('my logs', 'x.calls'))
        self.assertIn('begin accepted', self.accepted('replay', path))

    def test_an_empty_log_and_logs_in_hex_and_bytes(self):
        for content in ('', '# nothing\n'):
            self.assertEqual(self.accepted('replay', self.log(content)), '')
        for content in (b'\x41\x45\x01', '41 45 01'):
            self.assertIn('read 1   read refused 12 PHASE', self.accepted('replay', self.log(content)))


class StoredRuns(Case):
    def test_each_prints_its_text(self):
        for name, code in (('late-answer', 1), ('on-time', 0), ('late-span', 0), ('long-late', 0)):
            with open(os.path.join(TOP, 'logs', name + '.txt'), encoding='utf-8') as file:
                words = 'replay', os.path.join('logs', name + '.calls')
                out = self.refused(*words)[0] if code else self.accepted(*words)
                self.assertEqual(out, file.read(), name)

    def test_the_first_is_the_programs_own(self):
        with open(os.path.join(TOP, 'crates', 'replay', 'stdin'), 'rb') as file:
            log = calls.read(os.path.join(TOP, 'logs', 'late-answer.calls'))
            self.assertEqual(log.data, file.read())
            self.assertIn(E_BYTES, log.data)

"""Every subcommand on good files, and every refusal that it can meet."""
import os
import re
import xml.etree.ElementTree

from zhiblator import TOP, first_line, library, main, refusals

from . import E, E_BYTES, E_LISTED, E_PLAN, Case, zhiblator

E_TURNED = 'frame 45\nhere 3 25\neither 1 30 5 40\neither 2 20 10 10\n'
LONG = 'frame 100\nhere 1 4000\nhere 2 1\n'


class Plan(Case):
    def test_the_listers_lines(self):
        self.assertEqual(self.accepted('plan', self.file(E)), E_LISTED)

    def test_given_order(self):
        table = self.file(E_TURNED.replace('45', '80'))
        self.assertEqual(self.accepted('plan', '--given', table),
                         'frame 80 jobs 3\n3 here 0 25 25\n1 away 25 30 70\n2 away 30 40 50\nbusy 40 last 70\n')

    def test_names_on_request(self):
        table = self.file('frame 9\nhere 1 2 valve survey\nhere 2 3\n')
        self.assertEqual(self.accepted('plan', '--names', table),
                         'frame 9 jobs 2\n1 here 0 2 2 valve survey\n2 here 2 5 5\nbusy 5 last 5\n')

    def test_keys(self):
        keys = self.keys(0, 'plan', self.file('frame 9\neither 1 8 2 3 survey\n'))
        job = {'id': 1, 'choice': 'away', 'start': 0, 'span_end': 2, 'finish': 5, 'name': 'survey'}
        self.assertEqual(keys, {'accepted': True, 'order': 'free', 'deadline': 9, 'jobs': [job], 'busy': 2, 'last': 5})
        self.assertEqual(self.keys(0, 'plan', '--given', self.file('frame 1'))['order'], 'given')

    def test_none_tells_the_least_deadline(self):
        for words, text, hint in (
                ([], E.replace('45', '44'), 'the least deadline that these jobs meet is 45'),
                (['--given'], E_TURNED, 'the jobs were kept in table order; '
                 'in free order the least deadline that they meet is 45'),
                ([], LONG, 'these jobs meet no deadline up to 4,000')):
            out, err = self.refused('plan', *words, self.file(text))
            self.assertEqual((out, err), ('refused 7\n', f'NONE: no timetable meets the deadline; {hint}\n'))

    def test_keys_of_a_refusal(self):
        keys = self.keys(1, 'plan', self.file(E.replace('45', '44')))
        none = {'number': 7, 'word': 'NONE', 'sentence': 'no timetable meets the deadline',
                'place': None, 'line': None}
        self.assertEqual(keys, {'accepted': False, 'file': 'table', 'refused': none, 'least': 45})
        keys = self.keys(1, 'plan', self.file(E + 'here 3 1'))
        self.assertEqual([keys['refused'][key] for key in ('number', 'place', 'line')], [5, 23, 5])
        self.assertIsNone(keys['least'])
        self.assertEqual(self.keys(1, 'plan', self.file(E_BYTES[:-1]))['refused']['line'], None)

    def test_refusals_of_bytes(self):
        for data, line in ((E_BYTES[:17], 'refused 1 at 11'), (E_BYTES[:-1], 'refused 1 at 23'),
                           (E_BYTES + b'x', 'refused 6 at 24'), (E_BYTES[:3] + b'\x13', 'refused 2 at 3')):
            out, err = self.refused('plan', self.file(data))
            self.assertEqual(out, line + '\n')
            self.assertTrue(err.endswith('; byte ' + line.split()[-1] + '\n'), err)


class Least(Case):
    def test_least(self):
        self.assertEqual(self.accepted('least', self.file(E.replace('45', '1'))), 'least 45\n')
        self.assertEqual(self.keys(0, 'least', self.file(E)), {'accepted': True, 'least': 45})

    def test_refused(self):
        self.assertEqual(self.refused('least', self.file(LONG))[0], 'refused 7\n')
        self.assertEqual(self.refused('least', self.file(E_BYTES[:4]))[0], 'refused 1 at 3\n')
        self.assertEqual(self.keys(1, 'least', self.file(b''))['refused']['word'], 'SHORT')


class Check(Case):
    def check(self, plan, table=E):
        return 'check', self.file(table, 'table'), self.file(plan, 'plan')

    def test_a_plan_in_words_hex_and_bytes(self):
        for plan in (E_PLAN, E_PLAN.hex(), 'away 1 valve\naway 2\n\nhere 3 # stays', ' away 1\naway 2\nhere 3'):
            self.assertEqual(self.accepted(*self.check(plan)), 'passes busy 40 last 45\n', plan)
        self.assertEqual(self.keys(0, *self.check(E_PLAN)), {'accepted': True, 'busy': 40, 'last': 45})

    def test_a_plan_of_no_steps(self):
        for plan in ('# nothing', '2F', b'\x2f'):
            self.assertEqual(self.accepted(*self.check(plan, 'frame 1')), 'passes busy 0 last 0\n')

    def test_a_plan_in_bytes_that_looks_like_text(self):
        table = 'frame 9\nhere 35 1\nhere 65 1\n'
        for plan in (b' # A/', b' A #/'):
            self.assertEqual(self.accepted(*self.check(plan, table)), 'passes busy 2 last 2\n')

    def test_refusals_of_the_plan(self):
        for plan, line, word in (
                ('', 'plan refused 1 at 0', 'SHORT'), ('2101', 'plan refused 1 at 2', 'SHORT'),
                (b'\x99', 'plan refused 2 at 0', 'KIND'), ('away 1\naway 1', 'plan refused 5 at 2', 'TWICE'),
                (E_PLAN + b'/', 'plan refused 6 at 7', 'AFTER'), ('away 9', 'plan refused 8', 'STRANGER'),
                ('away 3', 'plan refused 9', 'KEPT'), ('away 1\nhere 3', 'plan refused 10', 'LEFT'),
                ('away 2\naway 1\nhere 3', 'plan refused 11', 'LATE'),
                (''.join(f'here {id}\n' for id in range(33)), 'plan refused 4 at 64', 'MANY')):
            out, err = self.refused(*self.check(plan))
            self.assertEqual((out, err.split(':')[0]), (line + '\n', word), plan)

    def test_the_place_by_line(self):
        self.assertIn('byte 2, line 3: away 1 again', self.refused(*self.check('away 1\n\naway 1 again'))[1])

    def test_the_table_is_refused_first(self):
        out, err = self.refused(*self.check('', E + 'here 3 5'))
        self.assertEqual(out, 'table refused 5 at 23\n')
        self.assertIn('line 5: here 3 5', err)
        self.assertEqual(self.keys(1, *self.check('', E_BYTES[:-1]))['file'], 'table')
        self.assertEqual(self.keys(1, *self.check('', E_BYTES))['file'], 'plan')

    def test_a_table_that_meets_no_deadline_is_not_the_refused_one(self):
        self.assertEqual(self.refused(*self.check('here 1\nhere 2', LONG))[0], 'plan refused 11\n')

    def test_words_that_are_no_plan(self):
        for plan, said in (('awy 1', "line 1: 'awy' is no word of a plan"), ('away', "line 1: 'away' lacks a number"),
                           ('away 1\nhere 300', 'line 2: 300 is above 255')):
            self.assertIn(said, self.unusable(*self.check(plan)))


class Bytes(Case):
    def test_table_and_plan(self):
        out = self.accepted('bytes', self.file(E))
        self.assertIn('table 24 bytes\n10 2D 00 12 01 1E', out)
        self.assertIn('plan 7 bytes\n21 01 21 02 20 03 2F\nsha256 205537dd2af2aeff', out)

    def test_a_plan_of_ones_own(self):
        table = self.file('frame 99\neither 1 2 3 4', 'table')
        keys = self.keys(0, 'bytes', table, self.file('away 1', 'plan'))
        self.assertEqual((keys['plan']['hex'], keys['plan']['bytes'], keys['table']['bytes']), ('21012F', 3, 12))
        self.assertEqual(len(keys['plan']['sha256']), 64)

    def test_written_as_bytes(self):
        table, plan = (os.path.join(self.folder, name) for name in ('t', 'p'))
        self.accepted('bytes', self.file(E), '--table', table, '--plan', plan)
        with open(table, 'rb') as t, open(plan, 'rb') as p:
            self.assertEqual((t.read(), p.read()), (E_BYTES, E_PLAN))

    def test_refused(self):
        out, _ = self.refused('bytes', self.file(E.replace('45', '44')))
        self.assertRegex(out, r'\Atable 24 bytes\n10 2C .*\nsha256 \w{64}\ntable refused 7\n\Z')
        out, _ = self.refused('bytes', self.file(E), self.file('away 3', 'plan'))
        self.assertEqual(out.split('\n')[-2], 'plan refused 9')
        keys = self.keys(1, 'bytes', self.file(b'\x10'))
        self.assertEqual((keys['table']['hex'], keys['refused']['number'], keys['file']), ('10', 1, 'table'))


class Picture(Case):
    def test_it_is_xml_with_whole_names(self):
        names = ['a name so long that the left margin has to grow <&>', '"Überdruck"']
        text = 'frame 90 <my & plant>\n' + ''.join(f'here {id} 1 {name}\n' for id, name in enumerate(names))
        svg = xml.etree.ElementTree.fromstring(self.accepted('picture', self.file(text)))
        said = [part.text for part in svg.iter() if part.text]
        self.assertIn('0  ' + names[0], said)
        self.assertIn('1  ' + names[1], said)
        self.assertIn('<my & plant>: the plan, ticks of 1 ms', said)

    def test_to_a_file_and_of_no_jobs(self):
        out = os.path.join(self.folder, 'plan.svg')
        self.assertEqual(self.accepted('picture', self.file('frame 1'), '--given', '-o', out), '')
        xml.etree.ElementTree.parse(out)

    def test_refused(self):
        self.assertEqual(self.refused('picture', self.file(E.replace('45', '44')))[0], 'refused 7\n')


class Version(Case):
    def test_version(self):
        out = self.accepted('version')
        self.assertEqual(out, self.accepted('--version'))
        self.assertEqual(out.splitlines()[:2],
                         [f'zhiblator {first_line("VERSION")}', f'proved with {first_line("kit-version")}'])

    def test_the_version_is_the_same_everywhere(self):
        version = first_line('VERSION')
        with open(os.path.join(TOP, 'include', 'zhiblator.h'), encoding='utf-8') as header:
            self.assertIn(f'#define ZB_VERSION "{version}"', header.read())
        with open(os.path.join(TOP, 'CHANGELOG.md'), encoding='utf-8') as changes:
            self.assertEqual(re.search(r'^## (\S+)', changes.read(), re.M)[1], version)


class Help(Case):
    def test_every_subcommand_has_help_with_an_example_that_runs(self):
        self.assertIn('exit codes', self.accepted('--help'))
        for module in main.COMMANDS:
            said = self.accepted(module.NAME, '--help')
            self.assertIn('exit codes', said)
            examples = re.findall(r'^  \./zhiblator (.*)$', said, re.M)
            self.assertTrue(examples or '| ./zhiblator' in said, module.NAME)
            for example in examples:
                self.assertIn(zhiblator(*example.split()).code, (0, 1), example)


class Refusals(Case):
    def test_the_header_has_the_same_sentences(self):
        with open(os.path.join(TOP, 'include', 'zhiblator.h'), encoding='utf-8') as file:
            found = re.findall(r'ZB_([A-Z]+)(?: = 1)?,? +/\* (.*?) \*/', file.read())
        self.assertEqual(found, [refusals.REFUSALS[number] for number in sorted(refusals.REFUSALS)])

    def test_the_c_example_has_the_same_words(self):
        with open(os.path.join(TOP, 'examples', 'c', 'plan.c'), encoding='utf-8') as file:
            found = re.findall(r'"([A-Z]+)"', file.read())
        self.assertEqual(found, [word for word, _ in refusals.REFUSALS.values()])

    def test_room(self):
        proved = library.load()
        for given in (False, True):
            self.assertEqual(proved.plan(E_BYTES, given, room=64), refusals.Refusal(18))
            self.assertEqual(proved.plan(b'', given, room=0).word, 'ROOM')

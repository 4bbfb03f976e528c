"""Tables in words, hex and bytes: how each is taken, and what is refused by line."""
from zhiblator import records
from zhiblator.troubles import Trouble

from . import E, E_BYTES, E_LISTED, Case, started


class Taken(Case):
    def test_words_hex_and_bytes_are_the_same_table(self):
        spaced = ' '.join(f'{byte:02x}' for byte in E_BYTES)
        for content in (E, E_BYTES, E_BYTES.hex(), E_BYTES.hex().upper() + '\n', spaced, '1 0\n' + E_BYTES.hex()[2:]):
            self.assertEqual(records.read_table(self.file(content)).data, E_BYTES, content)

    def test_blank_lines_remarks_and_other_line_ends(self):
        remarked = '\n# a remark\n' + E.replace('\n', ' # and another\n\n')
        for text in (remarked, E.replace('\n', '\r\n'), '\ufeff' + E, E.rstrip(), E.replace(' ', '\t'), '  ' + E):
            self.assertEqual(records.read_table(self.file(text)).data, E_BYTES, text)

    def test_names_are_kept_whole(self):
        names = {1: 'valve  "survey" <&>', 2: 'Überdruck 圧力', 3: "pump#3 isn't #", 4: 'x' * 55}
        text = 'frame 9 the plant\n' + ''.join(f'here {id} 1 {name}\n' for id, name in names.items())
        found = records.read_table(self.file(text)).names
        self.assertEqual(found, {None: 'the plant', 1: 'valve "survey" <&>', 2: 'Überdruck 圧力', 3: "pump#3 isn't",
                                 4: 'x' * 55})

    def test_a_name_that_is_no_utf8_or_unprintable_harms_nothing(self):
        for name in (b'\xdcberdruck', b'bell \x07', b'\x1b[31mred'):
            table = records.read_table(self.file(b'frame 9\nhere 1 1 ' + name))
            self.assertEqual(table.data.hex(), '100900' '11010100' '1f')
            self.assertTrue(table.names[1].isprintable())

    def test_standard_input(self):
        self.assertEqual(started('plan', '-', input=E.encode()), (0, E_LISTED, ''))
        self.assertEqual(started('check', '-', '-', input=E.encode())[0], 2)

    def test_bytes_are_left_to_the_library(self):
        for content, line in ((b'', 'refused 1 at 0'), (b' \n', 'refused 1 at 0'), (b'\xff\xfe', 'refused 2 at 0'),
                              (b'\x10', 'refused 1 at 0'), (b'\x10here 1', 'refused 3 at 0'),
                              (b'\0' * 9999, 'refused 2 at 0')):
            self.assertEqual(self.refused('plan', self.file(content))[0], line + '\n', content)


class RefusedByLine(Case):
    def trouble(self, text):
        with self.assertRaises(Trouble) as caught:
            records.read_table(self.file(text, 'mine'))
        return str(caught.exception).split('mine', 1)[1]

    def test_what_no_record_can_hold(self):
        for text, said in (
                ('frame 45\nheer 1 40', ", line 2: 'heer' is no word of a table (those are frame, here, either)"),
                ('hello world', ", line 1: 'hello' is no word of a table (those are frame, here, either)"),
                ('<html>', ", line 1: '<html>' is no word of a table (those are frame, here, either)"),
                ('frame', ", line 1: 'frame' lacks a number; the line is frame DEADLINE [name]"),
                ('frame 45\n\nhere 1', ", line 3: 'here 1' lacks a number; the line is here ID TIME [name]"),
                ('frame 1\neither 1 2 3', ", line 2: 'either 1 2 3' lacks a number; "
                 'the line is either ID TIME SETUP RETURN [name]'),
                ('frame x', ", line 1: 'x' is no whole number from 0 to 65,535; the line is frame DEADLINE [name]"),
                ('frame 65536', ', line 1: 65536 is above 65,535, the largest deadline that its bytes hold; '
                 'the line is frame DEADLINE [name]'),
                ('frame 9\nhere 256 1', ', line 2: 256 is above 255, the largest id that its bytes hold; '
                 'the line is here ID TIME [name]'),
                ('frame 9\nhere 1 70000', ', line 2: 70000 is above 65,535, the largest time that its bytes hold; '
                 'the line is here ID TIME [name]'),
                ('102', ': hex text with an odd number of digits')):
            self.assertEqual(self.trouble(text), said)

    def test_what_is_no_number(self):
        for word in ('-1', '1.5', '+5', '500ms', '0x10', '٣', '1_0', '4,000'):
            self.assertIn(f'{word!r} is no whole number from 0 to 65,535', self.trouble(f'frame {word}'))

    def test_an_endless_number_or_word_is_cut(self):
        for text in ('frame ' + '9' * 9999, 'frame ' + 'x' * 9999, 'x' * 9999):
            self.assertLess(len(self.trouble(text)), 200)

    def test_rules_are_the_librarys_and_told_by_line(self):
        many = 'frame 4000\n' + ''.join(f'here {id} 1\n' for id in range(33))
        for text, line, said in (
                ('frame 0', 'refused 3 at 0', 'RANGE: a time above 4,000, or D = 0; byte 0, line 1: frame 0'),
                ('#\nframe 4001', 'refused 3 at 0', 'RANGE: a time above 4,000, or D = 0; byte 0, line 2: frame 4001'),
                ('frame 9\nhere 1 65535 x # y', 'refused 3 at 3',
                 'RANGE: a time above 4,000, or D = 0; byte 3, line 2: here 1 65535 x'),
                ('frame 9\n\nhere 1 5\nhere 1 6', 'refused 5 at 7',
                 'TWICE: id used before in the same file; byte 7, line 4: here 1 6'),
                ('here 1 5', 'refused 2 at 0',
                 'KIND: kind unknown or not allowed at this place; byte 0, line 1: here 1 5'),
                ('frame 9\nframe 9', 'refused 2 at 3',
                 'KIND: kind unknown or not allowed at this place; byte 3, line 2: frame 9'),
                ('# nothing', 'refused 2 at 0', 'KIND: kind unknown or not allowed at this place; byte 0, its end'),
                (many, 'refused 4 at 131', 'MANY: a 33rd job; byte 131, line 34: here 32 1')):
            self.assertEqual(self.refused('plan', self.file(text)), (line + '\n', said + '\n'), text)

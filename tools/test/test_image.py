import unittest

from tool import example, load, ran

image = load('image')
from formats import Refusal, Told, read_image

BASE = open(example('first/base.image')).read()
LEVELS = '''regions 2
levels 2 3
core 0 page 0x10 area 0x20000
core 1 page 0x12 area 0x40000 level 3
guest 0x40..0x41 valid 3
'''


class Written(unittest.TestCase):
    def test_the_shortest_form_is_the_first_image(self):
        self.assertEqual(image.written('regions 2\ncore 0 page 0x10 area 0x20000\ncore 1 parked\n'), BASE)

    def test_two_levels_make_the_second_format(self):
        text = image.written(LEVELS)
        self.assertTrue(text.startswith('svsm-image 2\nregions 0x2\nvmpl 0x2 0x3\n'))
        self.assertIn('range 0x40 0x2 guest valid 0xf00\n', text)
        self.assertIn('core 0x1 vmsa 0x12000 caa 0x40000 vmpl 0x3\n', text)

    def test_lists_and_words_are_bytes(self):
        text = image.written('core 0 page 0x10 area 0x20000\nlist 0x21ff8 validate 0x30..0x31 2M:0x200\nvmsa 0x32 level 2\n')
        self.assertIn('bytes 0x21ff8 0300000000000000' + '0400030000000000' + '0410030000000000' + '0500200000000000\n', text)
        self.assertIn('bytes 0x320c8 0000020000000000\nbytes 0x320d0 0010000000000000\nbytes 0x323b0 0100000000000000\n', text)

    def test_pool_and_announcements(self):
        text = image.written('regions 2\ncore 0 page 0x10 area 0x20000\ndeposit 0x200..0x3ff\nlarge 1\npool split\nannounce\nblock 0x200 2M\nhost ap 0 5')
        self.assertTrue(text.endswith('large 0x1\npool split\nannounce\nblock 0x200 0x1\nhost ap 0x0 0x5\n'))

    def test_what_is_wrong_is_told_with_the_line_of_the_form(self):
        core = 'core 0 page 0x10 area 0x20000\n'
        for form, told in [
            (core + 'guest 0x10 shared', 'line 2: page 0x10 is named in line 1 already'),
            (core + 'core 0 parked', 'line 2: the APIC id 0x0 stood in an earlier core line'),
            (core + 'words 0x20001 1', 'line 2: the address 0x20001 is no multiple of 8'),
            (core + 'core 1 parked level 3', "line 2: the level 3 is none of the statement 'levels'"),
            (core + 'fault 3 1', 'line 2: the region is 0x3, and has to be 0x0 to 0x0'),
            (core + 'regions 2', "line 2: 'regions' stands before the statements on pages and cores"),
            (core + 'large 0', "the pages of region 0x0 differ in owner, state or rights"),
            ('core 0 parked\nlist 0x21ff8 validate 0x0..0x3ff', 'line 2: 1024 entries: at this address a list has room for 512'),
            ('regions 513', 'regions are 1 to 512'), ('cores 2', "line 1: 'cores' is no statement"), ('regions x', "line 1: a number is 'x'"),
        ]:
            with self.assertRaises(Told) as refused:
                image.written(form)
            self.assertTrue(str(refused.exception).startswith(told), refused.exception)


class Read(unittest.TestCase):
    def test_one_bad_file_of_each_kind(self):
        for old, new, line, kind in [
            ('regions', 'region', 2, 'missing'), ('svsm-image 1', 'svsm-image 3', 1, 'missing'), ('vmpl 0x2', 'vmpl 0x2 0x3', 3, 'line'),
            ('core 0x1 parked', 'core 0x1 park', 13, 'line'), ('0x1ef', '1ef', 10, 'number'), ('vmpl 0x2', 'vmpl 0x4', 3, 'range'),
            ('regions 0x2', 'regions 0x201', 2, 'range'), ('0x11 0x1ef', '0x10 0x1f0', 10, 'overlap'), ('assigned 0x0\ncore', 'assigned 0xf0\ncore', 11, 'state'),
            ('core 0x1 parked', 'core 0x1 parked\nlarge 0x0', 0, 'large'), ('ghcb 0x5', 'ghcb 0x6', 0, 'ghcb'),
            ('core 0x1 parked', 'core 0x1 parked\naccept 0x200 0x1', 0, 'accept'), ('0x10000', '0x11000', 0, 'core'),
            ('core 0x1 parked', 'core 0x1 parked\nblock 0x200 0x0', 0, 'block'), ('svsm-image 1', 'svsm-image 2', 3, 'line'),
        ]:
            with self.assertRaises(Refusal) as refused:
                read_image(BASE.replace(old, new, 1))
            self.assertEqual((refused.exception.line, refused.exception.kind), (line, kind), new)

    def test_comments_and_empty_lines_count(self):
        with self.assertRaises(Refusal) as refused:
            read_image('# one\n\n' + BASE.replace('vmpl 0x2', 'vmpl 0x0'))
        self.assertEqual(refused.exception.line, 5)


class Explained(unittest.TestCase):
    def explain(self, told, text, *scripts):
        return image.explained(told, text, list(scripts))

    def test_the_line_its_number_and_the_cause(self):
        text = BASE.replace('regions 0x2', 'regions 0x201')
        told = self.explain('svsm_run: image line 0x2 range\n', text)
        self.assertIn('line 2: regions 0x201', told)
        self.assertIn('the number of regions is 0x201 (513), and has to be 0x1 to 0x200', told)

    def test_another_file_is_noticed(self):
        self.assertIn('is it the one that was run?', self.explain('svsm_run: image line 0x2 range', BASE))
        record = b'\4' + bytes(7) + b'\x08' + bytes(15) + b'\2' + bytes(23)
        self.assertIn('its VMPL is 2, which is right: is it the script that was run?', self.explain('svsm_run: script 0x0 at 0x0 vmpl', BASE, record))

    def test_scripts_boots_and_the_rest(self):
        self.assertIn('its address is 0x9, which is 0x1 past a multiple of 8', self.explain(
            'svsm_run: script 0x0 at 0x0 align', BASE, b'\4' + bytes(7) + b'\x09' + bytes(39)))
        self.assertIn('the request is Features', self.explain('svsm_run: boot msr 0x80 0x0', BASE))
        self.assertIn('the script of core 1', self.explain('svsm_run: read 0x2', BASE))
        self.assertIn('page 0x30 (48) is recorded and not valid', self.explain('svsm_run: save page 0x30', BASE))
        self.assertIn('memory ran out', self.explain('noise\nsvsm_run: memory\n', BASE))

    def test_what_is_no_line_of_the_program(self):
        status, _, err = ran('image', 'explain', example('first/base.image'), given='hello')
        self.assertEqual((status, 'Traceback' in err), (1, False))
        self.assertEqual(ran('image', 'check', '/no/such/file')[::2], (1, 'image: /no/such/file: No such file or directory\n'))
        self.assertEqual(ran('image', 'check', example('first/base.image'))[:2], (0, 'good: 2 regions, 2 cores\n'))


if __name__ == '__main__':
    unittest.main()

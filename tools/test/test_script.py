import struct, unittest

from tool import example, load, ran

script = load('script')
from formats import Told


class Lines(unittest.TestCase):
    def test_examples_are_what_their_lines_make(self):
        for name in ('life_of_a_page', 'new_processor', 'new_processor_1', 'stolen_page', 'stopped_and_resumed'):
            with open(example(name + '.lines')) as lines, open(example(name + '.script'), 'rb') as made:
                self.assertEqual(script.written(lines.read()), made.read(), name)

    def test_each_request_comes_back(self):
        lines = ['write 0x21000 0x1', 'read 0x21000 vmpl=3', 'adjust 0x30000 target=3 mask=0x5', 'share 0x30000', 'assign 0x30000',
                 'call pvalidate rcx=0x21000 r9=0x7 poll=2', 'exit 0x100000000', 'call query']
        self.assertEqual(script.lines_of(script.written('\n'.join(lines))), lines)

    def test_a_record_is_six_words(self):
        self.assertEqual(struct.unpack('<6Q', script.written('call deposit rcx=0x21000 poll=3  # stopped')), (2 | 3 << 32, 4, 0x21000, 0, 0, 0))
        self.assertEqual(struct.unpack('<6Q', script.written('adjust 4096 target=1 mask=15 vmpl=2')), (5, 4096, 1, 2, 15, 0))


class Refused(unittest.TestCase):
    def test_the_line_and_the_cause_are_told(self):
        for lines, told in [
            ('\nwrite 1 2', 'line 2: the address 1 of write is no multiple of 8'),
            ('share 8', 'line 1: the address 8 of share is no multiple of 4096'),
            ('call query rcx=1 rcx=2', "line 1: 'rcx' stands twice"),
            ('share 0x1000 vmpl=2', "line 1: 'vmpl' is no field of share, which has none"),
            ('adjust 0x1000 mask=1', 'line 1: adjust needs target='),
            ('read 8 vmpl=4', 'line 1: vmpl is 4, and has to be 1 to 3'),
            ('write 8 0x10000000000000000', 'line 1: WORD is 0x10000000000000000, and has to be 0 to 0xffffffffffffffff'),
            ('write 8 1_0', "line 1: WORD is '1_0', which is no number: write decimal digits, or 0x and hexadecimal ones"),
            ('call quer', "line 1: 'quer' is no call: remap, pvalidate, create, delete, deposit, withdraw, query, or the number of RAX"),
            ('read 8\n' * 129, 'line 129: this is request 129, and a script has at most 128'),
        ]:
            with self.assertRaises(Told) as refused:
                script.written(lines)
            self.assertEqual(str(refused.exception), told)

    def test_nothing_is_told_in_the_words_of_python(self):
        for words, given in [(('read',), b'\xff' * 50), (('read',), bytes(48)), (('write',), b'\xff\xfe'), (('other',), b'')]:
            status, _, told = ran('script', *words, given=given)
            self.assertEqual(status, 1)
            self.assertNotIn('Traceback', told)

    def test_the_line_goes_to_standard_error(self):
        self.assertEqual(ran('script', 'write', given='write 8')[::2], (1, 'script: line 1: write needs ADDRESS WORD\n'))

    def test_help_goes_to_standard_output(self):
        status, out, err = ran('script', '--help')
        self.assertEqual((status, err), (0, ''))
        self.assertIn('usage: script', out)


if __name__ == '__main__':
    unittest.main()

import os, tempfile, unittest

from tool import example, load, ran

report = load('report')
from formats import Report, Told

BASE = example('first/base.image')


def written(text):
    with tempfile.NamedTemporaryFile('w', delete=False, suffix='.report') as file:
        file.write(text)
    return file.name


class Shown(unittest.TestCase):
    def test_operands_and_answers_have_names(self):
        words = [report.in_words(line)[2] for line in ('0x1 0x0 0x2 pop 0x0 -> block 0x200 0x1ff', '0x2 0x0 0x1 release 0x2 0x200 0x1 -> fault 0x3',
                                                       '0x3 0x0 0x3 retire 0x10 -> running', '0x4 0x0 0x0 load 0x2 0x21000 -> word 0x1')]
        self.assertEqual(words, ['pool: pop 4K: page 0x200, blocks left 0x1ff', 'give back 0x200 2M: fault; micro-operations before it 0x3',
                                 'row: retire VMSA page 0x10: running', 'load word 0x21000: word 0x1'])

    def test_steps_stand_in_the_column_of_their_core(self):
        status, out, _ = ran('report', 'steps', example('new_processor.report'))
        lines = out.split('\n')
        self.assertEqual((status, lines[0].split()), (0, ['ticket', 'core', '0x0', 'core', '0x1']))
        self.assertEqual(lines[2], '0x1      guest writes 0x300c8 0x20000')
        self.assertTrue(lines[16].startswith('0xf       ') and lines[16].endswith('enter guest APIC id 0x1: VMSA page 0x30, calling area 0x31000'))

    def test_outcomes_have_the_names_of_codes(self):
        status, out, _ = ran('report', 'outcomes', example('new_processor.report'), example('new_processor.script'))
        self.assertIn('core 0x0 0x5      call delete rcx=0x10000 -> busy (0x80000007), rcx=0x10000', out)
        self.assertIn('core 0x0 0x4      write 0x300c8 0x0 -> denied', out)

    def test_pages_are_those_that_changed_since_the_boot(self):
        status, out, _ = ran('report', 'pages', example('new_processor.report'), BASE)
        self.assertEqual(out.split('\n')[0].split(), ['0x10', '1', 'vmsa->guest', 'recorded', 'valid', '0x0->0xf0', 'vmsa->plain', 'small'])
        self.assertEqual(len(out.strip().split('\n')), 2)

    def test_a_run_without_changes(self):
        self.assertEqual(ran('report', 'pages', example('first/query.report'), BASE)[:2], (0, 'no page changed\n'))


class Compared(unittest.TestCase):
    def test_tickets_do_not_count(self):
        with open(example('new_processor.report')) as file:
            text = file.read()
        later = written(text.replace('step 0x17 ', 'step 0x27 '))
        self.assertEqual(list(report.differences(Report(later), Report(example('new_processor.report')))), [])
        os.remove(later)

    def test_what_differs_is_told(self):
        with open(example('first/query.report')) as file:
            text = file.read()
        other = written(text.replace('word 0x1', 'word 0x0').replace('rmp 0x200 0x200 guest', 'rmp 0x200 0x200 module'))
        status, out, _ = ran('report', 'diff', example('first/query.report'), other)
        self.assertEqual((status, len(out.strip().split('\n'))), (1, 2))
        self.assertIn('core 0x0 step 2: 0x0 take 0x2 0x20000 -> word 0x1  |  0x0 take 0x2 0x20000 -> word 0x0', out)
        self.assertEqual(ran('report', 'diff', other, other)[0], 0)
        os.remove(other)


class Page(unittest.TestCase):
    def test_the_page_is_whole_and_needs_no_network(self):
        status, out, _ = ran('report', 'page', example('new_processor.report'), BASE)
        self.assertEqual(status, 0)
        self.assertTrue(out.startswith('<!doctype html>') and out.rstrip().endswith('</html>'))
        self.assertIn('0x0 0x0 0x3 enter 0x0 -> seen 0x10 0x20000', out)
        for word in ('http', 'src=', '@@', 'import('):
            self.assertNotIn(word, out)

    def test_pages_are_told_as_runs(self):
        _, data = report.page_data(example('first/query.report'), BASE, ())
        self.assertEqual(data['after'], data['before'])
        self.assertEqual(data['after']['runs'][0], [0, 5, 0])
        self.assertEqual(data['regions'], 2)


class Refused(unittest.TestCase):
    def test_errors_are_one_line(self):
        cut = written('svsm-run 1\ncore 0x0 done\n')
        odd = written('svsm-run 1\nhello\nend\n')
        short = written('svsm-run 1\nhistory 0x2\nstep 0x0 0x0 0x3 enter 0x0 -> unknown\nend\n')
        brief = written('svsm-run 1\ncore 0x0 done\nrmp 0x0 0x200 guest unrecorded shared 0x0 plain small\nend\n')
        for words in (['steps', cut], ['steps', odd], ['pages', short], ['steps', brief], ['pages', example('first/query.report'), cut],
                      ['steps', '/no/such'], ['steps'], ['show', cut], ['outcomes', brief, BASE]):
            status, _, err = ran('report', *words)
            self.assertEqual((status, err.count('\n')), (1, 1) if words[0] != 'outcomes' else (1, 1), words)
            self.assertNotIn('Traceback', err)
        for path in (cut, odd, short, brief):
            os.remove(path)


if __name__ == '__main__':
    unittest.main()

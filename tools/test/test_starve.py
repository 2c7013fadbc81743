import os, shutil, subprocess, tempfile, unittest

from tool import load, ran

starve = load('starve')

# Takes three blocks; gives up, goes on, or tells half of its answer where one is refused.
PROGRAM = r'''
#include <stdlib.h>
#include <unistd.h>
int main(int count, char **words) {
    for (int n = 0; n < 3; n++) {
        void *volatile block = malloc(100);
        if (block) continue;
        if (words[1][0] == 'c') return 3;
        if (words[1][0] == 'h') { (void)!write(1, "ans", 3); return 3; }
        if (words[1][0] == 'a') abort();
    }
    (void)!write(1, "answer\n", 7);
    return 1;
}
'''


class Judges(unittest.TestCase):
    def test_a_run_gives_up_or_is_right(self):
        right = (1, b'answer')
        self.assertEqual([starve.fault_of(got, right) for got in (right, (3, b''))], ['', ''])
        self.assertEqual(starve.fault_of((3, b'ans'), right), 'status 3, and 3 bytes of output')
        self.assertEqual(starve.fault_of((0, b'answer'), right), 'status 0, and 6 bytes of output; 1 and 6 are right')
        self.assertEqual(starve.fault_of((-11, b''), right), 'it was ended by signal 11')
        self.assertEqual(starve.fault_of((None, b''), right), 'it did not end in 60 seconds')


class Words(unittest.TestCase):
    def test_words_stand_behind_dashes(self):
        self.assertNotEqual(ran('starve', 'run', 'image')[0], 0)
        self.assertNotEqual(ran('starve', '--every', '0', '--', 'run')[0], 0)

    def test_a_program_is_wanted(self):
        status, _, err = ran('starve', '--program', '/nowhere/svsm_run', '--', 'run')
        self.assertNotEqual(status, 0)
        self.assertIn('there is no program /nowhere/svsm_run', err)


@unittest.skipUnless(shutil.which('cc'), 'there is no C compiler')
class Runs(unittest.TestCase):
    def setUp(self):
        folder = tempfile.TemporaryDirectory()
        self.addCleanup(folder.cleanup)
        self.program = os.path.join(folder.name, 'program')
        subprocess.run(['cc', '-x', 'c', '-o', self.program, '-'], input=PROGRAM, text=True, check=True)

    def starved(self, word, *options):
        return ran('starve', *options, '--program', self.program, '--', word)[:2]

    def test_each_allocation_is_refused(self):
        self.assertEqual(self.starved('careful'), (0, '3 runs gave up with status 3, 0 gave the whole answer, 0 did neither\n'))
        self.assertEqual(self.starved('bold'), (0, '0 runs gave up with status 3, 3 gave the whole answer, 0 did neither\n'))
        self.assertEqual(self.starved('careful', '--every', '2')[1][:7], '2 runs ')
        self.assertEqual(self.starved('careful', '--most', '1')[1][:7], '1 runs ')

    def test_half_an_answer_and_a_signal_are_told(self):
        status, told = self.starved('half')
        self.assertEqual((status, told.split('\n')[0]), (1, 'allocation 0: status 3, and 3 bytes of output'))
        self.assertIn('allocation 2: it was ended by signal 6', self.starved('abort')[1])


if __name__ == '__main__':
    unittest.main()

import os, tempfile, unittest

from tool import load, ran

doubt = load('doubt')

# Prints a text for a run; its audit says yes of each text that begins as WORD does.
PROGRAM = '''#!/bin/sh
if [ "$1" = run ]; then echo "true report"; exit 0; fi
if grep -q "^WORD" "$3"; then echo "svsm_audit: yes"; exit 0; fi
echo "svsm_audit: no text 0x0"; exit 1
'''


class Changes(unittest.TestCase):
    def test_one_byte_is_another(self):
        report = bytes(range(32, 92))
        places = [at for at, _ in doubt.changed(report, 20)]
        self.assertEqual(places, list(range(0, 60, 3)))
        for at, text in doubt.changed(report, 20):
            self.assertEqual([k for k in range(60) if text[k] != report[k]], [at])

    def test_no_more_places_than_bytes(self):
        self.assertEqual(len(list(doubt.changed(b'four', 9))), 4)


class Judges(unittest.TestCase):
    def judged(self, word):
        with tempfile.TemporaryDirectory() as folder:
            program = os.path.join(folder, 'program')
            with open(program, 'w') as file:
                file.write(PROGRAM.replace('WORD', word))
            os.chmod(program, 0o700)
            return ran('doubt', '--runs', '2', '--places', '4', '--program', program, 'image', 'script')

    def test_a_program_that_knows(self):
        self.assertEqual(self.judged('true report$')[:2], (0, 'each report was told yes, and each changed one no\n'))

    def test_a_program_that_says_yes_to_a_changed_report(self):
        status, out, _ = self.judged('true')
        self.assertEqual((status, out.count('changed: svsm_audit: yes')), (1, 2))

    def test_a_program_that_says_no_to_all(self):
        status, out, _ = self.judged('none')
        self.assertEqual((status, out.count('its report is told svsm_audit: no')), (1, 2))

    def test_words(self):
        self.assertNotEqual(ran('doubt', 'image')[0], 0)
        self.assertNotEqual(ran('doubt', '--runs', '0', 'image', 'script')[0], 0)


if __name__ == '__main__':
    unittest.main()

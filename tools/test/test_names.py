import os, tempfile, unittest

from tool import load

names = load('names')

ONE = '''-- One.

-- a rule
abbrev pub rule : ℕ → ℕ
rule n = n

abbrev pub same : ℕ
same = 1

record pub Kept : Type 0 where
  all : ℕ
'''
TWO = ONE.replace('rule n = n', 'rule n = n + 1').replace('abbrev pub same', 'abbrev pub unfoldable same').replace('Kept', 'Other')


class InTwoCrates(unittest.TestCase):
    def setUp(self):
        self.folder = tempfile.TemporaryDirectory()
        names.TOP = self.folder.name
        for crate, text in (('one', ONE), ('two', TWO.replace('unfoldable ', ''))):
            os.makedirs(f'{self.folder.name}/crates/{crate}/specs')
            with open(f'{self.folder.name}/crates/{crate}/specs/Rules.antt', 'w') as file:
                file.write(text)

    def tearDown(self):
        self.folder.cleanup()

    def test_names_with_two_statements(self):
        places = names.read_all(False)
        self.assertEqual(list(names.several(places, False)), ['rule'])
        self.assertEqual(list(names.several(places, True)), ['rule', 'same'])
        self.assertEqual(places['rule'][0], ('one', 'one/specs/Rules.antt', 4, 'abbrev rule : ℕ → ℕ rule n = n'))

    def test_records_and_both_orders_of_words(self):
        self.assertEqual(sorted(names.read_all(False)), ['Kept', 'Other', 'rule', 'same'])
        self.assertEqual(names.DEFINITION.match('unfoldable pub size : ℕ').group(2), 'size')
        self.assertEqual(names.DEFINITION.match('abbrev unfoldable pub size : ℕ').group(2), 'size')


if __name__ == '__main__':
    unittest.main()

import os, tempfile, unittest

from tool import load, ran

statement = load('statement')

STEPS = '''-- Steps.
use Rattle.low.specs.Pages.{page as p, Kind}

-- what no run may break
abbrev pub IsSafe : ℕ → Type 0
IsSafe n = p n ≡ small

-- not of the statement
abbrev pub other : ℕ
other = 1
'''
PAGES = '''-- Pages.

-- a kind
data pub Kind : Type 0 where
  small : Kind
  large : Kind

abbrev pub page : ℕ → Kind
page n = large
'''


class OfATree(unittest.TestCase):
    def setUp(self):
        self.folder = tempfile.TemporaryDirectory()
        statement.TOP = self.folder.name
        for path, text in [('crates.txt', 'low:\nhigh: low\nrun_core_top: low high\n'), ('crates/low/specs/Pages.antt', PAGES),
                           ('crates/high/specs/Safe.antt', STEPS), ('crates/run_core_top/src/top.rt', 'ghost use Rattle.high.specs.Safe.{IsSafe};\n'),
                           ('docs/DEFINITIONS.md', 'Read `high/Safe` first.\n\n## Not needed\n\n`low/Other`\n')]:
            path = os.path.join(self.folder.name, path)
            os.makedirs(os.path.dirname(path), exist_ok=True)
            with open(path, 'w') as file:
                file.write(text)

    def tearDown(self):
        self.folder.cleanup()

    def test_what_a_name_stands_on(self):
        files = statement.read_all()
        taken = statement.stands_on(files, statement.cited())
        self.assertEqual({(m[7:], n) for m, n in taken}, {('high.specs.Safe', 'IsSafe'), ('low.specs.Pages', 'page'), ('low.specs.Pages', 'Kind')})

    def test_a_case_stands_for_its_data(self):
        files = statement.read_all()
        self.assertEqual(len(statement.stands_on(files, [('Rattle.low.specs.Pages', 'large')])), 1)

    def test_lines_are_counted_with_comments(self):
        files = statement.read_all()
        self.assertEqual(files['Rattle.high.specs.Safe'].definitions['IsSafe'][:3], (5, 3, True))
        self.assertEqual(files['Rattle.low.specs.Pages'].definitions['page'][:3], (8, 2, False))


class OfThisTree(unittest.TestCase):
    def test_the_rings_grow(self):
        status, out, err = ran('statement', '--rings')
        sizes = [int(line.split()[0]) for line in out.strip().split('\n')[1:]]
        self.assertEqual((status, err, sizes), (0, '', sorted(sizes)))
        self.assertEqual(len(sizes), len(statement.RINGS))

    def test_a_name_that_is_none(self):
        self.assertEqual(ran('statement', 'NoSuchName')[::2], (1, "statement: 'NoSuchName' is no definition of the specs\n"))
        self.assertEqual(ran('statement', '--rings', '--bare')[0], 1)


if __name__ == '__main__':
    unittest.main()

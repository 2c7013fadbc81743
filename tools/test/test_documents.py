import os, tempfile, unittest

from tool import load, ran

documents = load('documents')

PAGE = '''# A page

One two three
four.

- five
- six seven

| a | b |
|---|---|
| one two | `x \\| y` three four |

    code that is no paragraph
'''


class Sizes(unittest.TestCase):
    def test_paragraphs_are_prose_and_items(self):
        self.assertEqual(documents.paragraphs(PAGE), ['One two three four.', '- five', '- six seven'])

    def test_cells_are_cut_at_bars_that_are_no_text(self):
        self.assertEqual(list(documents.rows(PAGE))[2], ['one two', '`x | y` three four'])

    def test_what_is_too_long_is_told(self):
        self.assertEqual(list(documents.too_long(PAGE)), [])
        self.assertEqual(list(documents.too_long('word ' * 91)), ['a paragraph of 91 words: ' + ('word ' * 12)])
        self.assertEqual(list(documents.too_long('| ' + 'word ' * 41 + '|')), ['a cell of 41 words: ' + ('word ' * 12)])
        self.assertEqual(list(documents.too_long('# ' + 'word ' * 2500))[0], '2501 words, and has to have at most 2500')


class Figures(unittest.TestCase):
    def test_numbers_are_those_that_were_counted(self):
        text = '**In numbers:** 2 crates, 1,200 functions.\n'
        self.assertEqual(list(documents.wrong_figures(text, {'crates': 2, 'functions': 1200})), [])
        self.assertEqual(list(documents.wrong_figures(text, {'crates': 3, 'tests': 4})), ['2 crates, and there are 3', 'no number of tests, and there are 4'])

    def test_rings_may_leave_files_out(self):
        self.assertEqual(list(documents.wrong_rings('| 15 | 61 | it |\n', [(15, 61, 4)])), [])
        self.assertEqual(list(documents.wrong_rings('| it | 15 | 1,061 | 4 |\n', [(15, 1061, 5)])), ['ring 1 is [15, 1061, 4], and has 15 definitions, 1061 lines, 5 files'])


class Examples(unittest.TestCase):
    def test_the_worked_example_is_the_stored_one(self):
        self.assertEqual(list(documents.wrong_example('It prints\n\n    svsm-run 1\n    end\n', ['svsm-run 1', 'end'])), [])
        self.assertEqual(len(list(documents.wrong_example('It prints nothing.', ['svsm-run 1', 'end']))), 1)


class Names(unittest.TestCase):
    def setUp(self):
        self.kept, self.folder = documents.TOP, tempfile.TemporaryDirectory()
        documents.TOP = self.folder.name
        for path, text in [('crates/low/src/lib.rt', 'pub fn made() {}\n'), ('crates/low/specs/Rule.antt', ''), ('docs/PAGE.md', '')]:
            path = os.path.join(self.folder.name, path)
            os.makedirs(os.path.dirname(path), exist_ok=True)
            with open(path, 'w') as file:
                file.write(text)

    def tearDown(self):
        documents.TOP = self.kept
        self.folder.cleanup()

    def test_paths_stand_in_the_tree(self):
        self.assertEqual(list(documents.wrong_paths('`low/src/lib.rt`, `low/Rule`, `specs/Rule`, docs/PAGE.md')), [])
        self.assertEqual(list(documents.wrong_paths('`low/Other`, docs/NONE.md')), ['`low/Other` is not in the tree', 'docs/NONE.md is not in the tree'])

    def test_functions_stand_in_the_crates_of_their_row(self):
        self.assertEqual(list(documents.wrong_functions('| it | `made` | `low/src` |\n')), [])
        self.assertEqual(list(documents.wrong_functions('| it | `gone` | `low/src` |\n')), ['`gone` is no function of low'])

    def test_words_stand_in_code(self):
        self.assertEqual(list(documents.wrong_words('`step VALUE` and step\n\n    line one\n', {'step', 'one', 'two'})), ["the word 'two' is not explained"])


class OfThisTree(unittest.TestCase):
    def test_it_ends_well_or_tells_each_page(self):
        status, out, err = ran('documents')
        self.assertEqual((err, status == 0), ('', out == 'what the pages say is what the tree has\n'))
        self.assertEqual(ran('documents', 'none')[0], 1)


if __name__ == '__main__':
    unittest.main()

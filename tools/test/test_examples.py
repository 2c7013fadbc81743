import importlib.machinery, importlib.util, os, unittest

from tool import TOP, load

loader = importlib.machinery.SourceFileLoader('examples_run', os.path.join(TOP, 'examples', 'run'))
examples = importlib.util.module_from_spec(importlib.util.spec_from_loader(loader.name, loader))
loader.exec_module(examples)
from formats import Report, booted_rows, read_image, text_of


class Examples(unittest.TestCase):
    def test_each_has_a_sentence(self):
        for name in examples.names():
            self.assertTrue(examples.sentence(name).endswith('.'), name)

    def test_each_is_what_its_lines_and_its_form_make(self):
        for name in examples.names():
            self.assertTrue(examples.scripts_of(name), name)
            read_image(text_of(examples.image_of(name)))

    def test_stored_reports_are_of_their_images(self):
        for name in examples.names():
            report, image = Report(examples.at(f'{name}.report')), read_image(text_of(examples.image_of(name)))
            self.assertEqual(set(report.rows()), set(booted_rows(image)), name)
            self.assertEqual(len({fields[0] for fields in report.cores}), len(image.cores), name)
            self.assertEqual(bool(report.exits), image.announce, name)

    def test_every_request_has_its_outcome(self):
        for name in examples.names():
            report = Report(examples.at(f'{name}.report'))
            asked = [line for _, request, line, _, _ in load('report').outcomes_of(report, examples.scripts_of(name)) if request is not None]
            self.assertNotIn('', asked, name)

    def test_the_status_that_a_report_tells(self):
        status = {name: examples.wanted_status(Report(examples.at(f'{name}.report'))) for name in ('stolen_page', 'life_of_a_page')}
        self.assertEqual(status, {'stolen_page': 1, 'life_of_a_page': 0})


if __name__ == '__main__':
    unittest.main()

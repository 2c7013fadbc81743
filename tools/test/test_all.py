import os, subprocess, unittest

from tool import TOOLS, TOP

NAMES = sorted(name for name in os.listdir(TOOLS) if '.' not in name and os.path.isfile(os.path.join(TOOLS, name)))


class AllTools(unittest.TestCase):
    def test_help_goes_to_standard_output(self):
        for name in NAMES:
            done = subprocess.run([os.path.join(TOOLS, name), '--help'], capture_output=True, text=True, cwd=TOP, stdin=subprocess.DEVNULL)
            self.assertEqual((done.returncode, done.stderr), (0, ''), name)
            self.assertIn(f'usage: {name}', done.stdout)


if __name__ == '__main__':
    unittest.main()

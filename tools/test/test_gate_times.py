import os, subprocess, sys, tempfile, unittest

from tool import TOOLS, load, ran

gate_times = load('gate_times')

CRATES = '# layers\nlow:\nmid may_wait=2: low std\nside: low\ntop tests_may=Threads: mid side\n'
LOG = '''0.1\t== low
10.0\trt: low proved
10.1\t@ low proof 0.0 10.0 18.50
12.0\t@ low edits 10.0 11.0 1.00
12.0\t@ low edits 11.0 12.0 1.00
40.0\t@ mid proof 10.0 30.0 20.00
30.0\trt: mid proved
20.0\trt: side is kept: an earlier run on this machine proved the same files over the same libraries
90.0\trt: top: its tests are proved
90.0\t@ top tests 30.0 90.0 60.00
50.0\trt: top proved
50.0\t@ top proof 30.0 50.0 30.00
99.0\trt: must-fail low/one.edit: refused, as it must be
100.0\t5 passed, 0 failed
'''


class Told(unittest.TestCase):
    def read(self, text):
        crates = gate_times.crates_in(CRATES)
        return crates, gate_times.read_log(text, crates)

    def test_parts_of_a_crate(self):
        crates, ended = self.read(LOG)
        self.assertEqual(ended, (100.0, '5 passed, 0 failed'))
        self.assertEqual((crates['low'].spent['proof'], crates['low'].spent['edits'], crates['low'].edits), (18.5, 2.0, 1))
        self.assertEqual((crates['side'].kept, crates['mid'].kept, crates['top'].below), (True, False, ['mid', 'side']))

    def test_the_longest_chain_may_end_with_tests(self):
        crates, _ = self.read(LOG)
        self.assertEqual(gate_times.longest_chain(crates), (90.0, [('low', 'proof'), ('mid', 'proof'), ('top', 'tests')]))

    def test_times_between_lines_serve_without_processes(self):
        crates, _ = self.read('\n'.join(line for line in LOG.split('\n') if '@' not in line))
        self.assertEqual(gate_times.took(crates['mid'], 'proof', crates), 20.0)
        self.assertEqual(gate_times.took(crates['top'], 'tests', crates), 60.0)

    def test_a_log_of_something_else(self):
        with tempfile.NamedTemporaryFile('w') as file:
            file.write('hello\n')
            file.flush()
            status, _, err = ran('gate_times', file.name)
        self.assertEqual((status, 'Traceback' in err), (1, False))


class Watched(unittest.TestCase):
    def test_lines_have_their_time_and_processes_their_work(self):
        with tempfile.TemporaryDirectory() as folder:
            os.makedirs(f'{folder}/crates/low')
            busy = 'import time\nend = time.process_time() + 1.2\nwhile time.process_time() < end: pass'
            script = f'cd {folder}/crates/low && echo begun && {sys.executable} -c "{busy}" --crate-name low --test; echo "1 passed, 0 failed"; exit 3'
            done = subprocess.run([os.path.join(TOOLS, 'gate_times'), '--watch', '--', 'sh', '-c', script], capture_output=True, text=True)
        lines = [line.split('\t') for line in done.stdout.strip().split('\n')]
        self.assertEqual((done.returncode, done.stderr), (3, '1 passed, 0 failed\n'))
        self.assertEqual(lines[0][1], 'begun')
        seen = [text.split() for _, text in lines if text[0] == '@']
        self.assertEqual([it[1:3] for it in seen], [['low', 'tests']])
        self.assertGreater(float(seen[0][5]), 0.2)


if __name__ == '__main__':
    unittest.main()

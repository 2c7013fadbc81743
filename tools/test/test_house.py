import unittest

from tool import load, ran

house = load('house')

CODE = '''//! Rows.
/// Counts.
#[inline]
pub fn count<T: Seen>(rows: &[T], f: fn(u64, u64) -> u64) -> u64
    ensures many { result ≡ length rows
        × AndMore }
    ensures kept { rows.now ≡ rows.old }
{
    let mut n = 0;
    n
}

pub fn two(a: u64, b: (u64, u64)) -> u64 {
    a
}
#[cfg(test)]
mod tests;
pub fn three() {}
'''.split('\n')


class Measures(unittest.TestCase):
    def test_clauses_have_all_their_lines(self):
        self.assertEqual([(at, len(lines)) for at, lines in house.clauses_in(CODE)], [(5, 2), (7, 1)])

    def test_functions_have_bodies_and_parameters(self):
        self.assertEqual(list(house.functions_in(CODE)), [('count', 4, 2, 2), ('two', 13, 1, 2), ('three', 18, 0, 0)])

    def test_public_items_want_a_comment(self):
        self.assertEqual(list(house.bare_in(CODE)), [(13, 'fn two')])

    def test_definitions_want_a_comment(self):
        self.assertEqual(list(house.bare_definitions(['-- a rule', 'abbrev pub rule : ℕ', 'rule = 1', '', 'record pub Kept : Type 0 where'])), [(5, 'Kept')])

    def test_the_lists_are_of_this_tree(self):
        status, out, _ = ran('house', 'parameters')
        self.assertEqual((status, out.strip().split('\n')[-1].endswith('in all')), (0, True))
        self.assertEqual(ran('house', 'narrow')[0], 1)


if __name__ == '__main__':
    unittest.main()

"""Tests of `strength`."""

import unittest

from rudavesh import sources, strength

CODE = """\
// one + two
ghost use lib.Dec.{ltb};
pub struct Pair {
    pub left: u32,
    pub right: u32,
    pub open: bool,
}

impl Pair {
    pub fn next(self) -> Pair
        ensures { r < 3 }
    {
        // 7 + 7
        let left = self.left + 1;
        Pair {
            left,
            right: self.right,
            open: true,
        }
    }
}
"""


class Strength(unittest.TestCase):
    def changed(self, line, fields=None):
        return strength.changed_lines(line, fields or {})

    def test_only_the_code_is_changed(self):
        lines = CODE.split("\n")
        self.assertEqual(
            [lines[at].strip() for at in strength.code_lines(CODE) if lines[at].strip(" {}")],
            ["let left = self.left + 1;", "Pair {", "left,", "right: self.right,", "open: true,"],
        )

    def test_an_operator_and_a_number_are_two_changes(self):
        self.assertEqual(self.changed("    a + 1"), ["    a - 1", "    a + 2"])

    def test_each_comparison_has_its_edge(self):
        for old, new in [("<", "<="), ("<=", "<"), (">", ">="), (">=", ">"), ("==", "!="), ("!=", "==")]:
            self.assertEqual(self.changed(f"a {old} b"), [f"a {new} b"])

    def test_a_truth_value_is_turned(self):
        self.assertEqual(self.changed("    f(true)"), ["    f(false)"])

    def test_a_test_by_a_name_is_denied(self):
        self.assertEqual(self.changed("    if holds {"), ["    if !holds {"])
        self.assertEqual(self.changed("    if holds(x) {"), [])

    def test_a_constant_of_the_crate_is_changed_and_a_public_one_is_not(self):
        shut = "const SHUT: Gate = Gate {\n    open: false,\n};\n"
        self.assertEqual(strength.code_lines("pub(crate) " + shut), [1])
        self.assertEqual(strength.code_lines("pub " + shut), [])

    def test_the_last_byte_of_a_text_is_another(self):
        self.assertEqual(self.changed('    *b"STOP....",'), ['    *b"STOP..._",'])
        self.assertEqual(self.changed('    *b"SENSING7",'), ['    *b"SENSING.",'])
        self.assertEqual(self.changed("    f(b'-')"), ["    f(b'.')"])

    def test_a_constant_of_one_line_is_changed(self):
        self.assertEqual(strength.code_lines("// 1\nconst LENGTH: usize = 45;\npub struct Line {\n    pub length: u8,\n}"), [1])

    def test_a_denial_is_dropped(self):
        self.assertEqual(self.changed("    !armed"), ["    armed"])

    def test_a_type_and_a_name_are_no_numbers(self):
        self.assertEqual(self.changed("    x as u32"), [])
        self.assertEqual(self.changed("    wrapping_add_u32(x, y)"), [])

    def test_a_comment_is_not_changed(self):
        self.assertEqual(self.changed("    x // 3 + 4"), [])

    def test_a_field_is_read_in_place_of_one_of_its_type(self):
        fields = strength.neighbours(CODE)
        self.assertEqual(fields, {"left": "right", "right": "left"})
        self.assertEqual(self.changed("    f(self.left)", fields), ["    f(self.right)"])

    def test_a_call_is_no_field(self):
        self.assertEqual(self.changed("    self.left(x)", strength.neighbours(CODE)), [])

    def test_a_store_is_dropped(self):
        self.assertEqual(self.changed("            left,"), ["            left: self.left,"])
        self.assertEqual(self.changed("            left: other,"), ["            left: self.left,"])

    def test_a_field_kept_is_no_store(self):
        self.assertEqual(self.changed("            left: self.left,"), [])

    def test_every_crate_has_changes(self):
        for crate in sources.called_crates():
            found = strength.changes(crate)
            self.assertTrue(found, crate)
            for change in found:
                self.assertNotEqual(change.old.split("//")[0].rstrip(), change.new.rstrip(), str(change))

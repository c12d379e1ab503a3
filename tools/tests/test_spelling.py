"""Names of files in traces and dumps."""
import unittest

import here  # noqa: F401
from spelling import read_prefixes, spell_file


class Spelling(unittest.TestCase):
    def test_printing_bytes_stay(self):
        self.assertEqual(spell_file("/usr/lib/a-b.py"), "/usr/lib/a-b.py")

    def test_blanks_accents_and_the_percent_sign_are_hexadecimal(self):
        self.assertEqual(spell_file("<frozen a>"), "<frozen%20a>")
        self.assertEqual(spell_file("é%"), "%C3%A9%25")

    def test_a_byte_that_is_no_utf8_is_that_byte(self):
        self.assertEqual(spell_file("\udc80"), "%80")

    def test_a_lone_surrogate_is_spelt_as_a_character(self):
        self.assertEqual(spell_file("\ud900"), "%ED%A4%80")

    def test_a_name_without_bytes_has_one(self):
        self.assertEqual(spell_file(""), "%")

    def test_a_long_name_keeps_its_end_behind_a_digest(self):
        # printf '%0256d' 0 | sha256sum begins with 67f02219.
        self.assertEqual(spell_file("0" * 255), "0" * 255)
        self.assertEqual(spell_file("0" * 256), "~" + "67f02219" + "0" * 246)

    def test_a_long_name_is_never_cut_inside_an_escape(self):
        for tail in range(6):
            spelt = spell_file("é" * 200 + "x" * tail)
            self.assertLessEqual(len(spelt), 255)
            self.assertEqual(spelt[9], "%")

    def test_the_longest_prefix_is_shortened(self):
        prefixes = read_prefixes(["/home/me/=", "/home/me/venv/=venv/"])
        self.assertEqual(spell_file("/home/me/venv/a.py", prefixes), "venv/a.py")
        self.assertEqual(spell_file("/home/me/a.py", prefixes), "a.py")


if __name__ == "__main__":
    unittest.main()

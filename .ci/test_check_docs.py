#!/usr/bin/env python3
"""Tests of what check_docs.py finds in a text."""
import unittest

from check_docs import figures, long_sentences, prose, shown_run, worked_row

WORDS = " ".join(["word"] * 30)


class Sentences(unittest.TestCase):
    def test_thirty_words_are_not_long(self):
        self.assertEqual(list(long_sentences(f"{WORDS}.")), [])

    def test_one_more_is(self):
        self.assertEqual(list(long_sentences(f"Short one. {WORDS} more. Short one.")), [f"{WORDS} more."])

    def test_lines_of_a_paragraph_are_one_text(self):
        self.assertEqual(prose("one\ntwo\n\n- three\n  four\n- five"), ["one two", "three four", "five"])

    def test_code_tables_headings_and_quotations_are_none(self):
        self.assertEqual(prose("# a\n\n| b |\n\n> c\n\n    d\n\n```\ne\n```\n<!-- f -->"), [])

    def test_a_long_quotation_is_passed_over(self):
        self.assertEqual(list(long_sentences(f"Short one.\n\n> {WORDS}\n> more.\n\nShort one.")), [])

    def test_a_link_is_its_text_and_code_is_one_word(self):
        self.assertEqual(prose("see [the page](x/y.md) and `a b c`"), ["see the page and code"])


RUN = (["run", "table t(a int8)"], ["# a", "s begin", "s select t"], ["s begun 1", "s row 1.0 5", "s rows 1"])


class Examples(unittest.TestCase):
    def test_a_row_is_its_words_lines_and_replies(self):
        text = "row other\nwords init\n\nrow it\nwords run|table t(a int8)\n    # a\n    s begin -> s begun 1\n    s select t -> s row 1.0 5 | s rows 1\n\nrow next\n"
        self.assertEqual(worked_row(text, "it"), RUN)

    def test_an_example_is_the_same(self):
        lines = ["$ cat > script <<END", *RUN[1], "END", "$ out/brin store.brin run \\", '    "table t(a int8)" < script', *RUN[2]]
        text = "".join(f"    {line}\n" for line in lines)
        self.assertEqual(shown_run(f"<!-- example:begin -->\n{text}<!-- example:end -->"), RUN)


class Figures(unittest.TestCase):
    def found(self, text, bare=False):
        return list(figures(text, bare))

    def test_units_of_time_rate_and_bytes(self):
        self.assertEqual(self.found("2.57 ms, 156,000 rows a second and 44 MB"), [("2.57", "ms"), ("156000", "rows a second"), ("44", "MB")])

    def test_one_digit_and_other_units_are_none(self):
        self.assertEqual(self.found("20 s, 7 minutes, 128 pages, status 12, 1,880 lines"), [])

    def test_bare_numbers_of_tables(self):
        self.assertEqual(self.found("| 49,900 | 1.06 | 128 | 1.1 |", bare=True), [("49900", ""), ("1.06", "")])

    def test_parts_of_other_words_are_none(self):
        self.assertEqual(self.found("a-25 s, 1.2.33 s, dac8208d650f15bf", bare=True), [])


if __name__ == "__main__":
    unittest.main()

#!/usr/bin/env python3
"""Tests of what transcripts.py takes for a right transcript, and what it refuses."""
import unittest

from script_lines import store_of
from transcripts import RowId, Wrong, new_database, reopened, transcript_of, whole_transcript_of

STORE = store_of(["table t(a int8) rows_per_page 2", "table u(a int8,b inet) rows_per_page 2", "index i on t(a minmax) pages_per_range 1 autosummarize"], 8, 4, 1)

PUT = "p begin\np insert t 7\np insert t 8\np commit\n"
PUT_OUTPUT = "p begun 1\np inserted 1.0\np inserted 1.1\np committed\n"

# Two sessions would delete the same row, and there is a line that no worker has.
SCRIPT = """a begin
a select t where a = 7
a delete t where a < 8
a insert t 1
a commit
b begin
b select t
b delete t where a = 7
b insert u 8 10.0.0.0/8
b insert t 9
b step
b commit
b begin
b select t where a >= 8
"""

OUTPUT = """- error 1 2
a begun 2
b begun 3
b row 1.0 7
b row 1.1 8
b rows 2
b deleted 1
b inserted 3.0
- dropped i 3
b inserted 3.1
a row 1.0 7
a rows 1
a error 7 1.0
a error 6
b committed
a rolled back
b begun 4
b row 1.1 8
b row 3.1 9
b rows 2
"""


def stored():
    """The database with the rows 7 and 8."""
    return whole_transcript_of(STORE, new_database(), PUT, PUT_OUTPUT).database


def told(output, script=SCRIPT):
    return whole_transcript_of(STORE, reopened(stored(), output), script, output)


class Right(unittest.TestCase):
    def test_it_leads_to_the_table_of_its_commits(self):
        rows = {(row.table, row.values[0]) for row in told(OUTPUT).database.table.values()}
        self.assertEqual(rows, {("t", 8), ("t", 9), ("u", 8)})

    def test_the_next_statements_of_one_that_ends_early(self):
        front = "".join(OUTPUT.splitlines(True)[:3])
        asked = transcript_of(STORE, reopened(stored(), front), SCRIPT, front).asked
        self.assertEqual({session: statement.verb for session, statement in asked.items()}, {"a": "select", "b": "select"})

    def test_rows_have_their_numbers(self):
        self.assertEqual(sorted(told(OUTPUT).database.table), [RowId(1, 1), RowId(3, 0), RowId(3, 1)])

    def test_an_empty_script_has_no_output(self):
        self.assertEqual(told("", "").entries, [])


class Refused(unittest.TestCase):
    def refused(self, output, script=SCRIPT):
        with self.assertRaises(Wrong):
            told(output, script)

    def changed(self, old, new):
        self.assertEqual(OUTPUT.count(old), 1, old)
        self.refused(OUTPUT.replace(old, new))

    def test_each_line_that_is_left_out(self):
        lines = OUTPUT.splitlines(True)
        for at, line in enumerate(lines):
            if "dropped" not in line:
                self.refused("".join(lines[:at] + lines[at + 1 :]))

    def test_each_line_that_is_told_twice(self):
        lines = OUTPUT.splitlines(True)
        for at, line in enumerate(lines):
            if "dropped" not in line:
                self.refused("".join(lines[: at + 1] + lines[at:]))

    def test_an_answer_to_no_line(self):
        self.refused(OUTPUT + "b committed\n")
        self.refused(OUTPUT + "c begun 5\n")

    def test_wrong_numbers(self):
        self.changed("a begun 2\n", "a begun 3\n")
        self.changed("b begun 3\n", "b begun 4\n")
        self.changed("b inserted 3.0", "b inserted 3.1")
        self.changed("b inserted 3.1", "b inserted 2.1")
        self.changed("b deleted 1", "b deleted 2")
        self.changed("a rows 1", "a rows 2")

    def test_numbers_that_an_opening_has_had(self):
        self.refused(OUTPUT.replace("a begun 2", "a begun 1"))

    def test_numbers_that_an_opening_skips(self):
        skipped = OUTPUT.replace("begun 4", "begun 5").replace("begun 3", "begun 4").replace("begun 2", "begun 3")
        self.refused(skipped.replace("inserted 3", "inserted 4").replace("3.1 9", "4.1 9"))

    def test_entries_of_one_session_that_are_exchanged(self):
        self.changed("b deleted 1\nb inserted 3.0\n", "b inserted 3.0\nb deleted 1\n")
        self.changed("a error 7 1.0\na error 6\n", "a error 6\na error 7 1.0\n")

    def test_rows_that_are_not_to_be_seen(self):
        # Put by a transaction that is under way; deleted by the session itself; of a value that doesn't match; and of another table.
        self.changed("a row 1.0 7\na rows 1\n", "a row 1.0 7\na row 3.1 9\na rows 2\n")
        self.changed("b row 1.1 8\nb row 3.1 9\nb rows 2\n", "b row 1.0 7\nb row 1.1 8\nb row 3.1 9\nb rows 3\n")
        self.changed("a row 1.0 7\na rows 1\n", "a row 1.0 7\na row 1.1 8\na rows 2\n")
        self.changed("b row 1.1 8\nb row 3.1 9\nb rows 2\n", "b row 1.1 8\nb row 3.0 8\nb row 3.1 9\nb rows 3\n")

    def test_rows_that_are_missed(self):
        self.changed("b row 1.1 8\nb row 3.1 9\nb rows 2\n", "b row 1.1 8\nb rows 1\n")
        self.changed("a row 1.0 7\na rows 1\n", "a rows 0\n")

    def test_rows_out_of_order(self):
        self.changed("b row 1.1 8\nb row 3.1 9\n", "b row 3.1 9\nb row 1.1 8\n")

    def test_rows_of_another_value(self):
        self.changed("b row 3.1 9\n", "b row 3.1 8\n")

    def test_a_commit_before_its_transaction_is_seen(self):
        self.changed("b committed\na rolled back\nb begun 4\n", "a rolled back\nb begun 4\nb committed\n")

    def test_a_commit_of_a_transaction_that_has_failed(self):
        self.changed("a rolled back\n", "a committed\n")

    def test_lines_that_no_worker_has_behind_an_entry(self):
        self.changed("- error 1 2\na begun 2\n", "a begun 2\n- error 1 2\n")

    def test_another_place_of_a_fault(self):
        self.changed("- error 1 2\n", "- error 1 3\n")

    def test_requests_that_another_statement_dropped(self):
        self.changed("- dropped i 3\nb inserted 3.1\n", "b inserted 3.1\n- dropped i 3\n")
        self.changed("b inserted 3.0\n", "- dropped i 3\nb inserted 3.0\n")

    def test_a_last_line_without_its_end(self):
        self.refused(OUTPUT[:-1])

    def test_lines_of_another_session_among_rows(self):
        self.changed("a row 1.0 7\na rows 1\na error 7 1.0\n", "a row 1.0 7\nb rows 1\na error 7 1.0\n")


BOTH = "a begin\na delete t\na rollback\nb begin\nb delete t\nb rollback\n"


class Conflicts(unittest.TestCase):
    def output(self, lines):
        return "a begun 2\nb begun 3\n" + "".join(f"{line}\n" for line in lines.split("; "))

    def right(self, lines):
        told(self.output(lines), BOTH)

    def refused(self, lines):
        with self.assertRaises(Wrong):
            told(self.output(lines), BOTH)

    def test_one_of_two_deletes_fails(self):
        self.right("a deleted 2; b error 7 1.0; a rolled back; b rolled back")
        self.right("b deleted 2; a error 7 1.0; a rolled back; b rolled back")

    def test_the_one_that_is_answered_first_may_fail(self):
        self.right("a error 7 1.0; b deleted 2; a rolled back; b rolled back")

    def test_both_fail_only_by_rows_that_are_marked(self):
        self.right("a error 7 1.1; b error 7 1.0; a rolled back; b rolled back")
        self.refused("a error 7 1.0; b error 7 1.0; a rolled back; b rolled back")

    def test_not_both_go_well(self):
        self.refused("a deleted 2; b deleted 2; a rolled back; b rolled back")

    def test_a_row_that_another_has_marked_is_the_first_to_fail(self):
        self.refused("a deleted 2; b error 7 1.1; a rolled back; b rolled back")

    def test_no_conflict_behind_the_rollback_of_the_other(self):
        self.refused("a deleted 2; a rolled back; b error 7 1.0; b rolled back")
        self.right("a deleted 2; a rolled back; b deleted 2; b rolled back")

    def test_no_conflict_by_what_another_has_done_already(self):
        self.refused("a error 7 1.1; a rolled back; b error 7 1.0; b rolled back")

    def test_no_conflict_of_a_row_that_is_not_found(self):
        self.refused("a error 7 1.2; b deleted 2; a rolled back; b rolled back")

    def test_what_a_transaction_that_has_failed_marked_stays_marked(self):
        self.right("b error 7 1.1; a error 7 1.0; a rolled back; b rolled back")
        self.refused("b error 7 1.1; a deleted 2; a rolled back; b rolled back")


UPKEEP = "m explain t\nm summarize i\nm summarize i 8\nm desummarize i 7\nm vacuum t\nm work\n"


class Upkeep(unittest.TestCase):
    def output(self, explain="blocks 0-1 3", summarize="summarized 2", limit="error 10 8", desummarize="desummarized 0", vacuum="vacuumed rows 0 orphans 0 ranges 1", work="worked i 0 1"):
        return "".join(f"m {said}\n" for said in (explain, summarize, limit, desummarize, vacuum, work))

    def right(self, **said):
        told(self.output(**said), UPKEEP)

    def refused(self, **said):
        with self.assertRaises(Wrong):
            told(self.output(**said), UPKEEP)

    def test_answers_of_their_forms(self):
        self.right()
        self.right(explain="blocks none", work="worked none", summarize="error 8 i 4")

    def test_blocks_are_runs_in_order(self):
        for blocks in ("1-0", "3 0", "0 1", "0-0", "0-1 1-2", "8", ""):
            self.refused(explain=f"blocks {blocks}")

    def test_other_answers(self):
        self.refused(limit="summarized 0")
        self.refused(summarize="error 10 8")
        self.refused(desummarize="desummarized 2")
        self.refused(vacuum="vacuumed rows 0")
        self.refused(work="worked j 0 1")
        self.refused(work="error 11 work t n")


if __name__ == "__main__":
    unittest.main()

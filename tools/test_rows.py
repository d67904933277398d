#!/usr/bin/env python3
"""Tests tools/rows with a stand-in for the program, in a second: `python3 tools/test_rows.py`."""

import contextlib
import importlib.machinery
import importlib.util
import io
import sys
import tempfile
import unittest
from pathlib import Path

HERE = Path(__file__).resolve().parent
sys.path.insert(0, str(HERE))
LOADER = importlib.machinery.SourceFileLoader("rows", str(HERE / "rows"))
rows = importlib.util.module_from_spec(importlib.util.spec_from_loader("rows", LOADER))
sys.modules["rows"] = rows
LOADER.exec_module(rows)

PROGRAM = """#!/bin/sh
case $1 in
say) printf "$2"; printf "$3" >&2; exit "$4" ;;
read) cat "$2" || exit 4 ;;
home) echo "$HOME$LANG" ;;
wait) exec sleep 9 ;;
die) kill -9 $$ ;;
*) cat ;;
esac
"""

GOOD = r"""# Files first.
file a.txt: one
file b/c.txt, ended
two

three
file empty
file d/
file \x1b.txt: four
file locked.txt, locked: secret

# Then the rows.

== strc read a.txt
-- output, bare: one

== strc read b/c.txt
-- output
two

three

== strc read empty
== strc home
-- output, quoted: "\n"

== strc
-- input
a
b
-- output, bare
a
b

== strc
-- input, quoted
"x\ty\xff"
200 * "ab"
"\n"
-- output, quoted
"x\ty\xff"
200 * "ab"
"\n"

# Closed streams, and names with other characters than printable ones.
== strc read '\x1b.txt'
-- output, bare: four

== strc <&- >&- 2>&-
-- status: 1

== strc read '\x1bd.txt' 2>&-
-- status: 4

# Two commands, and words with blanks in them.
== strc say 'a b\n' '' 0 | strc
-- output: a b

== strc say 'o\n' 'first\nsecond\n' 3
-- status: 3
-- output: o
-- report
first
second

== strc say '' '1\n2\n3\n' 2
-- status: 2
-- report, begins: 1

== strc say '' '1\n2\n3\n' 2
-- status: 2
-- report, ends
2
3
"""

# What is put in place of what, so that rows fail and are mended.
CHANGES = [
    ("-- output, bare: one", "-- output: one"),
    ("two\n\nthree\n\n== strc read", "four\n\n== strc read"),
    ("empty\n== ", "empty\n-- status: 7\n-- output: x\n-- report\ny\nz\n== "),
    ('200 * "ab"\n"\\n"\n\n#', '199 * "ab"\n"\\n"\n\n#'),
    ("-- status: 3\n", ""),
    ("-- output: o\n", ""),
    ("-- report\nfirst\nsecond\n", ""),
    ("begins: 1", "begins: 2"),
    ("ends\n2\n3", "ends\n1\n2"),
    ("-- status: 2\n-- report, ends", "-- status: 0\n-- report, ends"),
]

# Files that are refused, with the line and words of the reason.
REFUSED = [
    ("", 1, "no row"),
    ("# only\nfile a: b\n", 1, "no row"),
    ("text\n== strc\n", 1, "belongs to no mark"),
    ("\ntext\n", 2, "belongs to no mark"),
    ("== strc\ntext\n", 2, "belongs to no mark"),
    ("-- output: a\n== strc\n", 1, "before the first row"),
    ("== strc\n-- outputs: a\n", 2, "no mark"),
    ("== strc\n-- output a\n", 2, "no mark"),
    ("== strc\n-- output, raw: a\n", 2, "'raw'"),
    ("== strc\n-- input, bare: a\n", 2, "'bare'"),
    ("== strc\n-- output, bare, quoted: a\n", 2, "exclude"),
    ("== strc\n-- report, begins, ends: a\n", 2, "exclude"),
    ("== strc\n-- output: a\nb\n", 3, "one line"),
    ("== strc\n-- output: a\n-- output: b\n", 3, "second text"),
    ("file a: b\nfile a: c\n== strc\n", 2, "second text"),
    ("file ../a: b\n== strc\n", 1, "no file"),
    ("== strc\n-- report: a\n-- output: b\n", 3, "order"),
    ("== strc\n-- status: two\n", 2, "number"),
    ("== strc\n-- status\n", 2, "number"),
    ("== strc\n-- input\n\n== strc\n", 2, "no text"),
    ("== strc\n-- input\na\n\tb\n", 4, "quoted"),
    ('== strc\n-- input, quoted\n"a"\nb\n', 4, "quoted piece"),
    ('== strc\n-- input, quoted: "\\q"\n', 2, "quoted piece"),
    ("== strc 'a\n", 1, "no words"),
    ("== other\n", 1, "begins with strc"),
    ("== strc | cat\n", 1, "begins with strc"),
]


class Rows(unittest.TestCase):
    def setUp(self):
        folder = tempfile.TemporaryDirectory()
        self.addCleanup(folder.cleanup)
        self.folder = Path(folder.name)
        self.program, self.file = self.folder / "program", self.folder / "a.rows"
        self.program.write_text(PROGRAM, encoding="utf-8")

    def run_rows(self, text, *words):
        """The status, and what is printed, where the file has this text."""
        self.file.write_text(text, encoding="utf-8")
        with contextlib.redirect_stdout(io.StringIO()) as printed:
            status = rows.main([*words, str(self.program), str(self.file)])
        return status, printed.getvalue()

    def test_rows_that_pass(self):
        for words in [], ["--update"]:
            status, printed = self.run_rows(GOOD, *words)
            self.assertEqual((status, printed.splitlines()[-1]), (0, "13 passed, 0 failed"), printed)
            self.assertEqual(self.file.read_text(encoding="utf-8"), GOOD)

    def test_updates(self):
        for before, after in CHANGES:
            self.assertEqual(GOOD.count(before), 1, before)
            changed = GOOD.replace(before, after)
            status, printed = self.run_rows(changed)
            self.assertEqual((status, printed.splitlines()[-1]), (1, "12 passed, 1 failed"), printed)
            self.assertEqual(self.file.read_text(encoding="utf-8"), changed)
            self.assertEqual(self.run_rows(changed, "--update"), (0, "1 rows were updated\n13 passed, 0 failed\n"))
            self.assertEqual(self.file.read_text(encoding="utf-8"), GOOD)

    def test_all_updates_at_once(self):
        changed = GOOD
        for before, after in CHANGES:
            changed = changed.replace(before, after)
        self.assertEqual(self.run_rows(changed, "--update")[0], 0)
        self.assertEqual(self.file.read_text(encoding="utf-8"), GOOD)

    def test_files_that_are_refused(self):
        for text, line, reason in REFUSED:
            for words in [], ["--update"]:
                status, printed = self.run_rows(text, *words)
                self.assertEqual(status, 1, text)
                self.assertIn(f"{self.file}:{line}: ", printed)
                self.assertIn(reason, printed)
                self.assertTrue(printed.endswith("0 passed, 1 failed\n"), printed)
                self.assertEqual(self.file.read_text(encoding="utf-8"), text)

    def test_a_file_of_other_bytes(self):
        self.file.write_bytes(b"== strc\n-- input: \xff\n")
        with contextlib.redirect_stdout(io.StringIO()) as printed:
            self.assertEqual(rows.main([str(self.program), str(self.file)]), 1)
        self.assertEqual(printed.getvalue(), f"{self.file}:2: this is no UTF-8 text\n0 passed, 1 failed\n")

    def test_runs_that_do_not_end(self):
        self.addCleanup(setattr, rows, "SECONDS", rows.SECONDS)
        for text, why in ("# 1\n== strc die\n", "die\n  was ended by signal 9"), ("# 1\n== strc wait\n", "wait\n  did not end within 0.2 seconds"):
            for words in [], ["--update"]:
                status, printed = self.run_rows(text, *words)
                self.assertEqual(status, 1)
                self.assertIn(f"{self.file}:2: strc {why}", printed)
                self.assertTrue(printed.endswith("0 passed, 1 failed\n"), printed)
                self.assertEqual(self.file.read_text(encoding="utf-8"), text)
            rows.SECONDS = 0.2

    def test_locked_files(self):
        text = "file a, locked: b\n== strc read a\n-- status: 4\n-- report, ends: cat: a: Permission denied\n"
        status, printed = self.run_rows(text)
        self.assertEqual(status, 0, printed)
        self.assertTrue(printed == "1 passed, 0 failed\n" or "left out" in printed, printed)

    def test_what_is_not_there(self):
        self.program.unlink()
        self.assertTrue(self.run_rows("== strc\n")[1].endswith("0 passed, 1 failed\n"))
        self.addCleanup(setattr, rows, "FOLDER", rows.FOLDER)
        rows.FOLDER = self.folder / "none"
        self.program.write_text(PROGRAM, encoding="utf-8")
        for words in [str(self.program)], [str(self.program), str(self.folder / "none.rows")]:
            with contextlib.redirect_stdout(io.StringIO()) as printed:
                self.assertEqual(rows.main(words), 1)
            self.assertTrue(printed.getvalue().endswith("0 passed, 1 failed\n"))


if __name__ == "__main__":
    unittest.main()

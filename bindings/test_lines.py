"""Tests of ./lines: the stored answers, and a sentence and status 1 where it cannot read or write. The line program must be there (scripts/program lines)."""

import os
import pathlib
import subprocess
import unittest

ROOT = pathlib.Path(__file__).resolve().parents[1]
FORMS, ANSWERS = ROOT / "crates/lines/stdin", ROOT / "crates/lines/stdout"


def lines(shell, **how):
    """What ./lines gives, run by a shell that redirects what it reads and writes; nothing of it may wait for ever."""
    command = ["bash", "-c", f'"$0" {shell}', str(ROOT / "lines")]
    return subprocess.run(command, capture_output="stdout" not in how, text=True, timeout=60, **how)


class Lines(unittest.TestCase):
    def ends(self, words, shell):
        run = lines(shell)
        self.assertEqual((run.returncode, run.stderr), (1, f"lines: {words}\n"))

    def test_answers(self):
        run = lines(f"<{FORMS}")
        self.assertEqual((run.returncode, run.stderr, run.stdout), (0, "", ANSWERS.read_text()))
        self.assertEqual(lines("</dev/null").returncode, 0)
        self.assertEqual(lines(f"2>&- <{FORMS}").stdout, run.stdout)

    def test_output_that_cannot_be_written(self):
        self.ends("the answers cannot be written", f">/dev/full <{FORMS}")
        self.ends("standard output is closed", f">&- <{FORMS}")
        for nobody_told in ("2>&-", "2>/dev/full"):
            self.assertEqual(lines(f">/dev/full {nobody_told} <{FORMS}").returncode, 1)

    def test_a_pipe_that_would_block(self):
        reader, writer = os.pipe()
        os.set_blocking(writer, False)
        run = lines(f"<{FORMS}", stdout=writer, stderr=subprocess.PIPE)
        os.close(writer)
        self.assertEqual((run.returncode, run.stderr), (1, "lines: the answers cannot be written\n"))
        with open(reader) as pipe:
            self.assertTrue(ANSWERS.read_text().startswith(pipe.read()))

    def test_input_that_cannot_be_read(self):
        self.ends("the input cannot be read", "</")
        self.ends("standard input is closed", "<&-")


if __name__ == "__main__":
    unittest.main()

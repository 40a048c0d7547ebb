"""`python -m flashfill` beside the program `fillcsv` that FILLCSV names: the same bytes, statuses and saved rules."""
import contextlib
import io
import os
import pathlib
import shutil
import subprocess
import sys
import tempfile
import unittest

from flashfill.__main__ import main

EXAMPLES = pathlib.Path(__file__).resolve().parents[3] / "examples"
PROGRAM = os.environ.get("FILLCSV")
PEOPLE, LABEL = ["people.csv", "--to", "Label"], ["--from", "Name,City"]
MONTHS = ["sales.csv", "--to=Month", "--table=months=months.csv", "--key", "months:1"]
RUNS = [
    *((it, b"") for it in (["--help"], ["--version"], [], ["gone.csv", "--to=x"], [".", "--to=x"], ["people.csv", "--to=Lable"])),
    ([*PEOPLE, *LABEL, "--state", "--explain"], b""),
    ([*PEOPLE, "--strict", "--only=sure"], b""),
    (["-", "--to", "Label"], (EXAMPLES / "people.csv").read_bytes()),
    ([*PEOPLE, *LABEL, "--save-rule", "new.rule"], b""),
    ([*PEOPLE, "--save=new.rule", "--quiet"], b""),
    ([*PEOPLE, "--save-rule=gone/new.rule"], b""),
    ([*MONTHS, "--save-rule=new.rule"], b""),
    ([*MONTHS, "--save-rule=label.rule"], b""),
    ([*MONTHS, "--save-rule=months.csv"], b""),
    ([*PEOPLE, "--replace"], b""),
    (["--rule", "label.rule"], (EXAMPLES / "more-people.csv").read_bytes()),
    (["--rule=month.rule", "--quiet"], (EXAMPLES / "more-sales.csv").read_bytes()),
    (["--rule=gone.rule"], b"a\n"),
    (["--rule=people.csv"], b"a\n"),
    ([*PEOPLE, "--ask"], b"2\nu\n\nx\n"),
    ([*PEOPLE, *LABEL, "--ask"], b"Noether (Erlangen)"),
    ([*PEOPLE, "--ask"], b""),
    ([*PEOPLE, "--to=\udcff"], b""),
]


def folder_of(words):
    """A folder with the examples, in which a command saves what it saves."""
    folder = tempfile.mkdtemp()
    for it in [*EXAMPLES.glob("*.csv"), *EXAMPLES.glob("*.rule")]:
        shutil.copy(it, folder)
    return folder


def ran(words, given):
    """The status, the output, the errors and the saved rule of the package's command."""
    folder, before = folder_of(words), os.getcwd()
    streams = [io.TextIOWrapper(io.BytesIO(it)) for it in (given, b"", b"")]
    kept, sys.stdin = sys.stdin, streams[0]
    try:
        os.chdir(folder)
        with contextlib.redirect_stdout(streams[1]), contextlib.redirect_stderr(streams[2]):
            status = main(words)
        return status, streams[1].buffer.getvalue(), streams[2].buffer.getvalue(), saved_in(folder)
    finally:
        sys.stdin = kept
        os.chdir(before)
        shutil.rmtree(folder)


def proved(err):
    """What is told, without the line of a library over an engine that is not proved."""
    return b"".join(it for it in err.splitlines(True) if not it.startswith(b"libflashfill: "))


def saved_in(folder):
    rule = pathlib.Path(folder, "new.rule")
    return rule.read_bytes() if rule.exists() else None


class Command(unittest.TestCase):
    @unittest.skipUnless(PROGRAM, "FILLCSV names no program")
    def test_it_answers_as_the_program(self):
        for words, given in RUNS:
            folder = folder_of(words)
            program = subprocess.run([PROGRAM, *words], cwd=folder, input=given, stdout=subprocess.PIPE, stderr=subprocess.PIPE)
            wanted = (program.returncode, program.stdout, program.stderr, saved_in(folder))
            shutil.rmtree(folder)
            with self.subTest(words=words):
                some = 2 if "--to=\udcff" in words else 4  # what is told of words that are not UTF-8 differs
                self.assertEqual(ran(words, given)[:some], wanted[:some])

    def test_examples(self):
        status, out, err, _ = ran([*PEOPLE, *LABEL, "--state"], b"")
        self.assertEqual((status, out, err[:9]), (0, (EXAMPLES / "people-filled.csv").read_bytes(), b"fillcsv: "))
        more = ran(["--rule", "label.rule"], (EXAMPLES / "more-people.csv").read_bytes())
        self.assertEqual(more[1], (EXAMPLES / "more-people-filled.csv").read_bytes())

    def test_an_output_that_cannot_be_written(self):
        with open("/dev/full", "wb") as full:
            words = [sys.executable, "-m", "flashfill", str(EXAMPLES / "people.csv"), "--to=Label"]
            run = subprocess.run(words, stdout=full, stderr=subprocess.PIPE)
        self.assertEqual((run.returncode, proved(run.stderr)), (4, b"fillcsv: output cannot be written\n"))

    def test_questions_at_a_terminal(self):
        ours, theirs = os.openpty()
        words = [sys.executable, "-m", "flashfill", str(EXAMPLES / "people.csv"), *PEOPLE[1:], *LABEL, "--ask"]
        run = subprocess.Popen(words, stdin=theirs, stdout=subprocess.PIPE, stderr=subprocess.PIPE)
        os.close(theirs)
        os.write(ours, b"2\n")
        out, err = run.communicate(timeout=300)
        os.close(ours)
        wanted = ran([*PEOPLE, *LABEL, "--ask"], b"2\n")
        self.assertEqual((run.returncode, out, proved(err)), wanted[:3])
        self.assertIn(b"Emmy A Noether,emmy.n@ring.de,Erlangen,Noether (Erlangen)\n", out)


if __name__ == "__main__":
    unittest.main()

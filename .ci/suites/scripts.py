"""The suite `scripts`: ./test and .ci/texts pass where they may, and fail where they have to and say why.

Each test runs a script with a program, rows or commands of its own, some in a copy of the scripts without the
sources."""
import functools
import os
import re
import shutil
import subprocess
import sys
import tempfile
import time

from suite import SECONDS, TOP, Found, Test

RIGHT = "#!/bin/sh\necho 'thriftd: usage' >&2\nexit 1\n"
WRONG = "#!/bin/sh\necho 'no such thing' >&2\nexit 1\n"
GONE = "#!/bin/sh\nexit 3\n"
PASSING = "#!/bin/sh\nexit 0\n"
ROWS = "usage: nonsense\n"


class Place:
    """A folder with programs, files of rows and commands, and what the scripts find in it."""

    def __init__(self, folder):
        self.folder, self.top = folder, TOP
        self.settings = {name: value for name, value in os.environ.items() if not name.startswith(("THRIFTD", "RT_"))}

    def write(self, name, text, mode=0o644):
        path = os.path.join(self.folder, name)
        os.makedirs(os.path.dirname(path), exist_ok=True)
        with open(path, "w", encoding="utf-8") as out:
            out.write(text)
        os.chmod(path, mode)
        return path

    def program(self, text):
        self.settings["THRIFTD"] = self.write("thriftd", text, 0o755)
        return self

    def commands(self, *lost, **planted):
        """Leaves commands out of the path, and plants others."""
        shelf = os.path.join(self.folder, "commands")
        os.makedirs(shelf)
        for folder in self.settings["PATH"].split(os.pathsep):
            for name in os.listdir(folder) if os.path.isdir(folder) else []:
                if name not in (*lost, *planted, "python3") and not os.path.lexists(os.path.join(shelf, name)):
                    os.symlink(os.path.join(folder, name), os.path.join(shelf, name))
        if "python3" not in lost:
            os.symlink(sys.executable, os.path.join(shelf, "python3"))
        for name, text in planted.items():
            self.write("commands/" + name, text, 0o755)
        self.settings["PATH"] = shelf
        return self

    def copied(self):
        """A copy of the scripts, with one source that dist/ isn't of."""
        self.top = os.path.join(self.folder, "copy")
        for name in (".ci", "dist", "examples", "tools"):
            shutil.copytree(os.path.join(TOP, name), os.path.join(self.top, name), ignore=shutil.ignore_patterns("__pycache__"))
        for name in ("thriftd", "test", "README.md", "VERSION"):
            shutil.copy(os.path.join(TOP, name), self.top)
        # (these tests would begin anew there, and again, and others take what isn't copied)
        kept = ("run.py", "suite.py", "rows.py", "examples.py", "screen.py")
        for name in os.listdir(os.path.join(self.top, ".ci/suites")):
            if name.endswith(".py") and name not in kept:
                self.write("copy/.ci/suites/" + name, "def tests(*programs):\n    return []\n")
        self.write("copy/rows/a.rows", ROWS)
        self.write("copy/crates.txt", "thriftd:\n")
        self.write("copy/crates/thriftd/src/main.rt", "fn main() {}\n")
        return self

    def built(self, *texts, age=0):
        """Puts these programs where both compilers' stand, as if they were so many seconds old."""
        for name, text in zip(("thriftd", "thriftd.by-rattle"), texts):
            path = self.write("copy/crates/thriftd/out/" + name, text, 0o755)
            os.utime(path, (time.time() - age,) * 2)
        return self

    def wants(self, words, status, *lines):
        """Runs a script with these words, which has to end with this status and to print lines like these; where the
        status isn't 0, none that says that something passed."""
        words = [os.path.join(self.top, words[0]), *words[1:]]
        done = subprocess.run(words, cwd=self.folder, env=self.settings, capture_output=True, text=True, timeout=SECONDS, check=False)
        said = done.stdout + done.stderr
        if done.returncode != status:
            raise Found("status %d, not %d, with %r" % (done.returncode, status, said[-600:]))
        for line in lines:
            if not re.search("^%s$" % line, said, re.MULTILINE):
                raise Found("no line %r in %r" % (line, said[-600:]))
        if status and re.search(r": passed|[1-9]\d* passed, 0 failed", said):
            raise Found("it says that something passed: %r" % said[-600:])


def right_program(place):
    said = "1 rows of a.rows: passed, by the program .*; nothing was proved.*"
    place.program(RIGHT).wants(["test", place.write("a.rows", ROWS)], 0, "1 passed, 0 failed", said)


def wrong_program(place):
    said = ["a.rows: .*no such thing.*", "0 passed, 1 failed", r"failed: a.rows \(1 of 1\), by the program .*"]
    place.program(WRONG).wants(["test", place.write("a.rows", ROWS)], 1, *said)


def wrong_program_in_examples(place):
    place.program(WRONG).wants(["test", "examples"], 1, r"0 passed, \d+ failed")


def wrong_program_on_the_screen(place):
    place.program(WRONG).wants(["test", "screen"], 1, r"0 passed, \d+ failed(, 1 skipped)?", "screen: .*the server's first line.*")


def missing_program(place):
    place.settings["THRIFTD"] = "missing/thriftd"
    for script in ("test", ".ci/rows"):
        place.wants([script], 1, "0 passed, 1 failed", "test: no program was tested: THRIFTD names no program: missing/thriftd")


def program_of_other_sources(place):
    place.copied().commands(rt="#!/bin/sh\ntouch %s/called\n" % place.folder)
    place.wants(["test", "rows"], 1, "0 passed, 1 failed", "test: no program was tested: thriftd: dist/ has no program of these sources, .*")
    if os.path.exists(os.path.join(place.folder, "called")):
        raise Found("it has begun to build")


def empty_rows(place):
    place.program(RIGHT).wants(["test", place.write("a.rows", "# none\n")], 1, ".*a.rows has no row", "0 passed, 1 failed")


def no_rows_at_all(place):
    os.remove(os.path.join(place.copied().top, "rows/a.rows"))
    place.program(RIGHT).wants(["test", "rows"], 1, "rows: .*there is nothing to test", "0 passed, 1 failed")


def unknown_name(place):
    place.wants(["test", "row"], 1, "test: row is no suite and no file of rows: rows, examples, screen, .*")


def no_python(place):
    place.commands("python3").wants(["test"], 127, "0 passed, 1 failed", "test: it takes python3, .*: nothing was tested")


def no_python_for_texts(place):
    place.commands("python3").wants([".ci/texts"], 1, "texts: there is no python3, .*", "texts: 0 passed, 1 failed")


def no_repository_for_texts(place):
    place.copied().wants([".ci/texts"], 1, "texts: git names no source here, .*", "texts: 0 passed, 1 failed")


def no_kit(place):
    place.commands("rt").wants(["test", "--all"], 127, "0 passed, 1 failed", "test: --all takes the command rt .*README.md.*")


def failed_proof(place):
    place.commands(rt=GONE).wants(["test", "--all"], 3, "0 passed, 1 failed", "test: rt ci failed, and nothing was run after it")


def failed_gate(place):
    place.commands(rt=GONE).wants([".ci/run"], 3, "0 passed, 1 failed", "test: rt ci failed, and nothing was run after it")


def proof_that_built_nothing(place):
    place.copied().commands(rt=PASSING).wants(["test", "--all"], 1, "test: no program was tested: there is no program crates/thriftd/out/thriftd, .*")


def build_of_both(place):
    place.copied().built(RIGHT, WRONG).wants(["test", "rows"], 1, "1 passed, 1 failed", "failed: .* both compilers .*")


def old_build(place):
    place.copied().built(RIGHT, RIGHT, age=60).wants(["test", "rows"], 1, "0 passed, 1 failed", "test: no program .*")


def wrong_build(place):
    place.copied().built(WRONG, WRONG)
    place.settings["THRIFTD"] = place.write("thriftd", RIGHT, 0o755)
    place.commands(rt=PASSING).wants(["test", "--all"], 1, "failed: .*, by the programs that both compilers built here.*")


def handed_on_name(place):
    """A name that a file hands on is the definition behind it, and not the one that is called as the file."""
    place.copied()
    place.write("copy/crates.txt", "low:\nmid: low\ntop: mid\n")
    place.write("copy/crates/low/specs/Most.antt", "abbrev pub most : ℕ\nmost = 3\n")
    place.write("copy/crates/mid/specs/Phase.antt", "pub use Rattle.low.specs.Most.{most}\n\npub data Phase : Type 0 where\n  begun : Phase\n")
    place.write("copy/crates/top/specs/Twice.antt", "use Rattle.mid.specs.Phase.{most}\n\nabbrev pub twice : ℕ\ntwice = most + most\n")
    place.wants([".ci/reading", "--names", "twice"], 0, "`twice`: 2 definitions.*", "- Most: `most`", "- Twice: `twice`")


CASES = [right_program, wrong_program, wrong_program_in_examples, wrong_program_on_the_screen, missing_program, program_of_other_sources]
CASES += [empty_rows, no_rows_at_all, unknown_name, no_python, no_python_for_texts, no_repository_for_texts, no_kit]
CASES += [failed_proof, failed_gate, proof_that_built_nothing, build_of_both, old_build, wrong_build, handed_on_name]


def within(case):
    with tempfile.TemporaryDirectory(prefix="thriftd-scripts-") as folder:
        case(Place(folder))


def tests():
    """A test of each case."""
    return [Test(case.__name__.replace("_", " "), functools.partial(within, case)) for case in CASES]

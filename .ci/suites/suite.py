"""What suites are made of: tests, what they come to, and the program that they run."""
import os
import re
import subprocess
from dataclasses import dataclass, field
from typing import Callable, List

TOP = os.path.dirname(os.path.dirname(os.path.dirname(os.path.abspath(__file__))))
BOTH = [os.path.join(TOP, "crates/thriftd/out", name) for name in ("thriftd", "thriftd.by-rattle")]
COUNTED = re.compile(r"^(?:\w+: )?(\d+) passed, (\d+) failed(?:, (\d+) skipped)?$", re.MULTILINE)
LEFT_OUT = re.compile(r"^(?:\w+: )?left out: (.*)$", re.MULTILINE)
SECONDS = 60


class Unfit(Exception):
    """There is nothing to run, or it can't be read."""


class Found(Exception):
    """A test has found this."""


class LeftOut(Exception):
    """A test isn't run here, and this is why."""


@dataclass
class Test:
    """What is run once. It returns what it found, nothing where it passed, or an outcome."""

    title: str
    run: Callable


@dataclass
class Outcome:
    """What one test or many come to: counts, the lines that say what was found, and what was left out."""

    passed: int = 0
    failed: int = 0
    skipped: int = 0
    found: List[str] = field(default_factory=list)
    left_out: List[str] = field(default_factory=list)

    def add(self, other):
        self.passed, self.failed, self.skipped = self.passed + other.passed, self.failed + other.failed, self.skipped + other.skipped
        self.found.extend(other.found)
        self.left_out.extend(it for it in other.left_out if it not in self.left_out)

    def counts(self):
        return "%d passed, %d failed%s" % (self.passed, self.failed, ", %d skipped" % self.skipped if self.skipped else "")


def outcome_of(test):
    """Runs a test. One that ends in an exception has failed."""
    try:
        found = test.run() or []
    except LeftOut as left_out:
        return Outcome(skipped=1, left_out=[str(left_out)])
    except Found as it:
        found = [str(it)]
    except Exception as fault:
        found = ["%s: %s" % (type(fault).__name__, fault)]
    if isinstance(found, Outcome):
        return found
    return Outcome(passed=not found, failed=bool(found), found=["%s: %s" % (test.title, it) for it in found])


def counted(*words):
    """A test that runs a command of the tree, which counts for itself: it prints a line `N passed, N failed`, with
    `, N skipped` behind it or without, and a line `left out: WHAT` for each thing that it skips. One that passes
    nothing has failed."""

    def run():
        done = subprocess.run(words, cwd=TOP, stdin=subprocess.DEVNULL, stdout=subprocess.PIPE, stderr=subprocess.STDOUT, text=True, check=False)
        lines = [it for it in done.stdout.split("\n") if it and not COUNTED.match(it) and not LEFT_OUT.match(it)]
        last = COUNTED.findall(done.stdout)[-1:] or [("0", "0", "")]
        outcome = Outcome(*(int(it or 0) for it in last[0]), lines, LEFT_OUT.findall(done.stdout))
        if not outcome.failed and (done.returncode or not outcome.passed):
            outcome.failed = 1
            outcome.found.append("%s: it passed %d, and ended with status %d" % (words[0], outcome.passed, done.returncode))
        return outcome

    return Test(words[0], run)


@dataclass
class Programs:
    """The programs that are tested, and how a line names them."""

    paths: List[str]
    name: str


def is_program(path):
    return os.path.isfile(path) and os.access(path, os.X_OK)


def named_program(name):
    """The program that is named by hand."""
    path = os.path.abspath(name)
    if not is_program(path):
        raise Unfit("THRIFTD names no program: %s" % name)
    return Programs([path], "the program %s" % name)


def both_built():
    """The programs that `rt ci` built here."""
    for path in BOTH:
        if not is_program(path):
            raise Unfit("there is no program %s, which `rt ci` builds" % os.path.relpath(path, TOP))
    return Programs(BOTH, "the programs that both compilers built here")


def are_newest(paths):
    """Whether these programs are no older than what they are built from."""
    digest = subprocess.run([os.path.join(TOP, ".ci/digest"), "folders"], stdout=subprocess.PIPE, text=True, check=True)
    newer = ["-cnewer", paths[0], "-o", "-cnewer", paths[1]]
    words = ["find", "crates.txt", *digest.stdout.split(), "(", *newer, ")", "-print", "-quit"]
    return not subprocess.run(words, cwd=TOP, stdout=subprocess.PIPE, check=True).stdout


def found_programs():
    """Those that both compilers built here, where nothing has changed since, or else the one that `./thriftd` runs."""
    if all(map(is_program, BOTH)) and are_newest(BOTH):
        return both_built()
    words = {**os.environ, "THRIFTD_PATH_ONLY": "1", "THRIFTD_NO_BUILD": "1"}
    done = subprocess.run([os.path.join(TOP, "thriftd")], env=words, capture_output=True, text=True, check=False)
    path = done.stdout.rstrip("\n")
    if done.returncode or not is_program(path):
        raise Unfit(done.stderr.strip() or "./thriftd names no program: %r" % path)
    return Programs([path], "the program that was built here" if path == BOTH[0] else "the program in dist/")

"""Tests the program that ./thriftd runs, in a minute and without the kit.

./test                 runs all suites but texts
./test NAME ..         runs these suites, or the rows of a file (rows/words.rows)
./test --all           runs everything, in an hour or two: proofs, tests and edits by `rt ci`, then all suites by the
                       programs that both compilers built
./test --help          prints this

It takes python3, 3.9 or a later one. Where both compilers' programs were built here, and nothing has changed since,
suites run both; THRIFTD names another program. The status is 0 where something was tested and nothing failed. The line
before the last has the counts: N passed, N failed, and behind that N skipped, where something was left out. The suites:
"""
import concurrent.futures
import os
import signal
import sys
from dataclasses import dataclass
from typing import Callable

import examples
import package
import pages
import rows
import screen
import scripts
import start
import tool_ask
import tool_changes
import tool_json
import tool_mend
import tool_page
import tool_ports
import tool_texts
from suite import Outcome, Programs, Test, Unfit, both_built, counted, found_programs, named_program, outcome_of

MOST_LINES = 100


@dataclass
class Suite:
    """How the last line names a suite, with the number of its tests or without, what it shows, and what makes its
    tests: of the paths of the programs where it runs those."""

    says: str
    shows: str
    tests: Callable
    runs_program: bool = True

    def called(self, number):
        return self.says % number if "%" in self.says else self.says


# A suite is a line here. One that is a script of its own, as .ci/texts is, counts by itself.
SUITES = {
    "rows": Suite("%d rows", "each row of rows/ comes to what it says", lambda programs: rows.tests(programs, rows.files_of_rows())),
    "examples": Suite("%d examples", "each example of examples/ comes to what is kept beside it", examples.tests),
    "screen": Suite("README's first screen", "what README.md begins with prints what it says, at a real port", screen.tests),
    "pages": Suite("%d sections of the pages", "each command of README, RUNNING, TROUBLESHOOTING and COOKBOOK prints what they say", pages.tests),
    "start": Suite("%d tests of the script thriftd", "it prints help, tells what is wrong with words, runs tools and holds journals", start.tests),
    "package": Suite("%d tests of the package", "the Debian package of the program in dist/ installs, and does as the first screen says", package.tests, runs_program=False),
    "scripts": Suite("%d tests of the scripts", "./test and .ci/texts fail where they have to", scripts.tests, runs_program=False),
    "tool_texts": Suite("%d tests of tools/texts", "the tools' module reads what the program writes", tool_texts.tests),
    "tool_json": Suite("%d tests of tools/json", "journals, reports and scripts come to the JSON that they say", tool_json.tests),
    "tool_ask": Suite("%d tests of tools/ask", "calls by JSON are answered, or end with their status", tool_ask.tests),
    "tool_mend": Suite("%d tests of tools/mend", "what is mended is accepted, and each change is told", tool_mend.tests),
    "tool_changes": Suite("%d tests of tools/changes", "all differences of two IDLs are told, as `compat` has them", tool_changes.tests),
    "tool_ports": Suite("%d tests of stop, tap and play", "the tools at ports do as docs/TOOLS.md says", tool_ports.tests),
    "tool_page": Suite("docs/TOOLS.md", "each command of docs/TOOLS.md prints what stands there", tool_page.tests),
    "texts": Suite("%d checks of the tree as text", "the tree is in order as text", lambda: [counted(".ci/texts")], runs_program=False),
}
USUAL = [name for name in SUITES if name != "texts"]


def stop(status, line):
    print("test: " + line, file=sys.stderr)
    sys.exit(status)


def chosen(words):
    """The suites that these words stand for, by name."""
    suites, paths = {}, []
    for word in words:
        if word in SUITES:
            suites[word] = SUITES[word]
        elif rows.is_file_of_rows(word) and os.path.isfile(word):
            paths.append(os.path.abspath(word))
        else:
            stop(1, "%s is no suite and no file of rows: %s" % (word, ", ".join(SUITES)))
    if paths:
        names = ", ".join(os.path.basename(it) for it in paths)
        suites[names] = Suite("%d rows of " + names.replace("%", "%%"), "", lambda programs: rows.tests(programs, paths))
    return suites


def programs_of(suites, is_proved):
    """The programs that these suites run."""
    if not any(it.runs_program for it in suites.values()):
        return Programs([], "")
    if is_proved:
        return both_built()
    return named_program(os.environ["THRIFTD"]) if "THRIFTD" in os.environ else found_programs()


def tests_of(suite, paths):
    """The tests of a suite, or one that fails where it has none."""
    fault = "there is nothing to test"
    try:
        tests = list(suite.tests(paths) if suite.runs_program else suite.tests())
    except Unfit as unfit:
        tests, fault = [], str(unfit)
    return tests or [Test(suite.called(0), lambda: [fault])]


def show_progress(done, all_of_them):
    if sys.stderr.isatty():
        sys.stderr.write("\r%d of %d" % (done, all_of_them) if done < all_of_them else "\r\033[K")
        sys.stderr.flush()


def run_all(tests):
    """Runs the tests of all suites side by side, those of small suites first, since each takes longer. It returns each
    suite's outcomes, in order."""
    pool = concurrent.futures.ThreadPoolExecutor(len(os.sched_getaffinity(0)))
    try:
        runs = {name: [pool.submit(outcome_of, test) for test in tests[name]] for name in sorted(tests, key=lambda it: len(tests[it]))}
        every = [run for name in runs for run in runs[name]]
        for done, _ in enumerate(concurrent.futures.as_completed(every), 1):
            show_progress(done, len(every))
        return {name: [run.result() for run in runs[name]] for name in tests}
    finally:
        pool.shutdown(cancel_futures=True)


def summed(outcomes):
    total = Outcome()
    for outcome in outcomes:
        total.add(outcome)
    return total


def show_found(name, total):
    """Prints what was found, the beginning where it is long."""
    for line in total.found[:MOST_LINES]:
        print("%s: %s" % (name, line))
    if len(total.found) > MOST_LINES:
        print("%s: and %d lines more" % (name, len(total.found) - MOST_LINES))


def last_line(suites, totals, programs, is_proved):
    """What was run, what failed of it, and what that doesn't show."""
    passed, failed = [], []
    for name, total in totals.items():
        number = (total.passed + total.failed) // (len(programs.paths) if suites[name].runs_program else 1)
        if total.failed:
            failed.append("%s (%d of %d)" % (name, total.failed, total.failed + total.passed))
        elif total.passed:
            passed.append(suites[name].called(number))
    left_out = [it for total in totals.values() for it in total.left_out]
    parts = ["failed: " + ", ".join(failed)] if failed else []
    parts += [", ".join(passed) + ": passed"] if passed else []
    parts += ["left out: " + ", ".join(left_out)] if left_out else []
    if programs.name:
        parts[0] += ", by " + programs.name
    parts.append("everything was proved, by `rt ci`" if is_proved else "nothing was proved: ./test --all proves it, in an hour or two")
    return "; ".join(parts)


def main(words):
    if words and words[0] in ("--help", "-h"):
        print(__doc__, *("  %-10s %s" % (name, suite.shows) for name, suite in SUITES.items()), sep="\n")
        return 0
    is_proved = words[:1] == ["--proved"]
    suites = chosen(list(SUITES) if is_proved else words or USUAL)
    try:
        programs = programs_of(suites, is_proved)
    except Unfit as unfit:
        print("0 passed, 1 failed")
        stop(1, "no program was tested: %s" % unfit)
    outcomes = run_all({name: tests_of(suite, programs.paths) for name, suite in suites.items()})
    totals = {name: summed(outcomes[name]) for name in suites}
    for name, total in totals.items():
        show_found(name, total)
    everything = summed(totals.values())
    print(everything.counts())
    print(last_line(suites, totals, programs, is_proved))
    return 0 if everything.passed and not everything.failed else 1


if __name__ == "__main__":
    # A command in the background may be told to ignore Ctrl-C, and so would be what it starts.
    signal.signal(signal.SIGINT, signal.default_int_handler)
    try:
        sys.exit(main(sys.argv[1:]))
    except KeyboardInterrupt:
        stop(130, "interrupted")

"""The suite `pages`: the commands of each page's sections print what the page says, tried in their order, as a new user
would.

A block that is marked `sh` is given to a shell as it stands, in a folder of the section's own that looks like the top
of a clone. Between it and the next such block the page may say

- what it prints, on standard output, standard error or both, one behind the other: by the first block that isn't
  marked, or in the next paragraph as prints `LINE`;
- its status, in that paragraph as `status N`: the first that is named, and 0 where none is.

A block that begins with `./thriftd serve` or `./thriftd tap` is a terminal of its own: it goes on beside those that
follow, once it listens, and what it prints until then is compared. Every port (90NN) stands for a free one, and /tmp
for a folder of the section's own. README.md's first screen is the suite `screen`'s, and no page runs `./test`."""
import contextlib
import functools
import os
import re
import shutil
import signal
import subprocess
import tempfile
from dataclasses import dataclass
from typing import Optional

from screen import LIBRARY, free_port, has_library
from suite import SECONDS, TOP, Found, LeftOut, Test, Unfit

PAGES = ["README.md", "docs/RUNNING.md", "docs/TROUBLESHOOTING.md", "docs/COOKBOOK.md"]
FENCE = re.compile(r"^```(\w*)\n(.*?)^```$", re.MULTILINE | re.DOTALL)
BESIDE = re.compile(r"\./thriftd (serve|tap) ")
PORTS = re.compile(r"\b90\d\d\b")
LEFT = re.compile(r"\./test\b")
FIRST_SCREEN = ("README.md", "Serve a port")


@dataclass
class Step:
    """A block, in which line of the page it stands, what it prints where the page says so, and its status."""

    page: str
    line: int
    text: str
    prints: Optional[str]
    status: int

    def __str__(self):
        return "%s:%d: %s" % (self.page, self.line, self.text.split("\n")[0])


def said_behind(text):
    """What a page says behind a block: what that prints, and its status."""
    shown = next((it for it in FENCE.finditer(text) if not it[1]), None)
    words = FENCE.sub("", text).strip().split("\n\n")[0]
    line = re.search(r"\bprints `([^`]*)`", words)
    status = re.search(r"\bstatus (?:is )?(\d+)", words)
    prints = shown[2] if shown else line[1] + "\n" if line else None
    return prints, int(status[1]) if status else 0


def sections(page):
    """The sections of a page that have commands: each with its name and its steps."""
    with open(os.path.join(TOP, page), encoding="utf-8") as held:
        text = held.read()
    starts = [0] + [it.start() for it in re.finditer("^## ", text, re.MULTILINE)] + [len(text)]
    for start, end in zip(starts, starts[1:]):
        name = text[start:end].split("\n")[0].lstrip("# ")
        found = list(steps(page, text, start, end))
        if found and (page, name) != FIRST_SCREEN:
            yield name, found


def steps(page, text, start, end):
    """The steps of a part of a page."""
    blocks = [it for it in FENCE.finditer(text, start, end) if it[1] == "sh"]
    for block, behind in zip(blocks, [it.start() for it in blocks[1:]] + [end]):
        if not LEFT.match(block[2]):
            yield Step(page, text.count("\n", 0, block.start()) + 2, block[2], *said_behind(text[block.end() : behind]))


NEEDS = [
    (r"thrift -gen py|python3 - ", has_library, LIBRARY),
    (
        r"thrift -gen cpp|g\+\+ ",
        lambda: bool(
            shutil.which("g++") and os.path.exists("/usr/include/thrift/TProcessor.h") and shutil.which("thrift")
        ),
        "Apache's client in C++ (Debian: libthrift-dev, thrift-compiler)",
    ),
    (
        r"thrift -gen rb|ruby ",
        lambda: bool(shutil.which("thrift") and shutil.which("ruby"))
        and not subprocess.run(["ruby", "-e", "require 'thrift'"], stderr=subprocess.DEVNULL, check=False).returncode,
        "Apache's client in Ruby (Debian: ruby-thrift, thrift-compiler)",
    ),
    (r"\bgit ", lambda: bool(shutil.which("git")), "git"),
]


def lacking(text):
    """What a block takes that isn't here."""
    return next((name for words, is_here, name in NEEDS if re.search(words, text) and not is_here()), None)


class Place:
    """A folder that looks like the top of a clone, with the ports that stand for a page's and the terminals that are
    open."""

    def __init__(self, folder, program):
        self.folder, self.ports, self.open = os.path.join(folder, "top"), {}, []
        self.other = os.path.join(folder, "tmp")
        os.mkdir(self.folder)
        os.mkdir(self.other)
        for name in ("thriftd", "examples", "tools", "docs"):
            os.symlink(os.path.join(TOP, name), os.path.join(self.folder, name))
        kept = {name: value for name, value in os.environ.items() if not name.startswith(("GIT_", "THRIFTD"))}
        author = {
            "GIT_%s_%s" % (who, what): "me@example.org" for who in ("AUTHOR", "COMMITTER") for what in ("NAME", "EMAIL")
        }
        self.settings = {**kept, **author, "THRIFTD": program, "THRIFTD_NO_BUILD": "1", "GIT_CONFIG_GLOBAL": os.devnull}

    def meant(self, text):
        """A text with this place's ports and folders."""
        for name in PORTS.findall(text):
            self.ports.setdefault(name, free_port())
        return PORTS.sub(lambda it: self.ports[it[0]], text).replace("/tmp/", self.other + "/")

    def shell(self, text, errors):
        return subprocess.Popen(
            ["bash", "-c", self.meant(text)],
            cwd=self.folder,
            env=self.settings,
            stdin=subprocess.DEVNULL,
            stdout=subprocess.PIPE,
            stderr=errors,
            text=True,
            start_new_session=True,
        )

    def run(self, step):
        """Runs a step, which has to print what the page says."""
        wanted = None if step.prints is None else self.meant(step.prints)
        if BESIDE.match(step.text):
            terminal = self.shell(step.text, subprocess.STDOUT)
            self.open.append(terminal)
            line = terminal.stdout.readline()
            if not line.startswith("listening") or (wanted or "").startswith("listening") and line != wanted:
                raise Found("%s begins %r" % (step, line))
            return
        done = self.shell(step.text, subprocess.PIPE)
        self.open.append(done)
        output, errors = done.communicate(timeout=3 * SECONDS)
        if wanted not in (None, output, errors, output + errors):
            raise Found("%s prints %r, and not as the page says %r" % (step, output + errors, wanted))
        if done.returncode != step.status:
            raise Found(
                "%s has status %d, not %d, and prints %r"
                % (step, done.returncode, step.status, (output + errors)[-400:])
            )

    def close(self):
        """Ends what is still open, with all that it has started."""
        for terminal in self.open:
            with contextlib.suppress(ProcessLookupError):
                os.killpg(terminal.pid, signal.SIGKILL)
            terminal.wait()
            terminal.stdout.close()


def tried(found, program):
    """Tries a section from its first step to its last."""
    lacks = {it for step in found for it in [lacking(step.text)] if it}
    if lacks:
        raise LeftOut("what needs %s" % ", ".join(sorted(lacks)))
    with tempfile.TemporaryDirectory(prefix="thriftd-pages-") as folder:
        place = Place(folder, program)
        try:
            for step in found:
                place.run(step)
        finally:
            place.close()


def tests(programs):
    """A test of each section by each program."""
    for page in PAGES:
        found = list(sections(page))
        if not found:
            raise Unfit("%s has no command" % page)
        for program in programs:
            for name, steps_of_it in found:
                title = "%s, '%s' (%s)" % (page, name, os.path.basename(program))
                yield Test(title, functools.partial(tried, steps_of_it, program))

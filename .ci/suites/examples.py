"""The suite `examples`: the program says of each example what is kept beside it (examples/README.md).

A script NAME.script comes to NAME.report, with the words in NAME.words, a line each, or else the tutorial's calculator;
an IDL NAME.thrift to NAME.check; and one that comes after another, NAME_later.thrift, compares with that to
NAME_later.compat. The status is the one in NAME.status, where there is one; where a comparison isn't `compatible` it is
15, and else 0."""
import functools
import glob
import os
import subprocess

from suite import SECONDS, TOP, Test, Unfit

TUTORIAL = ["@tutorial", "binary", "0", "Calculator=calculator"]


def text_of(path, default=None):
    """The text of a file of the tree, or the default where there is none."""
    path = os.path.join(TOP, path)
    if default is not None and not os.path.exists(path):
        return default
    with open(path, encoding="utf-8") as it:
        return it.read()


def shown(program, words, kept, status, given=os.devnull):
    """What of a run isn't as kept."""
    with open(os.path.join(TOP, given), "rb") as text:
        done = subprocess.run([program, *words], cwd=TOP, stdin=text, stdout=subprocess.PIPE, stderr=subprocess.STDOUT, timeout=SECONDS, check=False)
    if done.stdout != text_of(kept).encode():
        yield "it prints %r, which isn't what %s holds" % (done.stdout[-400:], kept)
    if done.returncode != status:
        yield "status %d, not %d" % (done.returncode, status)


def examples():
    """Yields of each example its file, the words, what is kept, the status, and its input where it has one."""
    named = [os.path.relpath(it, TOP) for it in sorted(glob.glob(os.path.join(glob.escape(TOP), "examples/*")))]
    for path in named:
        name, kind = os.path.splitext(path)
        status = int(text_of(name + ".status", "0"))
        if kind == ".script":
            words = text_of(name + ".words", "\n".join(TUTORIAL)).split("\n")
            yield path, ["rehearse", *filter(None, words)], name + ".report", status, path
        elif kind == ".thrift":
            yield path, ["check", path], name + ".check", status
        elif kind == ".compat":
            later = name + ".thrift"
            yield path, ["compat", name[: -len("_later")] + ".thrift", later], path, 0 if text_of(path) == "compatible\n" else 15


def tests(programs):
    """A test of each example by each program. Of each kind there has to be one."""
    found = list(examples())
    for command in ("rehearse", "check", "compat"):
        if not any(words[0] == command for _, words, *_ in found):
            raise Unfit("there is no example of %s" % command)
    for program in programs:
        for path, *example in found:
            title = "%s (%s)" % (path, os.path.basename(program))
            yield Test(title, functools.partial(lambda *it: list(shown(*it)), program, *example))

"""The program: where it is, and what it prints."""
import os
import subprocess

from . import Fault
from .schemas import read_schema
from .tool import Stop

TOP = os.path.dirname(os.path.dirname(os.path.dirname(os.path.abspath(__file__))))
USAGE, IDL, FILE, NO_PROGRAM = 1, 2, 5, 126


def said_of(done):
    """The line of a run's standard error, without the program's name."""
    return done.stderr.strip().replace("thriftd: ", "", 1)


def program_path():
    """The program that THRIFTD names, or else the one that ./thriftd runs, which builds none."""
    named = os.environ.get("THRIFTD")
    if named:
        path = os.path.abspath(named)
        if not (os.path.isfile(path) and os.access(path, os.X_OK)):
            raise Stop(NO_PROGRAM, "THRIFTD names no program: %s" % named)
        return path
    settings = {**os.environ, "THRIFTD_PATH_ONLY": "1", "THRIFTD_NO_BUILD": "1"}
    try:
        done = subprocess.run([os.path.join(TOP, "thriftd")], env=settings, capture_output=True, text=True, check=False)
    except OSError as fault:
        raise Stop(NO_PROGRAM, "there is no program: %s" % fault) from None
    if done.returncode:
        raise Stop(done.returncode, said_of(done) or "there is no program")
    return done.stdout.rstrip("\n")


def run(*words, timeout=None, cwd=None, program=None):
    """Runs a command of the program; its output and its line of errors are text."""
    decoding = {"encoding": "utf-8", "errors": "surrogateescape"}
    streams = {"stdin": subprocess.DEVNULL, "stdout": subprocess.PIPE, "stderr": subprocess.PIPE}
    words = [program or program_path(), *words]
    return subprocess.run(words, timeout=timeout, cwd=cwd, check=False, **streams, **decoding)


def schema_of(idl, cwd=None, program=None):
    """The schema of an IDL; one that is refused ends the tool with the program's status and line."""
    if idl == "" or idl.startswith("-"):
        raise Stop(USAGE, "%r is no name of an IDL" % idl)
    done = run("check", idl, cwd=cwd, program=program)
    if done.returncode:
        raise Stop(done.returncode, said_of(done))
    try:
        return read_schema(done.stdout)
    except Fault as fault:
        raise Stop(IDL, "%s: what `check` prints can't be read: %s" % (idl, fault)) from None

"""What the tools have in common: their words, their one line of errors, and how they end."""
import argparse
import os
import sys

USAGE, WRITE_FAULT, NO_MEMORY, INTERRUPTED, BROKEN_PIPE = 1, 7, 10, 130, 141
# (the types of an IDL have up to 1,000 levels, and each takes some calls)
MOST_CALLS = 5_000


class Stop(Exception):
    """Ends a tool with a status and a line on standard error."""

    def __init__(self, status, line):
        super().__init__(status, line)
        self.status, self.line = status, line


class Parser(argparse.ArgumentParser):
    """The words of a tool: what is wrong with them is one line, with status 1."""

    def __init__(self, name, description, **settings):
        form = argparse.RawDescriptionHelpFormatter
        super().__init__(
            prog="thriftd " + name, description=description, formatter_class=form, allow_abbrev=False, **settings
        )

    def error(self, message):
        raise Stop(USAGE, "%s (--help says more)" % message)


def printable(line):
    """A line that standard error can take: no newlines, and no bytes that are no text."""
    return " ".join(line.split()).encode("utf-8", "backslashreplace").decode("utf-8")


def emit(text=""):
    """Writes to standard output, so that a fault of that is told; without a text, what is left to be written."""
    try:
        sys.stdout.write(text)
        if not text:
            sys.stdout.flush()
    except BrokenPipeError:
        raise
    except OSError as fault:
        raise Stop(WRITE_FAULT, "write fault: %s" % fault.strerror) from None


def run_tool(name, main):
    """Runs a tool's main function on its words, and ends with the status that it returns."""
    sys.stdout.reconfigure(encoding="utf-8")
    sys.setrecursionlimit(MOST_CALLS)
    try:
        try:
            status = main(sys.argv[1:]) or 0
        except SystemExit as ended:
            status = ended.code
        emit()
    except Stop as stop:
        print(printable("thriftd %s: %s" % (name, stop.line)), file=sys.stderr)
        status = stop.status
    except (RecursionError, MemoryError):
        print("thriftd %s: no memory: a type or a value has too many levels or parts" % name, file=sys.stderr)
        status = NO_MEMORY
    except KeyboardInterrupt:
        status = INTERRUPTED
    except BrokenPipeError:
        status = BROKEN_PIPE
    close_output()
    sys.exit(status)


def close_output():
    """Leaves nothing that Python would write at its end, after a pipe broke or a disk was full."""
    try:
        sys.stdout.flush()
    except OSError:
        os.dup2(os.open(os.devnull, os.O_WRONLY), sys.stdout.fileno())


def file_fault(fault):
    """The stop of a file that can't be read or written."""
    return Stop(5, "%s: %s" % (fault.filename or "a file", fault.strerror or fault))

"""The suite `rows`: each row of rows/ says what the program comes to.

A file is made of rows, with empty lines between those of several lines, and comments that begin with `#`. A row's lines begin with a word; a text stands
after a colon, or on lines below that are indented by four spaces, each of which then ends with a newline.

    row WHAT IT SHOWS           begins a row
    words W..                   the program's words, read as by a shell; in front of all rows, the words of each row that has none
    file NAME: TEXT             a file in the folder where the program runs; in front of all rows, a file of each row
    input: TEXT                 what standard input holds
    answers HEX                 a port answers its first caller with these bytes; `$port` stands for its number in the words
    output: TEXT                what is written to standard output: all of it (none, where no row of this kind stands)
    output begins: TEXT         the beginning of what is written there,
    output ends: TEXT           its end, and
    output holds: TEXT          a text that stands in it
    errors: LINE                the line on standard error
    status N                    the status, where it isn't 0

    let NAME: TEXT              in front of all rows: `$NAME` stands for TEXT in the texts of inputs, outputs, files and answers
    TEXT escaped                as in `file NAME escaped: TEXT`: the escapes of Python's bytes stand for bytes
    TEXT joined                 as in `input joined: open; end 0`: `; ` stands between lines, each of which ends with a newline

Rows of one line are short for others; in them files are `a.thrift` and, of `compat`, `old.thrift` and `new.thrift`:

    refused KIND: TEXT          `check` refuses the text for a fault of this kind at the mark `^`, which is no part of the text; without a text, the
                                files below, of which the first is checked, and one of which has the mark
    accepted: TEXT              the text has a schema: the one whose lines after the first stand below, if any do
    type T: TEXT => MEANT       `check` shows that after the text the type means this
    value T: VALUE => WORTH     `check` shows that a constant of this type has this worth, or refuses it for a fault of this kind at the mark; and the
                                same where the constant names another, which has the value: then the fault is at that name
    changed LINE: OLD => NEW    `compat` prints this line of the two texts
    usage: W..                  the words are no command
    absent FILE: W..            the words are a command that asks for this IDL, and there is no such file
    faulty LINE KIND: TEXT      the input, in which escapes stand for bytes, is no script for a fault of this kind in this line

The text of a type or value begins with what `let above` gives, and one of a value that is refused ends with what `let below` gives.

Rows that are computed stand in files NAME.py: `rows(Row)` there yields them, each of which it makes by `Row(PLACE, TITLE)`.
"""
import contextlib
import functools
import os
import re
import runpy
import shlex
import socket
import subprocess
import tempfile
import threading

from suite import SECONDS, TOP, Test, Unfit

KEY = re.compile(r"([a-z]+)((?: [^:\n]*?)??)( escaped| joined)?(?:: ?(.*))?\Z", re.S)
PARTS = {"": "output", "begins": "begins", "ends": "ends", "holds": "holds"}


class Row:
    """What is given, and what is wanted of it."""

    def __init__(self, place, title):
        self.place, self.title = place, title
        self.words, self.files, self.input, self.answers = None, {}, b"", None
        self.output, self.begins, self.ends, self.holds, self.errors, self.status = None, None, None, None, b"", 0
        self.kind = None

    def check(self, files, kind=None):
        """Checks the first of these files; it is refused at the mark for a fault of this kind, or else has a schema. The row itself."""
        self.words, self.files = ["check", next(iter(files))], files
        if kind:
            self.kind, self.status = kind, 2
            self.marked()
        else:
            self.begins = b"file a\n"
        return self

    def marked(self):
        """Takes the mark out of its files, and wants the fault there."""
        name = next((it for it in self.files if b"^" in self.files[it]), None)
        if name is None:
            raise Unfit("%s: no text has a mark" % self.place)
        front, _, behind = self.files[name].partition(b"^")
        line, column = front.count(b"\n") + 1, len(front) - front.rfind(b"\n")
        self.files[name] = front + behind
        self.errors = b"thriftd: idl %s %d:%d %s\n" % (name.encode(), line, column, self.kind.encode())

    def unlike(self, status, output, errors):
        """What of this isn't as wanted."""
        found = []
        if status != self.status:
            found.append("status %d, not %d" % (status, self.status))
        if errors != self.errors:
            found.append("errors %r, not %r" % (errors[-200:], self.errors))
        if self.begins is not None and not output.startswith(self.begins):
            found.append("output begins %r" % output[: len(self.begins) + 40])
        if self.ends is not None and not output.endswith(self.ends):
            found.append("output ends %r" % output[-len(self.ends) - 40 :])
        if self.holds is not None and self.holds not in output:
            found.append("output %r without %r" % (output[-400:], self.holds))
        if self.begins is self.ends is self.holds is None and output != (self.output or b""):
            found.append("output %r, not %r" % (output[-400:], (self.output or b"")[-400:]))
        return found


class Reader:
    """Reads the rows of a file. Each word of a line has a method, which is given what stands after the word, the form and the text."""

    def __init__(self, path):
        self.path, self.name, self.words, self.rows = path, os.path.relpath(path, TOP), None, []
        self.lets, self.files = {"above": "", "below": ""}, {}

    def lines(self):
        """The lines that begin with a word, each with its number, and what stands indented below it."""
        found = []
        with open(self.path, encoding="utf-8") as held:
            for number, line in enumerate(held.read().split("\n"), 1):
                if found and line.startswith("    "):
                    found[-1][2].append(line[4:])
                elif line and not line.startswith("#"):
                    found.append((number, line, []))
        return found

    def text(self, form, inline, below):
        text = inline if inline is not None else "".join(line + "\n" for line in below)
        for name in sorted(self.lets, key=len, reverse=True):
            text = text.replace("$" + name, self.lets[name])
        if form == "joined":
            text = text.replace("; ", "\n").rstrip("\n") + "\n"
        return text.encode("latin-1").decode("unicode_escape").encode("latin-1") if form == "escaped" else text.encode("utf-8")

    def read(self):
        for number, line, below in self.lines():
            self.place, self.line = "%s:%d" % (self.name, number), line
            found = KEY.match(line)
            take = getattr(self, "take_" + found[1], None) if found else None
            if take is None:
                raise Unfit("%s: no line of a row" % self.place)
            form, inline = (found[3] or "").strip(), found[4]
            if inline is not None and below and found[1] != "accepted":
                raise Unfit("%s: a text after the colon, and one below" % self.place)
            take(found[2].strip(), form, inline, below)
        for row in self.rows:
            row.words = self.words if row.words is None else row.words
            if row.kind and not row.errors:
                row.check(row.files, row.kind)
            row.files = {**self.files, **row.files}
        return self.rows

    def begin(self):
        self.rows.append(Row(self.place, self.line))
        return self.rows[-1]

    def take_row(self, rest, form, inline, below):
        self.begin()

    def take_words(self, rest, form, inline, below):
        words = shlex.split(self.line)[1:]
        if self.rows:
            self.rows[-1].words = words
        else:
            self.words = words

    def take_let(self, rest, form, inline, below):
        self.lets[rest] = self.text(form, inline, below).decode("latin-1")

    def take_file(self, rest, form, inline, below):
        files = self.rows[-1].files if self.rows else self.files
        files[rest] = self.text(form, inline, below)

    def take_input(self, rest, form, inline, below):
        self.rows[-1].input = self.text(form, inline, below)

    def take_answers(self, rest, form, inline, below):
        self.rows[-1].answers = bytes.fromhex(self.text("", rest, []).decode())

    def take_output(self, rest, form, inline, below):
        setattr(self.rows[-1], PARTS[rest], self.text(form, inline, below))

    def take_errors(self, rest, form, inline, below):
        self.rows[-1].errors = inline.encode() + b"\n"

    def take_status(self, rest, form, inline, below):
        self.rows[-1].status = int(rest)

    def take_refused(self, rest, form, inline, below):
        row = self.begin()
        row.kind = rest
        if inline is not None or below:
            row.files["a.thrift"] = self.text(form, inline, below)

    def take_accepted(self, rest, form, inline, below):
        row = self.begin().check({"a.thrift": self.text(form, inline, [])})
        if below:
            row.begins, row.output = None, b"file a\n" + self.text("", None, below)

    def take_type(self, rest, form, inline, below):
        text, _, meant = inline.rpartition("=> ")
        row = self.begin().check({"a.thrift": self.text("", "$above%s typedef %s Z" % (text, rest), [])})
        row.holds = b"\ntypedef Z %s\n" % meant.encode()

    def take_value(self, rest, form, inline, below):
        value, _, worth = inline.rpartition(" => ")
        named = "const %s N = %s" % (rest, value.replace("^", ""))
        mark, kind, behind = ("^", worth, "$below") if "^" in value else ("", None, "")
        shown = re.sub(r"(?<![.\w])(?=[A-Z])", "a.", rest)
        for text in ("const %s A = %s" % (rest, value), "const %s A = %sN %s" % (rest, mark, named)):
            row = self.begin().check({"a.thrift": self.text("", "$above%s %s" % (text, behind), [])}, kind)
            row.holds = None if kind else b"\nconst A %s %s\n" % (shown.encode(), worth.encode())

    def take_changed(self, rest, form, inline, below):
        old, _, new = inline.partition(" => ")
        row = self.begin()
        row.words = ["compat", "old.thrift", "new.thrift"]
        row.files = {"old.thrift": old.encode(), "new.thrift": new.encode()}
        row.output = rest.encode() + b"\n"
        if rest != "compatible":
            row.status, row.errors = 15, b"thriftd: incompatible\n"

    def take_usage(self, rest, form, inline, below):
        row = self.begin()
        row.words, row.errors, row.status = shlex.split(inline or ""), b"thriftd: usage\n", 1

    def take_absent(self, rest, form, inline, below):
        row = self.begin()
        row.words, row.errors, row.status = shlex.split(inline), b"thriftd: idl %s 0:0 Absent\n" % rest.encode(), 2

    def take_faulty(self, rest, form, inline, below):
        row = self.begin()
        row.input, row.errors, row.status = self.text("escaped", inline, below), b"thriftd: script %s\n" % rest.encode(), 3


def rows_of(path):
    """The rows of a file, of which there has to be one."""
    try:
        rows = list(runpy.run_path(path)["rows"](Row)) if path.endswith(".py") else Reader(path).read()
    except (OSError, UnicodeDecodeError) as fault:
        raise Unfit("%s: %s" % (path, fault)) from fault
    if not rows:
        raise Unfit("%s has no row" % path)
    return rows


@contextlib.contextmanager
def answering(answers):
    """The number of a port of which the first caller is answered with these bytes, where there are any."""
    if answers is None:
        yield "0"
        return
    with socket.create_server(("127.0.0.1", 0)) as port:

        def answer():
            with contextlib.suppress(OSError), port.accept()[0] as caller:
                caller.sendall(answers)
                caller.shutdown(socket.SHUT_WR)
                while caller.recv(65536):
                    pass

        answerer = threading.Thread(target=answer)
        answerer.start()
        try:
            yield str(port.getsockname()[1])
        finally:
            port.shutdown(socket.SHUT_RDWR)
            answerer.join()


def ran(program, row):
    """What of a run of the program on a row isn't as wanted."""
    with tempfile.TemporaryDirectory(prefix="thriftd-row-") as held, answering(row.answers) as port:
        # (names that begin with `../` lead no further than the folder that is held)
        folder = os.path.join(held, "in/side/it")
        os.makedirs(folder)
        for name, text in row.files.items():
            path = os.path.join(folder, name)
            os.makedirs(os.path.dirname(path), exist_ok=True)
            with open(path, "wb") as out:
                out.write(text)
        words = [word.replace("$port", port) for word in row.words]
        try:
            done = subprocess.run([program, *words], cwd=folder, input=row.input, capture_output=True, timeout=SECONDS, check=False)
        except subprocess.TimeoutExpired:
            return ["it had not ended after %d seconds" % SECONDS]
    return row.unlike(done.returncode, done.stdout, done.stderr)


def is_file_of_rows(name):
    return name.endswith((".rows", ".py"))


def files_of_rows():
    """The paths of all files of rows."""
    folder = os.path.join(TOP, "rows")
    return sorted(os.path.join(folder, it) for it in os.listdir(folder) if is_file_of_rows(it))


def tests(programs, paths):
    """A test of each row by each program."""
    rows = [row for path in paths for row in rows_of(path)]
    for program in programs:
        name = os.path.basename(program)
        for row in rows:
            yield Test("%s: %s (%s)" % (row.place, row.title, name), functools.partial(ran, program, row))

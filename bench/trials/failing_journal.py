"""`thriftd serve` with a journal of which each line fails in turn, for bench/trials/recorded_runs.py.

The journal's file may have so many bytes, by a limit of the system (RLIMIT_FSIZE), and the limit stands at every few bytes of a run's journal, so that each line is
cut, in front and in the middle. Lines are written once the server's buffer is full, and at its end. Of clients that send all their calls at once each has to get a
beginning of its replies, and all of them where it has ended well; the file has to hold the lines of a legal history and a beginning of one more; status, errors' line
and summary have to be those of docs/RUNNING.md. In `serve` no tape is told, so no more can be judged.
"""
import os
import resource
import signal
import socket
import subprocess
import tempfile
import types

import judge
import rehearsal_model as model

STEP, MOST_SECONDS = 5, 60


def free_port():
    with socket.socket() as s:
        s.bind(("127.0.0.1", 0))
        return s.getsockname()[1]


class Served:
    """What a server came to: its status, what it wrote, its journal's text, and what each client got."""

    def __init__(self, program, journal, workers, clients, limit):
        port = free_port()
        words = [program, "serve", "@tutorial", "binary", str(workers), "Calculator=calculator", "--listen", str(port), "--accept", str(len(clients)), "--journal", journal]

        def limited():
            signal.signal(signal.SIGXFSZ, signal.SIG_IGN)
            resource.setrlimit(resource.RLIMIT_FSIZE, (limit, limit))

        self.run = subprocess.Popen(words, stdout=subprocess.PIPE, stderr=subprocess.PIPE, text=True, preexec_fn=limited)
        self.first, self.port = self.run.stdout.readline(), port
        links = [socket.create_connection(("127.0.0.1", port)) for _ in clients]
        for link, frames in zip(links, clients):
            self.send(link, b"".join(frames))
        try:
            out, self.errors = self.run.communicate(timeout=MOST_SECONDS)
        except subprocess.TimeoutExpired:
            self.run.kill()
            out, self.errors = self.run.communicate()
        self.got = [self.all_of(link) for link in links]
        self.status, self.lines = self.run.returncode, out.splitlines()
        with open(journal, "rb") as text:
            self.journal = text.read()

    def send(self, link, text):
        try:
            link.sendall(text)
            link.shutdown(socket.SHUT_WR)
        except OSError:
            pass

    def all_of(self, link):
        """What has come on a link, up to its end or its fault."""
        got = b""
        with link:
            while True:
                try:
                    text = link.recv(65536)
                except OSError:
                    return got
                if not text:
                    return got
                got += text


def connection(c, frames, entries):
    """A connection that brought these frames, with its entries, the decisions on them and the replies to them."""
    conn = judge.Connection(c, judge.MAX_FRAME)
    conn.pieces, conn.entries = [b"".join(frames)], [entry for entry in entries if entry.c == c]
    conn.marks = [(0, "read", len(conn.pieces[0]))]
    conn.settle()
    return conn


def demand_replies(conn, got, cause):
    """The calls of a client that have a line are the first of its frames'. As far as these tell the replies, it got a beginning of them, or all where it has ended well."""
    count = len(conn.payloads)
    entered = [(entry.i, entry.method, entry.args, entry.silent) for entry in conn.entries]
    asked = judge.called(conn, count)
    judge.demand(entered == asked[:len(entered)], "client %d: its calls aren't those of its first frames", conn.c)
    first_without = asked[len(entered)][0] if len(entered) < len(asked) else count
    told = conn.sent[:conn.sent_ends[first_without]]
    if cause == "End" and first_without == count:
        judge.demand(got == told, "client %d: it has ended well, and got %d bytes of %d", conn.c, len(got), len(told))
    elif cause == "End":
        judge.demand(got.startswith(told), "client %d: it has ended well, and got other bytes than the replies that its lines tell", conn.c)
    else:
        judge.demand(told.startswith(got) or first_without < count and got.startswith(told), "client %d: it got other bytes than a beginning of its replies", conn.c)


def next_lines(clients, entries, memory):
    """The lines that may come behind these entries."""
    for c, frames in enumerate(clients):
        conn = connection(c, frames, entries)
        for i, name, args, silent in judge.called(conn, len(conn.payloads))[len(conn.entries):][:1]:
            yield model.entry_line((c, i, name, args, silent, model.answer(dict(memory), name, args))) + "\n"


def demand_served(served, clients, is_cut):
    """What stands in a server's summary, its journal and its replies is right."""
    judge.demand((served.status, served.errors) == ((9, "thriftd: journal fault\n") if is_cut else (0, "")), "status %s, %r", served.status, served.errors)
    *whole, part = served.journal.decode().split("\n")
    entries = [judge.Entry(line) for line in whole]
    judge.legal_history(types.SimpleNamespace(report=types.SimpleNamespace(journal=entries)))
    memory = {}
    for entry in entries:
        model.answer(memory, entry.method, entry.args)
    judge.demand(not part or any(line.startswith(part) for line in next_lines(clients, entries, memory)), "behind the whole lines: %s", part)
    judge.demand(served.first == "listening 127.0.0.1:%d\n" % served.port, "the first line is %r", served.first)
    asked = sum(len(judge.called(conn, len(conn.payloads))) for conn in (connection(c, frames, entries) for c, frames in enumerate(clients)))
    ends = ["calls %d" % count for count in (range(len(entries), asked + 1) if is_cut else [asked])]
    judge.demand(served.lines[-1:] and served.lines[-1] in ends, "the summary's end is %s, of %d calls, %d of which have a line", served.lines[-1:], asked, len(entries))
    judge.demand(is_cut or len(entries) == asked, "%d calls were asked, and %d have a line", asked, len(entries))
    causes = [line.split(" ", 2) for line in served.lines[:-1]]
    judge.demand([words[:2] for words in causes] == [["conn", str(c)] for c in range(len(causes))], "the summary is %s", served.lines)
    judge.demand(len(causes) == len(clients) or is_cut and len(causes) < len(clients), "%d connections are told", len(causes))
    for c, frames in enumerate(clients):
        cause = causes[c][2] if c < len(causes) else "Stopped"
        judge.demand(cause == "End" or is_cut and cause == "Stopped", "connection %d: %s", c, cause)
        demand_replies(connection(c, frames, entries), served.got[c], cause)


def all_of(runs, clients):
    """Serves these clients with each limit on the journal; their calls' lines are as long in whichever order they come."""
    with tempfile.TemporaryDirectory() as folder:
        journal = os.path.join(folder, "journal")
        whole = Served(runs.program, journal, 4, clients, resource.RLIM_INFINITY)
        size = len(whole.journal)
        steps = list(range(0, size, STEP * (12 if runs.is_quick else 1))) + [size]
        for workers, limit in [(workers, limit) for limit in steps for workers in (4, 0)]:
            served = Served(runs.program, journal, workers, clients, limit)
            try:
                demand_served(served, clients, limit < size)
                found = None
            except judge.Broken as broken:
                found = "a journal of %d bytes: %s" % (limit, broken)
            runs.note(served.journal, "\n".join(served.lines), found, workers)

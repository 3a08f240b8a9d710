#!/usr/bin/env python3
"""What a call costs a server in processor time and system calls: served.py [--rounds N] [--workers 0,4] [--cells 64x1,64x16] [--apache FOLDER] [PROGRAM..]

The load (serve/load.c) calls the tutorial's `add` on C connections with D calls under way on each, a cell CxD, a fixed number of calls a run, at a server that has
lived: 64 connections have come and gone before. Each PROGRAM stands for itself (the one that ./thriftd runs, where none is given), a path or NAME=PATH; beside them
stand Apache's servers: C++ TNonblockingServer, and Java's THsHaServer, TThreadedSelectorServer and TNonblockingServer, as far as thrift, libthrift-dev and
libthrift-java are there. Where they aren't installed but unpacked (`dpkg -x`), FOLDER is where. The servers take turns in each of N rounds. It prints tables in the
form of docs/PERFORMANCE.md: of each cell the median, least and most of the microseconds of a processor that the threads of the server ran for a call, by the nanoseconds
of the scheduler, those of the loop's thread and of the workers for themselves; and of one run more the system calls and switches for a call, by `perf` (left out where
it can't be run).
"""
import argparse
import glob
import os
import re
import shutil
import signal
import socket
import statistics
import subprocess
import sys
import tempfile
import time

HERE = os.path.dirname(os.path.abspath(__file__))
CALLS = {"1x1": 20000, "8x1": 60000, "64x1": 100000, "64x16": 400000}
LIVED = 6400
COUNTED = ["raw_syscalls:sys_enter", "syscalls:sys_enter_futex", "syscalls:sys_enter_sched_yield", "syscalls:sys_enter_sendto", "syscalls:sys_enter_write",
           "syscalls:sys_enter_sendmsg", "syscalls:sys_enter_writev", "syscalls:sys_enter_epoll_wait", "context-switches"]


class Apache:
    """Apache's servers, built in a folder of ours."""

    def __init__(self, root, room):
        self.root, self.room, self.servers = root, room, {}
        self.env = {**os.environ, "PATH": "%s:%s" % (os.path.join(root, "usr/bin"), os.environ["PATH"]), "LD_LIBRARY_PATH": self.under("usr/lib/x86_64-linux-gnu")}
        self.jars = ":".join(self.under("usr/share/java/" + it) for it in ("thrift.jar", "slf4j-api.jar", "geronimo-annotation-1.3-spec.jar"))
        if not shutil.which("thrift", path=self.env["PATH"]):
            print("(there is no thrift here, so no server of Apache's)", flush=True)
            return
        subprocess.run([sys.executable, os.path.join(HERE, "../trials/clients/idl.py"), room], check=True)
        self.build_cpp()
        self.build_java()

    def under(self, path):
        return os.path.join(self.root, path)

    def say(self, *words):
        subprocess.run(words, cwd=self.room, env=self.env, check=True)

    def build_cpp(self):
        if not (shutil.which("g++") and os.path.exists(self.under("usr/include/thrift/server/TNonblockingServer.h"))):
            print("(there is no libthrift-dev here)", flush=True)
            return
        self.say("thrift", "-r", "-gen", "cpp", "tutorial.thrift")
        sources = [it for it in glob.glob(os.path.join(self.room, "gen-cpp/*.cpp")) if "skeleton" not in it]
        self.say("g++", "-O2", "-w", "-Igen-cpp", "-I" + self.under("usr/include"), "-L" + self.under("usr/lib/x86_64-linux-gnu"), "-o", "nonblocking",
                 os.path.join(HERE, "serve/nonblocking.cpp"), *sources, "-lthriftnb", "-lthrift", "-levent")
        self.servers["TNonblockingServer (C++)"] = (0, 4), lambda port, workers: [os.path.join(self.room, "nonblocking"), str(port), str(workers)]

    def build_java(self):
        if not (shutil.which("javac") and os.path.exists(self.under("usr/share/java/thrift.jar"))):
            print("(there is no libthrift-java here)", flush=True)
            return
        self.say("thrift", "-r", "-gen", "java", "tutorial.thrift")
        self.say("javac", "-nowarn", "-d", "classes", "-cp", self.jars, *glob.glob(os.path.join(self.room, "gen-java/*.java")), os.path.join(HERE, "serve/Servers.java"))
        for kind, name, workers in (("hsha", "THsHaServer (Java)", 4), ("selector", "TThreadedSelectorServer (Java)", 4), ("nonblocking", "TNonblockingServer (Java)", 0)):
            self.servers[name] = (workers,), self.java(kind)

    def java(self, kind):
        return lambda port, workers: ["java", "-cp", "%s:%s" % (os.path.join(self.room, "classes"), self.jars), "Servers", kind, str(port), str(workers)]


def ours(program):
    return lambda port, workers: [program, "serve", "@tutorial", "binary", str(workers), "Calculator=calculator", "--listen", str(port), "--accept", "100000", "--journal", "/dev/null"]


def free_port():
    with socket.socket() as s:
        s.bind(("127.0.0.1", 0))
        return s.getsockname()[1]


def listens(port):
    with socket.socket() as s:
        return s.connect_ex(("127.0.0.1", port)) == 0


class Server:
    """A server that has lived."""

    def __init__(self, words, load, env):
        self.port, self.load = free_port(), load
        self.process = subprocess.Popen(words(self.port), stdin=subprocess.DEVNULL, stdout=subprocess.DEVNULL, stderr=subprocess.DEVNULL, env=env)
        for _ in range(200):
            if listens(self.port):
                break
            time.sleep(0.05)
        else:
            sys.exit("served: %s doesn't listen" % words(self.port)[0])
        self.call("64x1", LIVED)

    def call(self, cell, calls, *front):
        connections, depth = cell.split("x")
        told = subprocess.run([*front, self.load, str(self.port), connections, depth, "x%d" % calls], stdout=subprocess.PIPE, stderr=subprocess.PIPE, text=True, check=False)
        if told.returncode:
            sys.exit("served: the load ended with %s" % told.stderr)
        return float(told.stdout.split()[0])

    def ran(self):
        """The nanoseconds that each thread has run."""
        times = {}
        for task in glob.glob("/proc/%d/task/*" % self.process.pid):
            try:
                with open(task + "/schedstat", encoding="ascii") as file:
                    times[int(os.path.basename(task))] = int(file.read().split()[0])
            except OSError:
                pass
        return times

    def timed(self, cell, calls):
        """Microseconds of a call: of all threads, of the first one, of the others; and calls a second."""
        before = self.ran()
        rate = self.call(cell, calls)
        spent = {task: at - before.get(task, 0) for task, at in self.ran().items()}
        first = spent.pop(self.process.pid)
        return [it / calls / 1000 for it in (first + sum(spent.values()), first, sum(spent.values()))] + [rate]

    def counted(self, cell, calls):
        """How often each of COUNTED came for a call; nothing where perf can't tell."""
        with tempfile.NamedTemporaryFile("r") as out:
            try:
                self.call(cell, calls, "perf", "stat", "-x", ",", "-o", out.name, "-e", ",".join(COUNTED), "-p", str(self.process.pid), "--")
            except (OSError, SystemExit):
                return None
            lines = [line.split(",") for line in out if line.count(",") > 3]
        counts = {line[2]: float(line[0]) / calls for line in lines if line[0].replace(".", "").isdigit()}
        return counts if len(counts) == len(COUNTED) else None

    def stop(self):
        self.process.send_signal(signal.SIGKILL)
        self.process.wait()


def spread(figures, form):
    return "%s (%s to %s)" % tuple(form % it for it in (statistics.median(figures), min(figures), max(figures)))


def tell_times(cell, figures):
    print("\n| %s | us a call | loop | workers | calls a second |\n|---|---|---|---|---|" % cell)
    for name, rows in figures.items():
        columns = list(zip(*rows))
        parts = [spread(columns[0], "%.2f")] + ["%.2f" % statistics.median(it) for it in columns[1:3]] + [spread(columns[3], "%.0f")]
        print("| %s | %s |" % (name, " | ".join(parts)), flush=True)


def tell_counts(cell, counts):
    if not any(counts.values()):
        return
    print("\n| %s, a call | system calls | futex | sched_yield | sends | epoll_wait | switches |\n|---|---|---|---|---|---|---|" % cell)
    for name, told in counts.items():
        if told:
            sends = sum(told["syscalls:sys_enter_" + it] for it in ("sendto", "write", "sendmsg", "writev"))
            row = [told["raw_syscalls:sys_enter"], told["syscalls:sys_enter_futex"], told["syscalls:sys_enter_sched_yield"], sends, told["syscalls:sys_enter_epoll_wait"],
                   told["context-switches"]]
            print("| %s | %s |" % (name, " | ".join("%.2f" % it for it in row)), flush=True)


def measure(kinds, cell, rounds, load, env):
    calls = CALLS.get(cell, 60000)
    figures, counts = {name: [] for name, _ in kinds}, {}
    for turn in range(rounds + 1):
        for name, words in kinds:
            server = Server(words, load, env)
            if turn < rounds:
                figures[name].append(server.timed(cell, calls))
            else:
                counts[name] = server.counted(cell, calls)
            server.stop()
    tell_times(cell, figures)
    tell_counts(cell, counts)


def main():
    words = argparse.ArgumentParser(description=__doc__, formatter_class=argparse.RawDescriptionHelpFormatter)
    words.add_argument("--rounds", type=int, default=5)
    words.add_argument("--workers", default="0,4")
    words.add_argument("--cells", default="1x1,8x1,64x1,64x16")
    words.add_argument("--apache", default="/")
    words.add_argument("programs", nargs="*")
    said = words.parse_args()
    programs = said.programs
    if not programs:
        found = subprocess.run([os.path.join(HERE, "../../thriftd")], env={**os.environ, "THRIFTD_PATH_ONLY": "1"}, stdout=subprocess.PIPE, text=True, check=True)
        programs = ["thriftd=" + found.stdout.strip()]
    with tempfile.TemporaryDirectory() as room:
        load = os.path.join(room, "load")
        subprocess.run(["gcc", "-O2", "-o", load, os.path.join(HERE, "serve/load.c")], check=True)
        apache = Apache(said.apache, room)
        for workers in map(int, said.workers.split(",")):
            kinds = [(re.sub("=.*", "", it), lambda port, of=ours(re.sub("^[^=]*=", "", it)): of(port, workers)) for it in programs]
            kinds += [(name, lambda port, of=of: of(port, workers)) for name, (sorts, of) in apache.servers.items() if workers in sorts]
            for cell in said.cells.split(","):
                print("\n%d workers" % workers)
                measure(kinds, cell, said.rounds, load, apache.env)


if __name__ == "__main__":
    main()

#!/usr/bin/env python3
"""Whether a job is left while workers sleep, or waits behind a call while a worker is free: waking.py [SECONDS [SEED [FOLDER]]]

No clause speaks of who wakes whom. So the program is built without proofs, with delays of changing length between the steps of the door and of the links' bell, and
with a gate that delays each job before it is decided and after it is put, those of connection 0 by a tenth of a second and more. It serves with 1 to 8 workers, 1 to
64 connections and 1 to 5 calls under way on each, in bursts with pauses of up to 2 ms, on all processors and on two. A burst that isn't answered within 20 seconds in
which the server's threads ran or waited for a processor for less than one, or within 300, is a stall. Beside the bursts connection 0 makes its long calls one after
another: with two workers or more the bursts may not wait for these, as their median tells. The
script runs so many seconds (600), prints a line for each server, and ends with status 1 at the first stall. FOLDER keeps the program for the next run."""
import glob
import os
import random
import re
import select
import shutil
import socket
import statistics
import struct
import subprocess
import sys
import tempfile
import threading
import time

import unproved

# About a tenth of a second and more. (Without proofs `spin_loop` is nothing, and a loop of it is left out: so the delays step a word of their own.)
LONG = 20_000_000
GATE = """/// Delays each job.
struct SlowGate;

/// Delays by so many steps.
fn delay(steps: u64) {
    let word = std::sync::atomic::AtomicU64::new(0);
    for _ in 0..steps {
        word.fetch_add(1, std::sync::atomic::Ordering::SeqCst);
    }
}

impl outside::Gate for SlowGate {
    fn pass<R: Wait>(&self, _rt: &R, c: u32, i: u64) {
        delay(if c == 0 { %d } else { i.wrapping_mul(7919).wrapping_add(u64::from(c) * 977) %% 3001 });
    }

    fn done<R: Wait>(&self, _rt: &R, c: u32, i: u64) {
        delay(i.wrapping_mul(31).wrapping_add(u64::from(c) * 7) %% 501);
    }
}

fn main(""" % LONG
CHANGES = [("fn main(", GATE), ("use outside::EmptyGate;\n", ""), ("&EmptyGate,", "&SlowGate,")]
# Behind each step on a word of these files stands a delay, of another length each time.
DELAYED = ["hall_pool/src/door.rt", "net_links/src/signal.rt"]
DELAY = """
/// Delays, by another length each time.
fn delay(delays: &AtomicU64) {
    let turn = delays.fetch_add(1, Ordering::SeqCst);
    for _ in 0..turn.wrapping_mul(0x9E3779B97F4A7C15) >> 54 {
        delays.load(Ordering::SeqCst);
    }
}
"""


def delayed(tree):
    """Puts delays into the files of a copied tree."""
    for name in DELAYED:
        path = os.path.join(tree, "crates", name)
        with open(path, encoding="utf-8") as file:
            text = file.read()
        text = re.sub(r"^((?:pub|pub\(crate\)) struct (?:Door|Signal) \{)$", r"\1\n    delays: AtomicU64,", text, flags=re.M)
        text = re.sub(r"^( +(?:Door|Signal) \{)$", r"\1\n            delays: AtomicU64::new(0),", text, flags=re.M).replace("::{AtomicBool, Ordering}", "::{AtomicBool, AtomicU64, Ordering}")
        text, count = re.subn(r"^( +)(self\.\w+\.(?:fetch_add|fetch_sub|store)\(.*\);)$", r"\1\2\n\1delay(&self.delays);", text, flags=re.M)
        if not count:
            sys.exit("waking: there is no step in %s" % name)
        with open(path, "w", encoding="utf-8") as file:
            file.write(text + DELAY)


def program(folder):
    """The program in this folder, which is built where it isn't there."""
    built = os.path.join(folder, "thriftd")
    if os.path.exists(built):
        return built
    plain = unproved.copied_tree

    def copied_tree(to, changes):
        tree = plain(to, changes)
        delayed(tree)
        return tree

    unproved.copied_tree = copied_tree
    unproved.module_of(folder, CHANGES)
    return unproved.linked(folder)


def call(number):
    body = struct.pack(">II3si", 0x80010001, 3, b"add", number) + b"\x08\x00\x01" + struct.pack(">i", number) + b"\x08\x00\x02" + struct.pack(">i", 7) + b"\x00"
    return struct.pack(">I", len(body)) + body


REPLY = 27


class Link:
    def __init__(self, port):
        self.socket, self.number, self.left = socket.create_connection(("127.0.0.1", port)), 0, 0
        self.socket.setsockopt(socket.IPPROTO_TCP, socket.TCP_NODELAY, 1)

    def ask(self, count):
        self.socket.sendall(b"".join(call(self.number + k) for k in range(count)))
        self.number += count
        self.left += count * REPLY

    def take(self, limit):
        """Whether all replies come in time. Where they don't, it can be asked again."""
        end = time.monotonic() + limit
        while self.left:
            if not select.select([self.socket], [], [], max(0, end - time.monotonic()))[0]:
                return False
            came = len(self.socket.recv(self.left))
            if not came:
                return False
            self.left -= came
        return True


def busy(server):
    """The seconds for which the server's threads have run or waited for a processor."""
    total = 0
    for task in glob.glob("/proc/%d/task/*/schedstat" % server.pid):
        with open(task, encoding="ascii") as file:
            total += sum(map(int, file.read().split()[:2]))
    return total / 1e9


def answered_in_time(server, link):
    """Whether all replies come before the server has stood still for long. (On a loaded machine long calls take their time.)"""
    for _ in range(15):
        before = busy(server)
        if link.take(20):
            return True
        if busy(server) - before < 1:
            return False
    return False


def bursts(server, links, random_of, end):
    """The seconds of each burst, and whether all were answered."""
    times = []
    while time.monotonic() < end:
        some, depth, start = random_of.sample(links, random_of.randint(1, len(links))), random_of.randint(1, 5), time.monotonic()
        for link in some:
            link.ask(depth)
        for link in some:
            if not answered_in_time(server, link):
                return times, False
        times.append(time.monotonic() - start)
        if random_of.random() < 0.7:
            time.sleep(random_of.random() * 0.002)
    return times, True


def keep_calling(link, going):
    while going.is_set() and link.socket.fileno() >= 0:
        try:
            link.ask(1)
            if not link.take(300):
                return
        except OSError:
            # (the server has been stopped)
            return


def serve(built, workers, connections, processors, random_of, seconds):
    with socket.socket() as s:
        s.bind(("127.0.0.1", 0))
        port = s.getsockname()[1]
    words = ["taskset", "-c", ",".join(map(str, processors)), built, "serve", "@tutorial", "binary", str(workers), "Calculator=calculator", "--listen", str(port), "--accept", "1000", "--journal", "/dev/null"]
    with subprocess.Popen(words, stdout=subprocess.PIPE, stdin=subprocess.DEVNULL) as server:
        server.stdout.readline()
        slow, going = Link(port), threading.Event()
        links = [Link(port) for _ in range(connections)]
        going.set()
        beside = threading.Thread(target=keep_calling, args=(slow, going), daemon=True)
        beside.start()
        times, answered = bursts(server, links, random_of, time.monotonic() + seconds)
        going.clear()
        server.kill()
    beside.join()
    told = "half of them within %.1f ms, the longest %.0f ms" % (statistics.median(times) * 1000, max(times) * 1000) if times else "none ended"
    print("%d workers, %d connections, %d processors: %d bursts, %s%s" % (workers, connections, len(processors), len(times), told, "" if answered else ": STALLED"), flush=True)
    return answered


def main(seconds="600", seed="1", folder=None):
    random_of, end = random.Random(int(seed)), time.monotonic() + float(seconds)
    room = folder or tempfile.mkdtemp()
    try:
        os.makedirs(room, exist_ok=True)
        built, all_of = program(room), sorted(os.sched_getaffinity(0))
        end += time.monotonic() - (end - float(seconds))
        while time.monotonic() < end:
            processors = all_of if random_of.random() < 0.6 else all_of[:2]
            if not serve(built, random_of.randint(1, 8), random_of.choice([1, 2, 4, 8, 16, 63]), processors, random_of, min(10, float(seconds))):
                sys.exit(1)
    finally:
        if not folder:
            shutil.rmtree(room)


if __name__ == "__main__":
    main(*sys.argv[1:])

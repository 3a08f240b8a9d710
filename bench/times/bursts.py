#!/usr/bin/env python3
"""What `serve` keeps of memory after bursts of calls: bursts.py [PROGRAM [CONNECTIONS [BURSTS]]]

So many connections (1,000) are opened, each sends a call of the tutorial's `add`, and once all are answered they are closed; so many times (30), with 0, 2 and 8
workers. It prints the server's memory in kilobytes at its start, after the first burst and after the last."""
import os
import resource
import socket
import struct
import subprocess
import sys
import time

HERE = os.path.dirname(os.path.abspath(__file__))
BODY = struct.pack(">II3si", 0x80010001, 3, b"add", 1) + b"\x08\x00\x01\x00\x00\x00\x01\x08\x00\x02\x00\x00\x00\x02\x00"
CALL, REPLY = struct.pack(">I", len(BODY)) + BODY, 27


def memory(process):
    with open("/proc/%d/status" % process.pid, encoding="ascii") as file:
        return next(int(line.split()[1]) for line in file if line.startswith("VmRSS"))


def burst(port, connections):
    links = [socket.create_connection(("127.0.0.1", port)) for _ in range(connections)]
    for link in links:
        link.sendall(CALL)
    for link in links:
        left = REPLY
        while left:
            came = len(link.recv(left))
            if not came:
                sys.exit("bursts: a connection was closed")
            left -= came
        link.close()


def main(program=None, connections="1000", bursts="30"):
    if program is None:
        found = subprocess.run([os.path.join(HERE, "../../thriftd")], env={**os.environ, "THRIFTD_PATH_ONLY": "1"}, stdout=subprocess.PIPE, text=True, check=True)
        program = found.stdout.strip()
    most = resource.getrlimit(resource.RLIMIT_NOFILE)[1]
    resource.setrlimit(resource.RLIMIT_NOFILE, (most, most))
    for workers in (0, 2, 8):
        with socket.socket() as s:
            s.bind(("127.0.0.1", 0))
            port = s.getsockname()[1]
        words = [program, "serve", "@tutorial", "binary", str(workers), "Calculator=calculator", "--listen", str(port), "--accept", "1000000", "--journal", "/dev/null"]
        with subprocess.Popen(words, stdout=subprocess.PIPE) as server:
            server.stdout.readline()
            seen = [memory(server)]
            for _ in range(int(bursts)):
                burst(port, int(connections))
                seen.append(memory(server))
            time.sleep(0.5)
            print("%d workers: %d KB at the start, %d after the first burst, %d after the last" % (workers, seen[0], seen[1], memory(server)), flush=True)
            server.kill()


if __name__ == "__main__":
    main(*sys.argv[1:])

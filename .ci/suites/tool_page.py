"""The suite `tool_page`: each command of docs/TOOLS.md prints what stands there.

The blocks that begin with a tool, or with a file that is made for one, are commands, but for those that only show the
words: these have a word in capitals. What one prints is the block behind it, or stands in front of it as `this prints
..`. They run in a folder of their own, beside a server that the page starts, and with a free port for each of two;
where one sleeps until a tap listens, it is waited for."""
import functools
import os
import re
import subprocess
import tempfile

from screen import PORT, free_port, served
from suite import SECONDS, TOP, Test, Unfit
from tool_run import demand, settings

TAP_PORT, SLEEP, LISTENS = "9091", "sleep 1\n", "until [ -e session.script ]; do sleep 0.05; done\n"
BLOCK = re.compile(r"(?:this prints `([^`]*)`:\n\n)?^```\n(.*?)^```$", re.MULTILINE | re.DOTALL)


def is_command(block):
    return block.startswith(("tools/", "printf ", "sed ")) and not re.match(r"tools/\w+( --?\w+)* \[?[A-Z]{3,}", block)


def commands(text):
    """The page's commands, each with what it prints."""
    blocks = BLOCK.findall(text)
    for (said, block), (_, behind) in zip(blocks, [*blocks[1:], ("", "")]):
        if is_command(block):
            yield block, said + "\n" if said else behind


def page(program):
    with open(os.path.join(TOP, "docs/TOOLS.md"), encoding="utf-8") as it:
        text = it.read()
    port = free_port()
    tap_port = next(it for it in iter(free_port, None) if it != port)
    text = text.replace(PORT, port).replace(TAP_PORT, tap_port).replace(SLEEP, LISTENS)
    found = list(commands(text))
    server = next((block for _, block in BLOCK.findall(text) if block.startswith("./thriftd serve")), None)
    if server is None or len(found) < 5:
        raise Unfit("docs/TOOLS.md has no server, or fewer than five commands")
    with tempfile.TemporaryDirectory(prefix="thriftd-page-") as folder:
        for name in ("tools", "examples"):
            os.symlink(os.path.join(TOP, name), os.path.join(folder, name))
        with served(server, program, folder) as running:
            running.stdout.readline()
            for block, wanted in found:
                command = ["bash", "-c", block]
                streams = {"stdout": subprocess.PIPE, "stderr": subprocess.STDOUT, "stdin": subprocess.DEVNULL}
                env = settings(program)
                done = subprocess.run(command, cwd=folder, env=env, text=True, timeout=SECONDS, check=False, **streams)
                demand(done.stdout == wanted, "%s prints %r, and not %r", block.strip(), done.stdout[-400:], wanted)


def tests(programs):
    for program in programs:
        yield Test("docs/TOOLS.md (%s)" % os.path.basename(program), functools.partial(page, program))

"""Runs the tools of tools/ as their tests do: by a program, as processes."""
import json
import os
import subprocess
import sys

from suite import SECONDS, TOP, Found


def settings(program):
    """The environment of a tool that is to run this program, and to build none."""
    return {**os.environ, "THRIFTD": program, "THRIFTD_NO_BUILD": "1"}


def ran(program, name, *words, given=b"", cwd=TOP):
    """How a tool ends on these words and this input: its status, its output and its errors."""
    command = [os.path.join(TOP, "tools", name), *words]
    done = subprocess.run(
        command, input=given, cwd=cwd, env=settings(program), capture_output=True, timeout=SECONDS, check=False
    )
    return done.returncode, done.stdout.decode("utf-8"), done.stderr.decode("utf-8")


def ran_all(program, name, runs, cwd=TOP):
    """How a tool ends on the words and the input of each of these runs, which is quicker than one by one."""
    given = json.dumps([(words, given.decode("latin-1")) for words, given in runs])
    command = [sys.executable, os.path.join(TOP, ".ci/suites/tool_many.py"), name]
    done = subprocess.run(
        command,
        input=given,
        cwd=cwd,
        env=settings(program),
        capture_output=True,
        text=True,
        timeout=SECONDS,
        check=False,
    )
    demand(done.returncode == 0, "tool_many.py ended with status %d: %s", done.returncode, done.stderr[-600:])
    return json.loads(done.stdout)


def demand(holds, what, *parts):
    if not holds:
        raise Found(what % parts)


def wants(ended, status, output=None, errors=""):
    """A tool has to have ended so: with this output, where one is said, and one line of errors that holds this text,
    or none where the text is empty."""
    demand(ended[0] == status, "status %d, not %d, with %r", ended[0], status, ended[1:])
    if output is not None:
        demand(ended[1] == output, "it writes %r, and not %r", ended[1][-600:], output[-600:])
    demand(errors in ended[2], "its errors are %r, without %r", ended[2][-600:], errors)
    demand(ended[2].count("\n") == bool(errors), "its errors are %r, and no single line", ended[2][-600:])

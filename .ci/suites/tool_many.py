"""Runs a tool many times, each in a process of its own that needn't begin anew: tool_many.py NAME < RUNS

RUNS is JSON, of each run its words and its input; written is, in that order, the status, output and errors of each."""
import importlib.machinery
import importlib.util
import json
import os
import sys
import tempfile

TOOLS = os.path.join(os.path.dirname(os.path.abspath(__file__)), "../../tools")


def loaded(name):
    """The module that a tool is."""
    loader = importlib.machinery.SourceFileLoader(name, os.path.join(TOOLS, name))
    module = importlib.util.module_from_spec(importlib.util.spec_from_loader(name, loader))
    loader.exec_module(module)
    return module


def run(module, name, words, given):
    """Runs a tool on these words in a process that is like this one."""
    with tempfile.TemporaryFile() as stdin, tempfile.TemporaryFile() as stdout, tempfile.TemporaryFile() as stderr:
        stdin.write(given.encode("latin-1"))
        stdin.seek(0)
        child = os.fork()
        if child == 0:
            for number, stream in enumerate((stdin, stdout, stderr)):
                os.dup2(stream.fileno(), number)
            sys.argv = [name, *words]
            module.run_tool(name, module.main)
        status = os.waitstatus_to_exitcode(os.waitpid(child, 0)[1])
        for stream in (stdout, stderr):
            stream.seek(0)
        return status, stdout.read().decode("utf-8"), stderr.read().decode("utf-8")


def main():
    sys.dont_write_bytecode = True
    sys.path.insert(0, TOOLS)
    module = loaded(sys.argv[1])
    runs = json.loads(sys.stdin.read())
    # (what a child finds of these streams is its own)
    out = os.fdopen(os.dup(1), "w", encoding="utf-8")
    json.dump([run(module, sys.argv[1], words, given) for words, given in runs], out)
    out.close()


if __name__ == "__main__":
    main()

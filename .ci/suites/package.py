"""The suite `package`: bench/package makes a Debian package of the program in dist/, and what it installs does as
README.md's first screen says.

It is installed into a folder by `dpkg --root`, or unpacked there where that takes another user. The program is the one
that dist/ packs, whatever sources it is of."""
import functools
import gzip
import hashlib
import os
import re
import shutil
import subprocess
import tempfile
import threading

import screen
from suite import SECONDS, TOP, Found, LeftOut, Test

SHARED = "usr/share/doc/thriftd"


def text_of(path):
    with open(os.path.join(TOP, path), encoding="utf-8") as held:
        return held.read()


def want(what, got, wanted):
    if got != wanted:
        raise Found("%s: %r, not %r" % (what, got, wanted))


def ran(words, **streams):
    """What a command prints, which has to end with status 0 and nothing on standard error."""
    done = subprocess.run(words, capture_output=True, text=True, timeout=SECONDS, check=False, **streams)
    want("status and errors of %s" % words[0], (done.returncode, done.stderr), (0, ""))
    return done.stdout


def settings():
    """An environment in which nothing names a program."""
    kept = {name: value for name, value in os.environ.items() if not name.startswith("THRIFTD")}
    return {**kept, "THRIFTD_NO_BUILD": "1", "PATH": os.environ["PATH"] + ":/usr/sbin:/sbin"}


def made(folder):
    """The package, and what bench/package says of it."""
    if not shutil.which("dpkg-deb"):
        raise LeftOut("the package, for which there is no dpkg-deb")
    said = ran([os.path.join(TOP, "bench/package"), folder], env=settings())
    return os.path.join(folder, "thriftd_%s_amd64.deb" % text_of("VERSION").strip()), said


LOCK = threading.Lock()


@functools.lru_cache(maxsize=None)
def shelf():
    """A folder for all tests, which goes as the suite ends."""
    return tempfile.TemporaryDirectory(prefix="thriftd-package-")


def installed():
    """The folder into which the package is installed, once for all tests."""
    with LOCK:
        root = os.path.join(shelf().name, "root")
        if not os.path.exists(root):
            install(made(shelf().name)[0], root)
        return root


def install(package, root):
    """Installs a package into a folder."""
    os.makedirs(os.path.join(root, "var/lib/dpkg/info"))
    os.makedirs(os.path.join(root, "var/lib/dpkg/updates"))
    with open(os.path.join(root, "var/lib/dpkg/status"), "w", encoding="utf-8"):
        pass
    if os.getuid() == 0 and shutil.which("dpkg"):
        words = ["dpkg", "--root=" + root, "--log=/dev/null", "--force-depends", "--install", package]
        done = subprocess.run(
            words,
            env=settings(),
            stdout=subprocess.PIPE,
            stderr=subprocess.STDOUT,
            text=True,
            timeout=SECONDS,
            check=False,
        )
        want("dpkg --install: %s" % done.stdout[-400:], done.returncode, 0)
    else:
        ran(["dpkg-deb", "--extract", package, root])


def first_screen(client, folder):
    """The first screen, by the script and the program that are installed."""
    root = installed()
    start = screen.Start(os.path.join(root, "usr/bin/thriftd"), os.path.join(root, SHARED, "examples"), settings())
    screen.session(screen.first_screen(), client, start)


def contents(folder):
    """What the package says of itself, and that it has the program of dist/."""
    package, said = made(folder)
    version, glibc = text_of("VERSION").strip(), re.search(r"glibc (\d[\d.]*\d) or later", text_of("README.md"))[1]
    fields = dict(re.findall(r"^ ?([A-Z][\w-]*): (.*)$", ran(["dpkg-deb", "--field", package]), re.MULTILINE))
    want("the version", fields["Version"], version)
    want("the needed glibc", re.findall(r"libc6 \(>= ([\d.]+)\)", fields["Depends"]), [glibc])
    want("what is said of it", said, "%s: it needs glibc %s or later, on Linux on x86-64\n" % (package, glibc))
    with open(os.path.join(installed(), "usr/lib/thriftd/program"), "rb") as program:
        digest = hashlib.sha256(program.read()).hexdigest()
    want("the program's digest", digest, re.search("^program (.*)$", text_of("dist/PROGRAM"), re.MULTILINE)[1])
    want("owners", {it.split()[1] for it in ran(["dpkg-deb", "--contents", package]).splitlines()}, {"root/root"})


def same_bytes(folder):
    """Another run makes the same package."""
    installed()
    digests, other = [], made(folder)[0]
    for path in (os.path.join(shelf().name, os.path.basename(other)), other):
        with open(path, "rb") as package:
            digests.append(hashlib.sha256(package.read()).hexdigest())
    want("another package", digests[1], digests[0])


def help_and_tools(folder):
    """Help, version and tools of what is installed, and the page for man."""
    root = installed()
    script = os.path.join(root, "usr/bin/thriftd")
    want("version", ran([script, "version"], env=settings()).split("\n")[0], "thriftd " + text_of("VERSION").strip())
    overview = ran([script, "help"], env=settings())
    commands = re.findall(r"^thriftd ([a-z]+) [A-Z]", overview, re.MULTILINE)
    tools = re.findall(r"^  (\w+)  ", overview, re.MULTILINE)
    want("commands and tools", (bool(commands), bool(tools)), (True, True))
    for name in tools:
        ran([script, name, "--help"], env=settings())
    shown = ran(
        [script, "json", os.path.join(root, SHARED, "examples/ping.report"), "--idl", "@tutorial"], env=settings()
    )
    want("a line of json", '"ping"' in shown, True)
    documents = {re.search(r"(\S+) says more", ran([script, "help", name], env=settings()))[1] for name in commands}
    want("documents that there aren't", [it for it in documents if not os.path.isfile(it)], [])
    with gzip.open(os.path.join(root, "usr/share/man/man1/thriftd.1.gz"), "rt", encoding="utf-8") as held:
        page = held.read().replace("\\-", "-").replace("\\(aq", "'").replace("\\e", "\\")
    for name in commands:
        for line in ran([script, "help", name], env=settings()).split("\n"):
            for part in (
                (line[:20].strip(), line[20:].strip())
                if line.startswith("  ") and not line.startswith("  thriftd ")
                else ()
            ):
                if part not in page:
                    yield "the page for man hasn't %r of %s" % (part, name)
    yield from ("the page for man hasn't the tool %s" % it for it in tools if ".B thriftd %s\n" % it not in page)
    if shutil.which("man") and shutil.which("groff"):
        plain = {**settings(), "LC_ALL": "C.UTF-8", "MANWIDTH": "100"}
        ran(
            ["man", "--warnings", "-l", os.path.join(root, "usr/share/man/man1/thriftd.1.gz")],
            env=plain,
            stdin=subprocess.DEVNULL,
        )


COMPLETED = {
    "thriftd ser": {"serve"},
    "thriftd help com": {"compat"},
    "thriftd serve @tutorial b": {"binary"},
    "thriftd serve @tut": {"@tutorial"},
    "thriftd serve a binary ": set("012345678"),
    "thriftd serve a binary 0 A = st": {"store"},
    "thriftd serve a --": {"--listen", "--accept", "--journal", "--max-frame", "--read-budget", "--default"},
    "thriftd call a binary N m {} --t": {"--to"},
    "thriftd st": {"stop"},
    "thriftd check a.th": {"a.thrift"},
}


def completions(folder):
    """Bash completes words by the file that is installed."""
    path = os.path.join(installed(), "usr/share/bash-completion/completions/thriftd")
    with open(os.path.join(folder, "a.thrift"), "w", encoding="utf-8"):
        pass
    for line, wanted in COMPLETED.items():
        words = [
            '. "$0"; COMP_WORDS=("$@"); COMP_CWORD=$(($# - 1)); _thriftd; printf "%s\\n" "${COMPREPLY[@]}"',
            path,
            *line.split(" "),
        ]
        want(line, set(ran(["bash", "-c", *words], cwd=folder).split()), wanted)


def within(case):
    with tempfile.TemporaryDirectory(prefix="thriftd-package-") as folder:
        return list(case(folder) or [])


def tests():
    """A test of each case."""
    cases = [functools.partial(first_screen, client) for client in (screen.called_by_bytes, screen.called_by_library)]
    cases += [contents, same_bytes, help_and_tools, completions]
    names = [
        "first screen, called by bytes",
        "first screen, called by library",
        "contents",
        "same bytes",
        "help and tools",
        "completions",
    ]
    return [Test(name, functools.partial(within, case)) for name, case in zip(names, cases)]

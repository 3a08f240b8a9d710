"""The suite `start`: what the script thriftd does before and behind the program.

It prints help, tells what is wrong with words, runs tools, holds a server's journal, and unpacks the program where it
may. What it says of words is compared with the program: on those of rows/, and on good ones that are spoilt at
random."""
import contextlib
import functools
import glob
import gzip
import hashlib
import os
import random
import re
import shlex
import signal
import subprocess
import tempfile

import rows
from scripts import RIGHT, Place
from screen import free_port
from suite import SECONDS, TOP, Found, Test

SCRIPT = os.path.join(TOP, "thriftd")
TABLE = os.path.join(TOP, "tools/help/commands")
# Reads lists of words, each with their number in front and a NUL behind each, and prints of each what is wrong.
JUDGE = """
. tools/help/words.bash && read_commands tools/help/commands
while IFS= read -r -d '' count; do
  words=()
  while [ ${#words[@]} -lt "$count" ]; do IFS= read -r -d '' word && words+=("$word"); done
  if [ "$count" -gt 0 ]; then look_at_words "${words[@]}"; else fault=none; fi
  printf '%s\\0' "$fault"
done"""
GOOD = [
    "check a",
    "compat a b",
    "call a binary N m {} --to 1 --multiplexed",
    "serve a compact 2 A=store B=mirror --listen 9090 --accept 10 --journal j --default A",
    "rehearse a binary 0 A=calculator --max-frame 30 --read-budget 31",
    "record a binary 8 A=store --read-budget=16384000",
    "workload 1 1 0",
]
SPOILT = [
    "",
    "-",
    "--",
    "0",
    "9",
    "65536",
    "1000001",
    "00000000001",
    "A=B=store",
    "=store",
    "binary",
    "json",
    "--to",
    "--default=x",
    "--max-frame=0",
    "x",
]
SERVE = "serve @tutorial binary 0 Calculator=calculator --accept 1 --listen "
CALL = "call @tutorial binary Calculator add {1=1i,2=1i} --to "


def settings(**changed):
    kept = {name: value for name, value in os.environ.items() if not name.startswith(("THRIFTD", "XDG_"))}
    return {**kept, "THRIFTD_NO_BUILD": "1", **changed}


def ran(words, program=None, cwd=TOP, **changed):
    """A run of the script, with a program that is named or without."""
    named = {"THRIFTD": program} if program else {}
    return subprocess.run(
        [SCRIPT, *words],
        cwd=cwd,
        env=settings(**named, **changed),
        stdin=subprocess.DEVNULL,
        capture_output=True,
        text=True,
        timeout=SECONDS,
        check=False,
    )


def want(what, got, wanted):
    if got != wanted:
        raise Found("%s: %r, not %r" % (what, got, wanted))


def table(key):
    """What stands behind this word in the table's lines."""
    with open(TABLE, encoding="utf-8") as lines:
        return [line.strip().partition(" ")[2] for line in lines if line.strip().startswith(key + " ")]


def commands():
    return [line.split()[0] for line in table("command")]


def faults(lists):
    """What the script finds wrong with each of these lists of words."""
    given = b"".join(b"%d\0" % len(words) + b"".join(word.encode() + b"\0" for word in words) for words in lists)
    done = subprocess.run(
        ["bash", "-euo", "pipefail", "-c", "top=$PWD\n" + JUDGE],
        cwd=TOP,
        input=given,
        stdout=subprocess.PIPE,
        timeout=SECONDS,
        check=False,
    )
    found = done.stdout.decode().split("\0")[:-1]
    want("lists of words that were looked at", len(found), len(lists))
    return found


def words_of_rows():
    """Each row's words are wrong exactly where the row says so."""
    every = {
        tuple(it.replace("$port", "1") for it in row.words): row.status == 1
        for path in rows.files_of_rows()
        for row in rows.rows_of(path)
    }
    for (words, is_wrong), fault in zip(every.items(), faults(list(every))):
        if bool(fault) != is_wrong:
            yield "%s: %s" % (shlex.join(words), fault or "nothing is wrong")


def spoilt(pick):
    words = pick.choice(GOOD).split()
    for _ in range(pick.randint(0, 2)):
        at = pick.randrange(len(words))
        words[at : at + pick.randint(0, 1)] = pick.choice(
            [[], [pick.choice(SPOILT)], [words[at], words[at]], [pick.choice(words)]]
        )
        words = words or ["check"]
    return tuple(words)


def spoilt_words(program):
    """The same of random words, by what the program says of them where no file is there."""
    pick = random.Random(7)
    lists = sorted({spoilt(pick) for _ in range(400)})
    with tempfile.TemporaryDirectory(prefix="thriftd-start-") as folder:
        for words, fault in zip(lists, faults(lists)):
            done = subprocess.run(
                [program, *words],
                cwd=folder,
                stdin=subprocess.DEVNULL,
                capture_output=True,
                timeout=SECONDS,
                check=False,
            )
            if bool(fault) != (done.returncode == 1):
                yield "%s: %s, and the program's status is %d" % (
                    shlex.join(words),
                    fault or "nothing is wrong",
                    done.returncode,
                )


LINES = {
    "chek a": "chek is no command: did you mean check?",
    "check": "IDL is missing",
    "check a b": "b is a word too many",
    "compat ''": "OLD is empty",
    "rehearse a binay 0 A=store": "PROTOCOL is binary or compact, not binay: did you mean binary?",
    "rehearse a binary 9 A=store": "WORKERS is a number from 0 to 8, not 9",
    "rehearse a binary 0 A": "A is no NAME=KIND",
    "rehearse a binary 0 A=stor": "A=stor: KIND is calculator, store or mirror: did you mean store?",
    "rehearse a binary 0 A=store --max-fram 3": "--max-fram is no option of rehearse: did you mean --max-frame?",
    "rehearse a binary 0 A=store --max-frame 0": "--max-frame is a number from 1 to 268,435,456, not 0",
    "rehearse a binary 0 A=store --read-budget 9": "--read-budget is less than --max-frame, which is 16384000",
    "call a binary N m {}": "--to is missing",
    "call a binary N m {} --to": "--to lacks its value",
    "call a binary N m {} --to 1 --to 2": "--to stands twice",
    "call a binary N m {} --to 1 --multiplexed=1": "--multiplexed takes no value",
    "serve a binary 0 A=store --listen 1 --journal j": "--accept is missing",
    "workload x 1 0": "SEED is a number of at most 19 digits, not x",
    "$'check\\n'": "$'check\\n' is no command: did you mean check?",
}


def lines_of_use(program):
    """The program's line is the first, then come what is wrong and the line of use."""
    uses = {line.split()[0]: line for line in table("command")}
    for text, fault in LINES.items():
        words = subprocess.run(
            ["bash", "-c", "printf '%s\\0' " + text], stdout=subprocess.PIPE, text=True, check=True
        ).stdout.split("\0")[:-1]
        done = ran(words, program)
        use = uses.get(words[0], "COMMAND ..: thriftd help lists them")
        want(text, (done.returncode, done.stdout), (1, ""))
        want(text, done.stderr, "thriftd: usage\nthriftd: %s\nuse: thriftd %s\n" % (fault, use))


def no_words(program):
    done = ran([], program)
    want("without words", (done.returncode, done.stdout, done.stderr), (1, "", "thriftd: usage\n"))


def help_of(words):
    done = ran(words)
    want(" ".join(words), (done.returncode, done.stderr), (0, ""))
    return done.stdout


def pages():
    """Help needs no program, and has each fact of the table."""
    overview = help_of(["help"])
    for words in (["--help"], ["-h"]):
        want(" ".join(words), help_of(words), overview)
    for line, does in zip(table("command"), table("does")):
        name = line.split()[0]
        page = help_of(["help", name])
        if "thriftd %s\n    %s\n" % (line, does) not in overview:
            yield "help doesn't tell of %s" % name
        if not page.startswith("thriftd %s\n\n%s\n" % (line, does)):
            yield "the page of %s begins %r" % (name, page[:80])
        for words in ([name, "--help"], [name, "-h"], ["--help", name]):
            want(" ".join(words), help_of(words), page)
        for option in re.findall(r"--[a-z-]+", line):
            if not re.search(r"^  %s .*\S" % option, page, re.MULTILINE):
                yield "the page of %s doesn't tell of %s" % (name, option)
    want(
        "help for what there isn't",
        (ran(["help", "serv"]).returncode, ran(["help", "serv"]).stderr),
        (1, "thriftd: serv is no command: did you mean serve?\n"),
    )


def version():
    with open(os.path.join(TOP, "VERSION"), encoding="utf-8") as held:
        said = "thriftd " + held.read()
    for word in ("version", "--version"):
        if not help_of([word]).startswith(said):
            yield "%s doesn't begin %r" % (word, said)


def statuses():
    """The table has the statuses that README.md tells of."""
    with open(os.path.join(TOP, "README.md"), encoding="utf-8") as readme:
        text = readme.read()
    told = set(re.findall(r"^\| (\d+) \|", text, re.MULTILINE)) | set(re.findall(r"\b12\d\b", text))
    want("statuses", sorted({"0", *(it.split(":")[0] for it in table("status"))}, key=int), sorted(told, key=int))


def examples_of_pages(program):
    """Each example of a page ends with status 0, a server once it was called."""
    with tempfile.TemporaryDirectory(prefix="thriftd-start-") as folder:
        for name in ("thriftd", "examples"):
            os.symlink(os.path.join(TOP, name), os.path.join(folder, name))
        port, lines = free_port(), table("example")
        calls = [it for it in lines if it.split()[1] == "call"]
        serve = next(it for it in lines if it.split()[1] == "serve")
        serve = serve.replace("9090", port).replace("--accept 100", "--accept %d" % len(calls))
        with started(shlex.split(serve)[1:], program, folder) as server:
            for line in [it for it in lines if it.split()[1] != "serve"]:
                done = subprocess.run(
                    ["bash", "-c", line.replace("9090", port)],
                    cwd=folder,
                    env=settings(THRIFTD=program),
                    capture_output=True,
                    timeout=SECONDS,
                    check=False,
                )
                want(line, (done.returncode, done.stderr), (0, b""))
            want(serve, server.wait(SECONDS), 0)
    want("commands with an example", sorted({it.split()[1] for it in table("example")}), sorted(commands()))


@contextlib.contextmanager
def started(words, program, folder):
    """A server that the script has started, and that listens."""
    server = subprocess.Popen(
        [SCRIPT, *words], cwd=folder, env=settings(THRIFTD=program), stdout=subprocess.PIPE, text=True
    )
    try:
        if not server.stdout.readline().startswith("listening"):
            raise Found("%s doesn't listen" % shlex.join(words))
        yield server
    finally:
        server.kill()
        server.wait()
        server.stdout.close()


def journal_in_use(program):
    """A second server with the journal of one that runs is refused, and the journal stays whole."""
    ports = free_port(), free_port()
    with tempfile.TemporaryDirectory(prefix="thriftd-start-") as folder:
        serve = [(SERVE + port).split() for port in ports]
        with started([*serve[0], "--journal=j"], program, folder) as server:
            os.link(os.path.join(folder, "j"), os.path.join(folder, "k"))
            for name, port in (("j", 0), ("j", 1), ("k", 1)):
                done = ran([*serve[port], "--journal", name], program, folder)
                said = "thriftd: journal %s is that of a server that runs\n" % name
                want("a second server", (done.returncode, done.stdout, done.stderr), (125, "", said))
            want("a call", ran((CALL + ports[0]).split(), program).stdout, "ok 2i\n")
            want("the first server", (server.stdout.read(), server.wait(SECONDS)), ("conn 0 End\ncalls 1\n", 0))
        with open(os.path.join(folder, "j"), encoding="utf-8") as lines:
            want("its journal", lines.read(), "call 0 0 0 add {1=1i,2=1i} ok 2i\n")
        with started([*serve[1], "--journal", "j"], program, folder):
            want("the journal of the next server", os.path.getsize(os.path.join(folder, "j")), 0)


def other_journals(program):
    """Two servers may have /dev/null as their journal; a server that is refused leaves none."""
    ports = free_port(), free_port()
    with tempfile.TemporaryDirectory(prefix="thriftd-start-") as folder:
        first, second = ([*(SERVE + port).split(), "--journal", "/dev/null"] for port in ports)
        with started(first, program, folder), started(second, program, folder):
            pass
        for words, status in (
            (["serve", "absent.thrift", *first[2:-1], "j"], 2),
            ([*first[:4], "A=store", *first[5:-1], "j"], 4),
            ([*first[:-1], "no/j"], 5),
        ):
            done = ran(words, program, folder)
            want(shlex.join(words), (done.returncode, os.listdir(folder)), (status, []))


def signals(program):
    """The script becomes the program, so a signal ends it."""
    for number in (signal.SIGTERM, signal.SIGINT):
        with tempfile.TemporaryDirectory(prefix="thriftd-start-") as folder, started(
            [*(SERVE + free_port()).split(), "--journal", "j"], program, folder
        ) as server:
            server.send_signal(number)
            want("the status of a server that gets signal %d" % number, server.wait(SECONDS), -number)


def quick(program):
    """What a start costs beside the program, as processor time, the least of some, is at most 25 ms. (Other tests run
    at the same time, so the time that passes is no measure.)"""

    def least(words):
        times = []
        for _ in range(10):
            run = subprocess.Popen(words, cwd=TOP, env=settings(THRIFTD=program), stdout=subprocess.DEVNULL)
            _, run.returncode, used = os.wait4(run.pid, 0)
            times.append(used.ru_utime + used.ru_stime)
        return min(times)

    cost = least([SCRIPT, "check", "examples/money.thrift"]) - least([program, "check", "examples/money.thrift"])
    if cost > 0.025:
        yield "a start costs %.0f ms" % (cost * 1000)


def tools(place):
    """A tool is run with its words; `help` lists it, and no file beside it."""
    place.copied()
    place.write("copy/tools/greet", '#!/bin/sh\n# Greets someone. And no more.\necho "hello $*"\nexit 7\n', 0o755)
    place.write("copy/tools/helper.py", "", 0o755)
    place.write("copy/tools/notes", "")
    place.write("copy/tools/check", "#!/bin/sh\necho no command of the program\n", 0o755)
    place.program(RIGHT).wants(["thriftd", "greet", "you", "--help me"], 7, "hello you --help me")
    place.wants(["thriftd", "help", "greet"], 7, "hello --help")
    place.wants(["thriftd", "greet", "-h"], 7, "hello -h")
    place.wants(["thriftd", "help"], 0, r"  greet +Greets someone")
    place.wants(["thriftd", "gret"], 1, "thriftd: usage", r"thriftd: gret is no command: did you mean greet\?")
    for name in ("notes", "helper.py", "helper", "../thriftd", "check"):
        place.wants(["thriftd", name], 1, "thriftd: usage", "use: thriftd .*")


def packed(place):
    """A copy whose dist/ has a program of its sources."""
    place.copied()
    digest = subprocess.run(
        [os.path.join(place.top, ".ci/digest")], stdout=subprocess.PIPE, text=True, check=True
    ).stdout
    with open(place.write("copy/dist/thriftd.gz", ""), "wb") as out:
        out.write(gzip.compress(RIGHT.encode()))
    place.write(
        "copy/dist/PROGRAM", "kit none\nprogram %s\nsources %s" % (hashlib.sha256(RIGHT.encode()).hexdigest(), digest)
    )
    return place


def unpacked(place):
    """Where nothing can be written in the tree, the program is unpacked where the user's things are."""
    packed(place).wants(["thriftd", "help"], 0, "thriftd check IDL")
    place.write("copy/crates/thriftd/out", "no folder")
    wanted = ["XDG_CACHE_HOME", "HOME", "TMPDIR"]
    for name in wanted:
        place.settings[name] = os.path.join(place.folder, name)
        os.makedirs(place.settings[name])
    for name, below in zip(wanted, ("thriftd", ".cache/thriftd", "thriftd-%d" % os.getuid())):
        for _ in range(2):
            place.wants(["thriftd"], 1, "thriftd: usage")
        found = glob.glob(os.path.join(glob.escape(place.settings[name]), below, "**/packed-*/thriftd"), recursive=True)
        want("programs below %s" % name, len(found), 1)
        want("what others may in %s" % below, os.stat(os.path.join(place.settings[name], below)).st_mode & 0o077, 0)
        del place.settings[name]
    place.settings["TMPDIR"] = place.write("a file", "")
    place.wants(["thriftd"], 126, "thriftd: nothing can be written to .*")


def changed_sources(place):
    """A change is seen at the next start: of src/ at once, and of proofs/ once a look is due again."""
    packed(place)
    proof = place.write("copy/crates/thriftd/proofs/a.antt", "")
    digest = subprocess.run(
        [os.path.join(place.top, ".ci/digest")], stdout=subprocess.PIPE, text=True, check=True
    ).stdout
    path = place.write(
        "copy/dist/PROGRAM", "kit none\nprogram %s\nsources %s" % (hashlib.sha256(RIGHT.encode()).hexdigest(), digest)
    )
    place.settings["THRIFTD_NO_BUILD"] = "1"
    for _ in range(2):
        place.wants(["thriftd"], 1, "thriftd: usage")
    want("what is packed", os.path.exists(path), True)
    with open(proof, "a", encoding="utf-8") as out:
        out.write("changed")
    place.wants(["thriftd"], 1, "thriftd: usage")
    for looked in glob.glob(os.path.join(glob.escape(place.top), "crates/thriftd/out/packed-*/thriftd.stamp.looked")):
        place.write(os.path.relpath(looked, place.folder), "0\n")
    place.wants(["thriftd"], 126, "thriftd: dist/ has no program of these sources, .*")
    os.remove(proof)
    os.rmdir(os.path.dirname(proof))
    place.write("copy/crates/thriftd/src/main.rt", "fn main() { }\n")
    place.wants(["thriftd"], 126, "thriftd: dist/ has no program of these sources, .*")


def within(case):
    with tempfile.TemporaryDirectory(prefix="thriftd-start-") as folder:
        case(Place(folder))


def tests(programs):
    """The tests that need no program, and those of each program."""
    for case in (words_of_rows, pages, version, statuses):
        yield Test(case.__name__.replace("_", " "), lambda case=case: list(case() or []))
    for case in (tools, unpacked, changed_sources):
        yield Test(case.__name__.replace("_", " "), functools.partial(within, case))
    for program in programs:
        for case in (
            spoilt_words,
            lines_of_use,
            no_words,
            examples_of_pages,
            journal_in_use,
            other_journals,
            signals,
            quick,
        ):
            title = "%s (%s)" % (case.__name__.replace("_", " "), os.path.basename(program))
            yield Test(title, lambda case=case, program=program: list(case(program) or []))

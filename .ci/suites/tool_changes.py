"""The suite `tool_changes`: tools/changes tells all differences of two IDLs, and the first break is that of `compat`.

bench/trials/change_mixes.py compares the two on random pairs of schemas."""
import functools
import os
import shutil
import subprocess
import tempfile

import rows
from suite import SECONDS, TOP, LeftOut, Test
from tool_run import demand, ran, ran_all, wants

OLD_INNER = """struct Key { 1: i32 a }
enum Color { RED = 1, BLUE = 2, GREY = 4 }
struct Aside { 1: i32 a }
"""
NEW_INNER = """struct Key { 1: i32 a, 2: optional i32 b }
enum Color { RED = 1, GREEN = 2, BLACK = 3, GREY = 5 }
struct Aside { 1: i64 a }
"""
OLD = """include "inner.thrift"
const i32 MOST = 3
typedef list<i32> Numbers
struct Order { 1: required i64 id, 2: optional string note, 3: set<inner.Key> keys, 4: inner.Color color, 5: i32 n = 1 }
union U { 1: i32 a, 2: string b }
struct Gone {}
struct R { 1: required i32 x }
exception E { 1: string why }
exception F { 1: string why }
service V {
  R get(1: i64 id) throws (1: E e), void put(1: Order o) throws (1: E e, 2: F f), oneway void ping(), i32 old(),
  map<inner.Key, i32> keyed()
}
"""
NEW = """include "inner.thrift"
const i32 MOST = 4
typedef list<i64> Numbers
struct Order {
  1: i64 id, 2: optional binary remark, 3: set<inner.Key> keys, 4: i32 color, 5: i32 n = 2, 6: required bool p
}
union U { 1: i32 a, 3: string c }
struct R { 1: optional i32 x }
struct E { 1: string why }
exception F { 1: string why }
exception G { 1: string why }
service W {}
service V extends W {
  R get(1: i64 id, 2: i32 more) throws (1: F e, 2: G g), i32 put(1: Order o) throws (1: F e), void ping(), i32 fresh(),
  map<inner.Key, i32> keyed()
}
"""
MISSING = "it may be missing, and who doesn't know it passes over it"
KEYED = "a struct stands in a set or a map's key, which is a break even unchanged"
TOLD = """\
safe    struct Order: field 1 `id` is default, it was required: all who read take it or do without it
mind    struct Order: field 2 is named `remark`, it was `note`: no byte tells names: is it the same field?
safe    struct Order: field 2 `remark` is of type binary, it was string: the two are read alike
safe    struct Order: field 4 `color` is of type i32, it was inner.Color: the two are read alike
mind    struct Order: field 5 `n` has the default 2i, it had the default 1i: %(default)s
break   struct Order: field 6 is new, required bool p: break Order 6 NewRequired: what old programs wrote may lack it
break   struct Order: field 3 `keys` is as it was: break Order 3 Unlike: %(keyed)s
break   union U: field 2 `b` is gone: break U 2 UnionField: a union of this field would have none
safe    union U: field 3 is new, optional string c: %(missing)s
break   struct R: field 1 `x` is optional, it was required: break R 1 NewRequired: %(required)s
safe    exception E: it is a struct, it was an exception: both are structs on the wire
safe    struct inner.Key: field 2 is new, optional i32 b: %(missing)s
apart   struct inner.Aside: field 1 `a` is of type i64, it was i32
break   struct Gone: it is gone: break Gone 0 Gone: nothing reads what was written for it
safe    exception G: it is new: nothing old names it
safe    service V: it extends W, it was none: its functions count, wherever they stand
safe    service V: get: field 2 is new, default i32 more: %(missing)s
safe    service V: get: exception 1 `e` is of type F, it was E: the two are read alike
break   service V: get: exception 2 is new, default G g: break get 2 Throws: old clients don't know it
break   service V: put: it returns i32, it was void: break put 0 Result: old clients don't find their result
safe    service V: put: exception 1 `e` is of type F, it was E: the two are read alike
safe    service V: put: exception 2 `f` is gone: old clients only know of more than they meet
break   service V: ping: it is oneway no more: break ping 0 Oneway: %(oneway)s
break   service V: old is gone: break old 0 Gone: old clients call it
break   service V: keyed: its result is as it was: break keyed 0 Result: %(keyed)s
safe    service V: fresh is new: old clients don't call it
safe    service W: it is new: nothing old names it
mind    enum inner.Color: 2 is named GREEN, it was BLUE: no byte tells names: is it the same value?
safe    enum inner.Color: BLACK=3 is new: old programs read its number, without a name for it
mind    enum inner.Color: GREY is 5, it was 4: a number that was sent means another value
safe    typedef Numbers: it is list<i64>, it was list<i32>: no byte tells it
safe    const MOST: it is i32 4i, it was i32 3i: no byte tells it
compat: break Order 3 Unlike
""" % {
    "keyed": KEYED,
    "missing": MISSING,
    "default": "no byte tells defaults: one that is missing is read otherwise",
    "required": "old clients require it, and what goes back may lack it",
    "oneway": "one side waits for a reply that the other doesn't send",
}


def written(folder, main, inner):
    os.makedirs(folder, exist_ok=True)
    for name, text in (("o.thrift", main), ("inner.thrift", inner)):
        with open(os.path.join(folder, name), "w", encoding="utf-8") as out:
            out.write(text)
    return os.path.join(folder, "o.thrift")


def same_lines(ended, status, wanted):
    """The lines as they have to be, or the first that isn't."""
    for line, other in zip(ended[1].splitlines(), wanted.splitlines()):
        demand(line == other, "%s\nand not\n%s", line, other)
    wants(ended, status, wanted)


def told(program):
    with tempfile.TemporaryDirectory(prefix="thriftd-changes-") as folder:
        old, new = written(folder + "/old", OLD, OLD_INNER), written(folder + "/new", NEW, NEW_INNER)
        same_lines(ran(program, "changes", old, new), 15, TOLD)
        keyed = [line for line in TOLD.splitlines(True) if "as it was" in line] + ["compat: break Order 3 Unlike\n"]
        same_lines(ran(program, "changes", old, old), 15, "".join(keyed))


def git(folder, *words):
    command = ["git", "-C", folder, "-c", "user.name=a", "-c", "user.email=a@b", *words]
    subprocess.run(command, check=True, stdout=subprocess.DEVNULL, timeout=SECONDS)


def revisions(program):
    """The old IDL, and what it includes, of a revision, from any folder."""
    if not shutil.which("git"):
        raise LeftOut("changes --git, for which there is no git")
    with tempfile.TemporaryDirectory(prefix="thriftd-changes-") as folder:
        path = written(folder + "/idl", OLD, OLD_INNER)
        git(folder, "init", "-q")
        git(folder, "add", "-A")
        git(folder, "commit", "-qm", "old")
        written(folder + "/idl", NEW, NEW_INNER)
        same_lines(ran(program, "changes", "--git", "HEAD", path), 15, TOLD)
        same_lines(ran(program, "changes", "--git", "HEAD", "o.thrift", cwd=folder + "/idl"), 15, TOLD)
        other = written(folder + "/other", NEW, NEW_INNER)
        same_lines(ran(program, "changes", "--git", "HEAD", path, other), 15, TOLD)
        for words, status, said in [
            (["--git", "HEAD", other], 5, "HEAD has no other/o.thrift"),
            (["--git", "HEAD~7", path], 5, "HEAD~7 is no revision"),
            (["--git", "--help", path], 1, "expected one argument"),
        ]:
            wants(ran(program, "changes", *words), status, "", said)
        git(folder, "rm", "-q", "--cached", "idl/inner.thrift")
        git(folder, "commit", "-qm", "cut")
        cut = ran(program, "changes", "--git", "HEAD", path)
        wants(cut, 2, "", "thriftd changes: idl HEAD:idl/inner.thrift 0:0 Absent")


def files_of(folder, row):
    """Writes the files of a row, and names the two."""
    os.makedirs(folder)
    for name, text in row.files.items():
        with open(os.path.join(folder, name), "wb") as out:
            out.write(text)
    return [os.path.join(folder, name) for name in ("old.thrift", "new.thrift")]


def compat_rows(program):
    """Each row of `compat` comes to the same by the tool, which holds its own first break against that of `compat`."""
    found = [
        it
        for it in rows.rows_of(os.path.join(TOP, "rows/changes.rows"))
        if it.words[0] == "compat" and "old.thrift" in it.files
    ]
    with tempfile.TemporaryDirectory(prefix="thriftd-changes-") as folder:
        runs = [(files_of(os.path.join(folder, str(number)), row), b"") for number, row in enumerate(found)]
        demand(len(runs) > 5, "there are only %d rows", len(runs))
        for row, ended in zip(found, ran_all(program, "changes", runs)):
            last = ended[1].splitlines(True)[-1:]
            demand(last == ["compat: " + row.output.decode()], "%s: %r", row.place, ended)
            wants(ended, row.status)
            is_told = any(line.startswith("break ") for line in ended[1].splitlines())
            demand(is_told == (row.status == 15), "%s: %s", row.place, ended[1])


def words(program):
    front = "examples/notes.thrift"
    for given, status, said in [
        ([front], 1, "the following arguments are required: NEW"),
        ([front, "missing"], 2, "idl missing 0:0 Absent"),
        ([front, "examples/no_colon.thrift"], 2, "idl examples/no_colon.thrift 4:5 Found"),
        ([front, "examples"], 5, "file fault"),
    ]:
        wants(ran(program, "changes", *given), status, "", said)
    demand(ran(program, "changes", "--help")[0] == 0, "--help")


def tests(programs):
    for program in programs:
        for case in (told, revisions, compat_rows, words):
            title = "%s (%s)" % (case.__name__.replace("_", " "), os.path.basename(program))
            yield Test(title, functools.partial(case, program))

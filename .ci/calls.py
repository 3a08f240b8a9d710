"""Prints the public calls of the program's libraries by what they may do: those that may wait, those that may take memory, and those that take none.

calls.py                   prints them
calls.py --update FILE     writes them between the lines '<!-- calls -->' and '<!-- end of calls -->' of FILE: those that may wait, and of the others the numbers
calls.py --check FILE      says so where other ones stand there
calls.py --doubtful        prints the calls whose signature leaves it open, with their signatures

Each class is told from the signature alone, and from how the types in it are declared.
- A call may wait where its signature, or the head of its `impl`, has the bound Wait.
- A law has no answer, and is lent nothing for writing and handed nothing to keep: it can do nothing, so it is in no list.
- Memory comes from an allocator, which is handed in or kept by a value. A call of which every parameter is plain (numbers, loans and slices of such, and types that are
  made of these alone) has none, and takes no memory, whatever its type of faults has beside.
- A call that gets an allocator may take memory, unless it answers Self alone: then it makes a value whose later calls grow it.
- A call without one may take memory where its answer may say that there was none: it names AllocError, or a type that tells of want. That is an enum with a variant
  NoMemory, a `No..` that hands back what it was given, or a type that has one of these in it; but not one in which want is something that has happened to a
  connection or a call (HAPPENED). A call that is only shown things, and answers no Result, tells of want that was met before, and takes no memory.
- Two things no signature tells: that some kind of a trait takes memory in a call whose answer has no word for want (BY_KIND: it counts a fault), and that a call
  never gives the variant NoMemory of an answer that it shares with others (NEVER); for these the contracts were read.
- Every other call takes none.
"""
import functools
import os
import re
import sys

TOP = next(it for it in (os.getcwd(), os.path.dirname(os.path.dirname(os.path.abspath(__file__)))) if os.path.exists(f"{it}/crates.txt"))
MARK = re.compile(r"(?<=<!-- calls -->\n).*?(?=<!-- end of calls -->)", re.S)
PROGRAM = "thriftd"
# want that was met by a connection or a call, not by the call that answers with it
HAPPENED = {"EndCause", "Settled", "Holding"}
# calls of traits that some kind takes memory in: the writers and files in memory and the links over sockets count a fault for want of it, and a hall's step may be Apply
BY_KIND = {"Sink::write", "Files::create", "Links::next", "Object::step"}
# calls of the hall, in whose answers NoMemory is that of Apply alone
NEVER = {"Hall::submit", "Hall::take", "Hall::put", "Hall::collect"}
SCALARS = {"bool", "str", "char", *(f"{sign}{size}" for sign in "ui" for size in ("8", "16", "32", "64", "128", "size"))}
ENDS = re.compile(r"^(requires|ensures|ghost|decreases|\{)")


@functools.cache
def lines_of(path):
    """Returns a file's lines without comments and texts; a line of a comment is empty."""
    with open(path, encoding="utf-8") as file:
        text = file.read()
    text = re.sub(r"b?'(?:\\.|[^\\'\n])'", "' '", re.sub(r"^[ \t]*//.*$", "", text, flags=re.M))
    text = re.sub(r'b?"(?:[^"\\]|\\.)*"', '""', text)
    return re.sub(r"//.*", "", text).splitlines()


def crates():
    """Returns the libraries that the program is built from, in the order of crates.txt."""
    below = {}
    for line in open(f"{TOP}/crates.txt", encoding="utf-8"):
        head, colon, names = line.split("#")[0].partition(":")
        if colon:
            below[head.split()[0]] = names.split()
    needed, left = set(), [PROGRAM]
    while left:
        name = left.pop()
        if name in below and name not in needed:
            needed.add(name)
            left += below[name]
    return [it for it in below if it in needed and it != PROGRAM]


def modules(folder, path, is_open, name=""):
    """Yields each module of a crate: its name, its file and whether all of its path is public."""
    yield name, path, is_open
    for line in lines_of(path):
        found = re.match(r"(pub )?mod (\w+);", line)
        if found:
            below = f"{folder}/{found[2]}"
            file = next((it for it in (f"{below}.rt", f"{below}/mod.rt") if os.path.exists(it)), None)
            if file:
                yield from modules(below, file, is_open and bool(found[1]), found[2])


def used(path, inner):
    """Returns the names that a module hands out of modules of its own crate."""
    names = set()
    for one in re.findall(r"^pub use ([^;]+);", "\n".join(lines_of(path)), re.M):
        first = re.match(r"(?:crate::|self::|super::)*(\w+)", one)[1]
        if first in inner:
            last = one[one.index("{"):] if "{" in one else one.rpartition("::")[2]
            names |= set(re.findall(r"\w+", last.rpartition(" as ")[2] or last))
    return names


def signature(lines, at):
    """Returns the text of the head of an item: up to its contract, its body or its end."""
    taken = []
    for line in lines[at:]:
        word = line.strip()
        if taken and ENDS.match(word):
            break
        taken.append(word)
        if word.endswith(("{", ";", "{}")):
            break
    return re.sub(r"\s+", " ", " ".join(taken)).rstrip("{}; ").replace("( ", "(").replace(", )", ")")


def split_at(text, sign):
    """Returns the parts of a text between signs that stand in no bracket."""
    parts, depth, last = [], 0, 0
    for at, letter in enumerate(text):
        if letter in "(<[" or letter == "{":
            depth += 1
        elif letter in ")]}" or letter == ">" and text[at - 1] != "-":
            depth -= 1
        elif letter == sign and not depth:
            parts.append(text[last:at].strip())
            last = at + 1
    return [it for it in [*parts, text[last:].strip()] if it]


def parts_of(head):
    """Returns the parameters of a function, and its answer."""
    start = head.index("(", re.search(r"\bfn \w+(<.*?>)?\(", head).end() - 1)
    depth = 0
    for at in range(start, len(head)):
        depth += {"(": 1, ")": -1}.get(head[at], 0)
        if not depth:
            break
    rest = head[at + 1:]
    answer = rest.partition("->")[2] if rest.lstrip().startswith("->") else ""
    return split_at(head[start + 1:at], ","), re.sub(r"\bwhere\b.*", "", answer).strip()


def public_calls(crate):
    """Yields each public call of a crate: its name, its signature, and the head of its impl or trait."""
    folder = f"{TOP}/crates/{crate}/src"
    known = list(modules(folder, f"{folder}/lib.rt", True))
    inner = {name for name, _, _ in known if name}
    handed = set().union(*(used(path, inner) for _, path, is_open in known if is_open))
    types = set(handed)
    for _, path, is_open in known:
        if is_open:
            types |= {it for line in lines_of(path) for it in re.findall(r"^pub (?:struct|enum|trait|type) (\w+)", line)}
    given = set()
    for _, path, is_open in known:
        lines, owner, head, in_trait = lines_of(path), None, "", False
        for at, line in enumerate(lines):
            item = re.match(r"(pub )?(?:unsafe )?(struct|enum|trait|fn|impl|mod|const|static)\b", line)
            name = None
            if item:
                owner, head, in_trait = None, signature(lines, at), False
                if item[2] == "impl" and not re.search(r"\bfor\b(?!<)", head.partition("where")[0]):
                    bare = head.partition(" where ")[0]
                    depth, start = 0, 4
                    if bare[4:5] == "<":
                        for start in range(4, len(bare)):
                            depth += {"<": 1, ">": -1}.get(bare[start], 0)
                            if not depth:
                                break
                        start += 1
                    owner = re.match(r"\s*(?:\w+::)*(\w+)", bare[start:])[1]
                elif item[2] == "trait" and item[1]:
                    owner, in_trait = re.search(r"trait (\w+)", line)[1], True
                elif item[2] == "fn" and item[1]:
                    word = re.search(r"fn (\w+)", line)[1]
                    if is_open or word in handed:
                        name, above = word, ""
            elif owner in types:
                method = re.match(r"    (pub )?fn (\w+)", line)
                if method and (method[1] or in_trait):
                    name, above = f"{owner}::{method[2]}", head
            if name and (name, above) not in given:
                given.add((name, above))
                yield name, signature(lines, at), above


def declared(libraries):
    """Returns the names of the public types that tell of want of memory, and of those that keep no allocator."""
    bodies, found, plain = {}, {"AllocError"}, set(SCALARS)
    for crate in libraries:
        folder = f"{TOP}/crates/{crate}/src"
        for _, path, _ in modules(folder, f"{folder}/lib.rt", True):
            text = "\n".join(lines_of(path))
            for name, body in re.findall(r"^pub (?:enum|struct) (\w+)[^{;(]*(\{.*?^\}|\([^;]*\);|;)", text, re.M | re.S):
                # what is in it, without the names of variants and fields
                body = re.sub(r"#\[[^\n]*\]|\bpub(\(crate\))?", "", body)
                bodies[name] = bodies.get(name, "") + re.sub(r"^\s*\w+", "", body, flags=re.M)
                if name not in HAPPENED and (re.match(r"No[A-Z]", name) or re.search(r"^\s*NoMemory\b", body, re.M)):
                    found.add(name)
            for name, body in re.findall(r"^pub type (\w+)[^=]*=([^;]*);", text, re.M):
                bodies[name] = bodies.get(name, "") + body
    grown = None
    while grown != found:
        grown = set(found)
        found |= {name for name, body in bodies.items() if name not in HAPPENED and set(re.findall(r"\w+", body)) & found}
    grown = None
    while grown != plain:
        grown = set(plain)
        plain |= {name for name, body in bodies.items() if is_plain(body, plain)}
    return found, plain


def is_plain(kind, plain):
    """Returns whether a value of this type, or of these, keeps no allocator."""
    bare = re.sub(r"&|=\s*\d+|'\w+|\bmut\b|\bOption\b|[\[\]{}<>(),;:]", " ", kind)
    return all(it in plain or it.isdigit() for it in bare.split())


def kinds_of(name, head, above, tells, plain):
    """Returns what a call may do, of "wait" and "take"; None of a law."""
    given, answer = parts_of(head)
    kinds = {"wait"} if re.search(r"\bWait\b", f"{head} {above}") else set()
    types = [re.sub(r"\bself\b", name.partition("::")[0], it) if re.search(r"\bself\b", it) else re.sub(r"^(mut )?\w+: *", "", it) for it in given]
    is_shown = all(re.match(r"&(?!('\w+ )?mut\b)", it) or it in SCALARS for it in types)
    if not answer and not kinds and is_shown:
        return None
    gets_memory = any(re.search(r"\bGlobal\b", it) for it in types)
    says = set(re.findall(r"\w+", answer)) & tells and ("Result<" in answer or "Made<" in answer or not is_shown)
    has_memory = not all(is_plain(it, plain) for it in types)
    if name in BY_KIND or name not in NEVER and (gets_memory and answer != "Self" or has_memory and says):
        kinds.add("take")
    return kinds


def calls():
    """Yields each public call that is no law: its crate, its name, its signature and what it may do."""
    libraries = crates()
    tells, plain = declared(libraries)
    for crate in libraries:
        for name, head, above in public_calls(crate):
            kinds = kinds_of(name, head, above, tells, plain)
            if kinds is not None:
                yield crate, name, head, kinds


def lists(is_whole):
    """Yields the text of the three lists, a line a crate; where not all is asked for, the first one, and of the others their numbers."""
    known = list(calls())
    for title, belongs, is_shown in (
        ("may wait, for a thread or for what is next on connections; those with a star may take memory too", lambda kinds: "wait" in kinds, True),
        ("wait for nothing but the reads and writes of the outside, and may take memory", lambda kinds: kinds == {"take"}, is_whole),
        ("wait for nothing else either, and take none", lambda kinds: not kinds, is_whole),
    ):
        by_crate = {}
        for crate, name, _, kinds in known:
            if belongs(kinds):
                by_crate.setdefault(crate, set()).add(f"`{name}`{'*' if kinds == {'wait', 'take'} else ''}")
        yield f"\n{sum(map(len, by_crate.values()))} calls {title}" + (":\n\n" if is_shown else ".\n")
        for crate, names in by_crate.items() if is_shown else ():
            yield f"- {crate}: {', '.join(sorted(names))}\n"


def main(words):
    if words[:1] == ["--doubtful"]:
        tells, _ = declared(crates())
        for crate, name, head, kinds in calls():
            given, answer = parts_of(head)
            says = set(re.findall(r"\w+", answer)) & (tells | HAPPENED)
            gets = any(re.search(r"\bGlobal\b", it) for it in given)
            if bool(says) != ("take" in kinds) or gets and "take" not in kinds or name in BY_KIND | NEVER:
                print(f"{crate}\t{'+'.join(sorted(kinds)) or 'none'}\t{name}\t{head}")
        return
    found = "".join(lists(not words)).lstrip("\n")
    if not words:
        print(found, end="")
        return
    with open(words[1], encoding="utf-8") as file:
        text = file.read()
    fresh = MARK.sub(lambda _: found, text)
    if words[0] == "--update":
        with open(words[1], "w", encoding="utf-8") as file:
            file.write(fresh)
    elif fresh != text or not MARK.search(text):
        print(f"{words[1]} has other calls than the tree: python3 .ci/calls.py --update {words[1]}")


main(sys.argv[1:])

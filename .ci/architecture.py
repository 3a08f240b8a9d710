"""Prints each crate, file and name in the map and the tables of docs/ARCHITECTURE.md that there isn't, and each crate that its map leaves out; nothing where all is well.

The map is a list, whose items begin with the crates that they are about. A cell is read from left to right. `crate` is one of crates.txt, and what comes after it is of that crate: words with capitals (of the column Definition) are files
of specs/, and words that stand alone between commas, semicolons and colons (of the other columns) are modules of src/. Names in backquotes are defined in the
files or modules before them, or where none is, anywhere in the crate. `crate::Name` is defined in that crate. Other words are prose. Of the column Besides, what stands
in backquotes is a path of the tree, and links lead to files and headings.
"""
import functools
import os
import re

import specs

DEFINED = re.compile(r"\b(?:fn|struct|enum|trait|type|const|static|mod)\s+([A-Za-z_]\w*)|^\s+([A-Z]\w*)(?=[({,])", re.M)
FIELD = re.compile(r"^\s+(?:pub )?([A-Za-z_][\w'-]*) :", re.M)
LINK = re.compile(r"\]\(([^)#]*)(?:#([^)]*))?\)")
TOKEN = re.compile(r"`([^`]*)`|([;,:])|([^`;,:]+)")
CRATES = set(specs.crates())
KIT = {it for below in specs.crates().values() for it in below} - CRATES


@functools.cache
def text_of(path):
    with open(f"{specs.TOP}/{path}", encoding="utf-8") as it:
        return it.read()


@functools.cache
def modules():
    """Each crate's modules, with the names that are defined there."""
    found = {crate: {} for crate in CRATES}
    for path in specs.paths("crates/*/src/**/*.rt"):
        crate, module = path.split("/")[1], path.split("/src/")[1][: -len(".rt")].removesuffix("/mod")
        if crate in found:
            found[crate][module] = {one or other for one, other in DEFINED.findall(text_of(path))}
    return found


def in_files(crate, word):
    """Returns the names of the files of this crate that a word is: of a file of specs/, or of modules; or None."""
    if word[0].isupper():
        file = specs.files().get((crate, word))
        return {*file.named, *FIELD.findall(text_of(file.path))} if file else None
    found = [names for module, names in modules()[crate].items() if module == word or module.endswith(f"/{word}")]
    return set().union(*found) if found else None


def is_in(crate, name):
    """Returns whether a module of this crate, or a name in its modules or files, is so called."""
    names = [*modules()[crate].values(), *(file.named for (of, _), file in specs.files().items() if of == crate)]
    return any(name in it for it in names) or in_files(crate, name) is not None


def missing_of(cell, is_of_specs):
    """Yields what a cell names and there isn't; is_of_specs: its words with capitals are files of specs/, and else those alone are modules."""
    crates, group, has_named, joins, tokens = [], [], False, False, TOKEN.findall(cell)
    for (quoted, sign, words), (is_named, _, _) in zip(tokens, [*tokens[1:], ("", "", "")]):
        words = words.strip()
        first, *rest = quoted.split("::")
        if quoted and first in CRATES and not rest:
            crates, group, has_named = [*crates, first] if joins else [first], [], False
        elif quoted and first not in KIT:
            has_named = True
            yield from (f"`{it}`" for it in lost_of(first, rest, crates, group))
        elif sign == ";" or " " in words and words != "and":
            # (what is named behind some prose may stand anywhere in the crate)
            group = []
        alone = [] if is_named else [it.strip() for it in re.split(r"\band\b", words) if re.fullmatch(r"\s*[\w/]+\s*", it)]
        for word in re.findall(r"\b[A-Z]\w*", words) if is_of_specs else alone:
            if crates and word != "none":
                found = [in_files(crate, word) for crate in crates]
                group = [*([] if has_named else group), *(it for it in found if it is not None)]
                has_named = False
                if None in found:
                    yield f"{word} of {', '.join(f'`{it}`' for it in crates)}"
        joins = bool(quoted) and first in CRATES and not rest or joins and words == "and"


def lost_of(first, rest, crates, group):
    """Returns those of a path's names that aren't where they are said to be."""
    if first in CRATES:
        return [it for it in rest if not is_in(first, it)]
    if group:
        return [it for it in (first, *rest) if not any(it in names for names in group)]
    return [it for it in (first, *rest) if re.fullmatch(r"\w+", it) and not any(is_in(crate, it) for crate in crates or CRATES)]


def lost_paths(cell):
    """Yields the paths and links of a cell that lead nowhere."""
    yield from (f"`{it}`" for it in re.findall(r"`([^`]*)`", cell) if not os.path.exists(f"{specs.TOP}/{it}"))
    for name, anchor in LINK.findall(cell):
        path = os.path.normpath(f"docs/{name or 'ARCHITECTURE.md'}")
        headings = re.findall(r"(?m)^#+ (.*)$", text_of(path)) if os.path.exists(f"{specs.TOP}/{path}") else None
        slugs = [re.sub(r"[^\w -]", "", it.lower()).replace(" ", "-") for it in headings or []]
        if headings is None or anchor and anchor not in slugs:
            yield f"{name}#{anchor}"


def rows(text):
    """Yields each row of a table below its head, with the head and the number of its line."""
    head = None
    for number, line in enumerate(text.split("\n"), 1):
        cells = [it.strip() for it in line.strip().strip("|").split("|")] if line.startswith("|") else None
        if head and cells and set(line) - set("|-: "):
            yield number, head, cells
        head = cells and (head or cells)


def mapped(text):
    """Yields the crates of each item of the map, with the number of its line."""
    is_map = False
    for number, line in enumerate(text.split("\n"), 1):
        is_map = line == "## The map" or is_map and not line.startswith("In a crate,")
        if is_map and line.startswith("- "):
            yield number, re.findall(r"`(\w+)`", line.partition(":")[0])


def faults(text):
    """Yields what is wrong with the tables of this text."""
    named, rules = set(), set()
    for number, crates in mapped(text):
        named.update(crates)
        yield from (f"{number}: there is no crate `{it}`" for it in crates if it not in CRATES)
    for number, head, cells in rows(text):
        for title, cell in zip(head, cells):
            lost = []
            if title == "Besides":
                lost = lost_paths(cell)
            elif title not in ("Rule", "Step", "A new"):
                lost = missing_of(cell, title == "Definition")
            yield from (f"{number}: there is no {it} ({title}: {cells[0] or cells[1]})" for it in lost)
        if head[0] == "Rule" and cells[0] in rules:
            yield f"{number}: a second row of this rule: {cells[0]}"
        rules.add(cells[0])
    yield from (f" the map has no crate `{it}`" for it in sorted(CRATES - named))


if __name__ == "__main__":
    for fault in faults(text_of("docs/ARCHITECTURE.md")):
        print(f"docs/ARCHITECTURE.md:{fault}")

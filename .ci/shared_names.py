"""Prints each name that stands for two definitions of different crates, with the places of both; nothing where there is none.

Looked at are the definitions of specs/, those in modules and mutual blocks too, and the types and traits of src/; tests are left out, and operators, which
`do` needs for each kind of step. A type that contracts see as the record of its own name is no second definition.
"""
import collections
import re

import specs

MODEL = re.compile(r"^impl Model for (\w+) \{$(?:(?!^\}).)*?^    ghost Value = \{ \1 \};$", re.MULTILINE | re.DOTALL)
TYPE = re.compile(r"^\s*pub(?:\(crate\))? (?:struct|enum|trait|type) (\w+)", re.M)

places = collections.defaultdict(set)
for file in specs.files().values():
    for definition in file.definitions:
        for name in definition.names:
            if definition.is_pub and not specs.OPERATOR.match(name):
                places[name].add(file.path)
for path in specs.paths("crates/*/src/**/*.rt"):
    with open(f"{specs.TOP}/{path}", encoding="utf-8") as it:
        text = it.read()
    for name in set(TYPE.findall(text)) - set(MODEL.findall(text)):
        places[name].add(path)
for name, paths in sorted(places.items()):
    paths = sorted(it for it in paths if not re.search(r"test|testing", it))
    if len({path.split("/")[1] for path in paths}) > 1:
        print(name, *paths)

"""The rules of `compat` over two schemas: all breaks in its order, not the first alone (docs/CHANGES.md)."""
from typing import NamedTuple

from .schemas import STRUCTS


class Break(NamedTuple):
    """A break as `compat` names it, and whose it is: a Pair of structs, or the (service, function) of the old schema
    with the part that is at fault (`args`, `result`, `throws`, `oneway`, or `gone`)."""

    name: str
    id: int
    kind: str
    of: object = None
    part: str = ""


class Pair(NamedTuple):
    """A struct that is written and the one that it is read as, by (FILE, NAME). What goes back is written by the new
    schema and read by the old one; all else the other way round."""

    goes_back: bool
    written: tuple
    read: tuple


def plain(schema, type_):
    """A type as its bytes show it: an enum is an i32, a text is bytes, and a struct is ("struct", FILE, NAME)."""
    if type_.word == "name":
        return "i32" if schema.tag(type_) == "i32" else ("struct", *type_.name)
    if type_.parts:
        return (type_.word, *(plain(schema, part) for part in type_.parts))
    return schema.tag(type_)


def has_struct(one):
    return not isinstance(one, str) and (one[0] == "struct" or any(map(has_struct, one[1:])))


def keyed_parts(one):
    """The keys of a map, the members of a set."""
    return one[1:2] if one[0] in ("map", "set") else ()


def has_struct_in_key(one):
    """Whether a struct stands in a key or a member: such a type is unlike even itself."""
    if isinstance(one, str) or one[0] == "struct":
        return False
    return any(map(has_struct, keyed_parts(one))) or any(map(has_struct_in_key, one[1:]))


def are_like(one, other):
    """Whether what is written as one type is read as another."""
    if isinstance(one, str) or isinstance(other, str):
        return one == other
    if one[0] != other[0]:
        return False
    if one[0] == "struct":
        return True
    keys = (*keyed_parts(one), *keyed_parts(other))
    return not any(map(has_struct, keys)) and all(map(are_like, one[1:], other[1:]))


def like_places(one, other):
    """The structs at like places of two types, from the left."""
    if isinstance(one, str) or isinstance(other, str) or one[0] != other[0]:
        return []
    if one[0] == "struct":
        return [(one[1:], other[1:])]
    return [pair for parts in zip(one[1:], other[1:]) for pair in like_places(*parts)]


def by_id(fields):
    return {it.id: it for it in sorted(fields, key=lambda it: it.id)}


class Comparison:
    """An old schema and a new one."""

    def __init__(self, old, new):
        self.old, self.new = old, new

    def sides(self, goes_back):
        """The schema that writes and the one that reads."""
        return (self.new, self.old) if goes_back else (self.old, self.new)

    def main(self, schema, sorts):
        return [one for one in schema.files[schema.main] if one.sort in sorts]

    def in_main(self, schema, name, sorts):
        """What the main file defines under a name, of one of these sorts, or None."""
        one = schema.named.get((schema.main, name))
        return one if one is not None and one.sort in sorts else None

    # --- what breaks between two sides

    def fields_faults(self, goes_back, written, is_union, read):
        """(ID, KIND) of each fault of fields that are written and those that they are read as."""
        writer, reader = self.sides(goes_back)
        old, new = by_id(written), by_id(read)
        if is_union:
            yield from ((number, "UnionField") for number in old if number not in new)
        for number in old:
            if number in new and not are_like(plain(writer, old[number].type), plain(reader, new[number].type)):
                yield number, "Unlike"
        for number in new:
            if new[number].need == "required" and not (number in old and old[number].need == "required"):
                yield number, "NewRequired"

    def pair_breaks(self, pair):
        """The breaks of a pair of structs."""
        writer, reader = self.sides(pair.goes_back)
        one, other = writer.named[pair.written], reader.named[pair.read]
        if (one.sort == "union") != (other.sort == "union"):
            yield Break(one.name, 0, "Kind", pair)
            return
        for number, kind in self.fields_faults(pair.goes_back, one.fields, one.sort == "union", other.fields):
            yield Break(one.name, number, kind, pair)

    def is_other_result(self, one, other):
        """Whether old clients don't find the result that they declare."""
        if one.result is None or other.result is None:
            return one.result is not other.result
        return not are_like(plain(self.new, other.result), plain(self.old, one.result))

    def function_breaks(self, of, one, other):
        """The breaks of a function and the one of its name."""
        if one.oneway != other.oneway:
            yield Break(one.name, 0, "Oneway", of, "oneway")
        for number, kind in self.fields_faults(False, one.args, False, other.args):
            yield Break(one.name, number, kind, of, "args")
        if self.is_other_result(one, other):
            yield Break(one.name, 0, "Result", of, "result")
        known = by_id(one.throws)
        for number, field in by_id(other.throws).items():
            is_known = number in known
            if not is_known or not are_like(plain(self.new, field.type), plain(self.old, known[number].type)):
                yield Break(one.name, number, "Throws", of, "throws")

    def breaks(self):
        """All breaks, in the order in which `compat` looks for the first."""
        for one in self.main(self.old, STRUCTS):
            if self.in_main(self.new, one.name, STRUCTS):
                yield from self.pair_breaks(Pair(False, (self.old.main, one.name), (self.new.main, one.name)))
            else:
                yield Break(one.name, 0, "Gone", one)
        for service in self.main(self.old, ("service",)):
            other = self.in_main(self.new, service.name, ("service",))
            if not other:
                yield Break(service.name, 0, "Gone", service)
                continue
            functions = self.new.functions(other)
            for one in self.old.functions(service).values():
                if one.name in functions:
                    yield from self.function_breaks((service, one), one, functions[one.name])
                else:
                    yield Break(one.name, 0, "Gone", (service, one), "gone")
        told = set(self.main_pairs())
        for pair in self.pairs():
            if pair not in told:
                yield from self.pair_breaks(pair)

    # --- the pairs of structs that are reached

    def main_pairs(self):
        for one in self.main(self.old, STRUCTS):
            if self.in_main(self.new, one.name, STRUCTS):
                yield Pair(False, (self.old.main, one.name), (self.new.main, one.name))

    def functions_of_both(self):
        """The functions of the old main file's services, each with the one of its name."""
        for service in self.main(self.old, ("service",)):
            other = self.in_main(self.new, service.name, ("service",))
            functions = self.new.functions(other) if other else {}
            for one in self.old.functions(service).values():
                if one.name in functions:
                    yield one, functions[one.name]

    def field_pairs(self, goes_back, written, read):
        writer, reader = self.sides(goes_back)
        known = by_id(read)
        for number, field in by_id(written).items():
            if number in known:
                for places in like_places(plain(writer, field.type), plain(reader, known[number].type)):
                    yield Pair(goes_back, *places)

    def answer_pairs(self, one, other):
        """The pairs of a function's result and its exceptions."""
        if one.result and other.result:
            for places in like_places(plain(self.new, other.result), plain(self.old, one.result)):
                yield Pair(True, *places)
        yield from self.field_pairs(True, other.throws, one.throws)

    def pairs(self):
        """All pairs that are reached, in the order of the steps that lead to them: what arguments hold is reached one
        step on, since the arguments themselves are a struct."""
        both, seen = list(self.functions_of_both()), {}
        arguments = [pair for one, other in both for pair in self.field_pairs(False, one.args, other.args)]
        answers = [pair for one, other in both for pair in self.answer_pairs(one, other)]
        waiting = [*self.step(self.main_pairs(), seen), *arguments, *self.step(answers, seen)]
        while waiting:
            waiting = self.step(waiting, seen)
        return list(seen)

    def step(self, pairs, seen):
        """Notes those pairs that weren't seen, and gives what they lead to."""
        found = []
        for pair in pairs:
            if pair not in seen:
                seen[pair] = True
                writer, reader = self.sides(pair.goes_back)
                fields = writer.named[pair.written].fields, reader.named[pair.read].fields
                found.extend(self.field_pairs(pair.goes_back, *fields))
        return found

"""Definitions that name one another as the nodes of graphs do: where some lead round, the first is at fault, and else they have a schema; so want of memory comes in
no answer's place. What is wanted is found by plain searches."""

PLACE = "rows/idl_graphs.py"


def typedef(node, row, mark):
    """A typedef names one or two in its type."""
    named = ["i8", "T%d", "map<T%d, list<T%d>>"][len(row)] % tuple(row)
    return "typedef %s %sT%d" % (named, mark, node)


def service(node, row, mark):
    """A service extends one."""
    return "service %sT%d%s {}" % (mark, node, " extends T%d" % row[0] if row else "")


def struct(node, row, mark):
    """A struct, of an even node, needs all; a union, of an odd one, one of them."""
    word, need = ("union", "") if node % 2 else ("struct", "required ")
    fields = "".join(" %d: %sT%d f%d" % (place, need, following, place) for place, following in enumerate(row, 1))
    return "%s %sT%d {%s }" % (word, mark, node, fields)


def constant(node, row, mark):
    """A constant has the name of one as its value."""
    return "const i32 T%d = %s%s" % (node, mark, "T%d" % row[0] if row else "7")


def reaches_itself(graph, node):
    met, left = set(), list(graph[node])
    while left:
        following = left.pop()
        if following not in met:
            met.add(following)
            left += graph[following]
    return node in met


def first_on_circle(graph):
    return next((node for node in range(len(graph)) if reaches_itself(graph, node)), None)


def first_endless(graph, unions):
    """The first node that doesn't come to an end, and is no union. The last are looked at first, for most edges lead on."""
    ended, more = set(), True
    while more:
        more = False
        for node in reversed(range(len(graph))):
            comes = [following in ended for following in graph[node]]
            if node not in ended and (all(comes) or unions and node % 2 and any(comes)):
                ended.add(node)
                more = True
    return next((node for node in range(len(graph)) if node not in ended and not (unions and node % 2)), None)


FORMS = {
    "TypedefCycle": (typedef, first_on_circle),
    "ServiceCycle": (service, first_on_circle),
    "StructLoop": (struct, lambda graph: first_endless(graph, True)),
    "ConstCycle": (constant, lambda graph: first_endless(graph, False)),
}


def judged(Row, title, kind, graph):
    """The definitions of a graph's nodes have a schema, or are refused at the one that is at fault."""
    written, search = FORMS[kind]
    fault = search(graph)
    text = " ".join(written(node, row, "^" if node == fault else "") for node, row in enumerate(graph))
    return Row(PLACE, "%s, %s" % (title, kind)).check({"a.thrift": text.encode()}, None if fault is None else kind)


def graph_of(edges, number):
    """The graph of a number: four nodes, each with so many edges at most, a digit of five an edge or none."""
    digits = [number // 5**place % 5 for place in range(4 * edges)]
    return [[digit for digit in digits[node * edges : node * edges + edges] if digit < 4] for node in range(4)]


def chain(count, last):
    """Nodes of which each leads to the next, and the last one to this."""
    return [[following] if following < count else [] for following in [*range(1, count), last]]


def rows(Row):
    for kind in ("TypedefCycle", "ServiceCycle", "ConstCycle"):
        for number in range(625):
            yield judged(Row, "graph %d of single edges" % number, kind, graph_of(1, number))
    for kind in ("TypedefCycle", "StructLoop"):
        for number in range(0, 389_000, 389):
            yield judged(Row, "graph %d of two edges" % number, kind, graph_of(2, number))
    for kind, count in (("TypedefCycle", 2_000), ("ServiceCycle", 1_000), ("StructLoop", 2_000), ("ConstCycle", 2_000)):
        # The chain ends, leads round, or leads to its last alone.
        for last in (count, 0, count - 1):
            yield judged(Row, "chain of %d whose last leads to %d" % (count, last), kind, chain(count, last))

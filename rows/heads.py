"""Payloads whose head is refused end their connection: each fault comes alone at each place where it may, and of two the first in reading order."""
BINARY = [
    # The first number needs four bytes, whatever they are.
    ("80", "Short"),
    ("8002", "Short"),
    ("800100", "Short"),
    ("000000", "Short"),
    # A strict head has no size, a part of it, no name, a part of it, no sequence id, a part of it.
    ("80010001", "Short"),
    ("80010001000000", "Short"),
    ("8001000100000001", "Short"),
    ("800100010000000470696e", "Short"),
    ("800100010000000470696e67", "Short"),
    ("800100020000000470696e67000000", "Short"),
    ("800100017fffffff70696e6700000000", "Short"),
    # An old one lacks the name, the type, the sequence id.
    ("7fffffff", "Short"),
    ("000000036164", "Short"),
    ("00000003616464", "Short"),
    ("0000000361646409000001", "Short"),
    # It has another version, with a name's length below 0 behind it too.
    ("800200010000000470696e670000000000", "Version 80020001"),
    ("81010001ffffffff", "Version 81010001"),
    ("ffffffff", "Version ffffffff"),
    # It has a name's length below 0, with a type that is no call's too.
    ("80010001ffffffff", "NameSize"),
    ("800100028000000000000000", "NameSize"),
    # It has the type of a reply, or none.
    ("800100020000000470696e670000000000", "MessageType 2"),
    ("000000036164640300000001", "MessageType 3"),
    ("800100000000000000000000", "MessageType 0"),
]

COMPACT = [
    ("80", "Version 00000080"),
    ("82", "Short"),
    ("8222", "Version 00000022"),
    ("8221", "Short"),
    ("822180", "Short"),
    ("82218080808080", "LongVarint"),
    ("8221000470696e", "Short"),
    ("8221008080808008", "NameSize"),
    ("822100ffffffff07", "Short"),
    ("82010000", "MessageType 0"),
    ("82e10000", "MessageType 7"),
]


def refused(Row, protocol, payload, why):
    """A payload ends its connection so."""
    row = Row("rows/heads.py", "%s: %s" % (protocol, payload))
    row.words, row.files = ["rehearse", "s.thrift", protocol, "0", "S=mirror"], {"s.thrift": b"service S { void ping() }"}
    size = len(payload) // 2
    row.input = b"open\ndata 0 %08x%s\nend 0\n" % (size, payload.encode())
    row.output = ("tape open 0\ntape read 0 4\ntape read 0 %d\ntape close 0\nconn 0 Envelope %s -\ncalls 0\n" % (size, why)).encode()
    return row


def rows(Row):
    for payload, why in BINARY:
        yield refused(Row, "binary", payload, why)
    for payload, why in COMPACT:
        yield refused(Row, "compact", payload, why)

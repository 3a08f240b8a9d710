"""Arguments are read by what their method declares: each row has them in the binary and in the compact protocol, and what is made of them."""
import struct

IDL = b"""struct Needy { 1: required i32 a }
union Either { 1: i32 a, 2: bool b }
service S { i32 m(1: i32 a = 7, 2: list<i32> b, 3: Needy c, 4: map<i32, i32> d, 5: Either e) }
"""

ROWS = [
    # Nothing is out of order.
    (
        "080001000000090f00020800000001000000010c000308000100000004000d000408080000000100000001000000020c0005020002010000",
        "15121915021c1508001b015502041c210000",
        "{1=9i,2=list<i32>[1i],3={1=4i},4=map<i32,i32>{1i=2i},5={2=true}}",
    ),
    # A default is filled in.
    ("00", "00", "{1=7i}"),
    # Ids fall, and one stands twice.
    ("0f0002080000000100000001080001000000050800010000000900", "29150205020a05021200", "{1=9i,2=list<i32>[1i]}"),
    # A list of another element type stands behind one that fits.
    ("080001000000090f00020800000001000000010f000202000000010100", "15121915020904110100", "{1=9i,2=list<i32>[1i]}"),
    # An empty list of another element type fits.
    ("080001000000090f0002020000000000", "1512190100", "{1=9i,2=list<i32>[]}"),
    # What is missing in a field counts only where no later one replaces it.
    ("080001000000090c0003000c0003080001000000040000", "15122c000c0615080000", "{1=9i,3={1=4i}}"),
    ("0c00030000", "3c0000", "Missing a"),
    # A fault of the bytes behind it comes first.
    ("0c000300", "3c00", "Short"),
    # Keys fall, and one stands twice.
    (
        "080001000000090d000408080000000300000002000000010000000100000005000000020000000600",
        "15123b03550402020a040c00",
        "{1=9i,4=map<i32,i32>{1i=5i,2i=6i}}",
    ),
    # Two fields of a union are sent.
    ("0c000508000100000003020002010000", "5c1506110000", "UnionFields Either"),
    # Uuids are passed over in a list that isn't declared, and one is no number.
    (
        "080001000000090f0009100000000200112233445566778899aabbccddeeffffffffffffffffffffffffffffffffff00",
        "1512892d00112233445566778899aabbccddeeffffffffffffffffffffffffffffffffff00",
        "{1=9i}",
    ),
    ("10000100112233445566778899aabbccddeeff00", "1d00112233445566778899aabbccddeeff00", "{1=7i}"),
    # A key is of another type, and so is a value in a field that isn't declared.
    ("0d00040208000000010100000005080001000000090d0009080200000001000000050100", "4b0115010a0502128b01510a0100", "{1=9i}"),
]

# Each fault comes at each place; where there are two, the first in reading order.
BINARY_FAULTS = [
    # There is no header, a part of one, no value, a part of one, no end.
    ("", "Short"),
    ("02", "Short"),
    ("0200", "Short"),
    ("020001", "Short"),
    ("030001", "Short"),
    ("04000100000000000000", "Short"),
    ("06000100", "Short"),
    ("080001000000", "Short"),
    ("0a000100000000000000", "Short"),
    ("0b0001000000", "Short"),
    ("0b00010000000261", "Short"),
    ("0c0001", "Short"),
    ("0c000100", "Short"),
    ("0d000102", "Short"),
    ("0d00010202000000", "Short"),
    ("0e000102000000", "Short"),
    ("0f0001", "Short"),
    ("0f00010800000001000000", "Short"),
    ("03000105", "Short"),
    # There are more elements than bytes are left, up to the most.
    ("0b00017fffffff00000000000000", "Short"),
    ("0f0001087fffffff00000000000000", "Short"),
    ("0e000102000000030100", "Short"),
    ("0d000108084000000000000000000000", "Short"),
    # A code is of no kind: that of a field, an element, a key, a map's value.
    ("0100010000", "BadType 1"),
    ("0500010000", "BadType 5"),
    ("0700010000", "BadType 7"),
    ("0900010000", "BadType 9"),
    ("1100010000", "BadType 17"),
    ("ff", "BadType 255"),
    ("0c00018000010000", "BadType 128"),
    ("0f000100000000010000", "BadType 0"),
    ("0e000101000000010000", "BadType 1"),
    ("0d0001050200000001000000", "BadType 5"),
    ("0d0001021100000001000000", "BadType 17"),
    # A size is below 0.
    ("0b0001ffffffff00", "BadSize"),
    ("0d000102028000000000", "BadSize"),
    ("0e000102fffffffe00", "BadSize"),
    ("0f0001028000000100", "BadSize"),
    # Of two faults the code comes before the id, the size before the codes, the first code before the second.
    ("01", "BadType 1"),
    ("0f000101ffffffff", "BadSize"),
    ("0f0001017fffffff", "Short"),
    ("0f0001010000000201", "Short"),
    ("0d0001070900000001000000", "BadType 7"),
    ("0d00010709ffffffff", "BadSize"),
    ("0d000107", "Short"),
    # A fault in an earlier field, element or pair comes first.
    ("030001050700020b0003ffffffff", "BadType 7"),
    ("0f00010b00000002ffffffff00000009", "BadSize"),
    ("0d0001020c0000000101070000", "BadType 7"),
    # A uuid has a byte less than it must, and a second one is cut off.
    ("10000100112233445566778899aabbccddee", "Short"),
    ("0f0004100000000200112233445566778899aabbccddeeff00", "Short"),
]

COMPACT_FAULTS = [
    ("", "Short"),
    ("05", "Short"),
    ("0580", "Short"),
    ("0580808080", "Short"),
    ("058080808080", "LongVarint"),
    ("16808080808080808080", "Short"),
    ("1680808080808080808080", "LongVarint"),
    ("10", "BadType 0"),
    ("0e", "BadType 14"),
    ("1e", "BadType 14"),
    ("ff", "BadType 15"),
    ("03feff03001300", "FieldRange"),
    ("188080808008", "BadSize"),
    ("18ffffffff07", "Short"),
    ("180261", "Short"),
    ("19f38080808008", "BadSize"),
    ("19f3808080808000", "LongVarint"),
    ("19f3ffffffff07000000", "Short"),
    ("192f00", "Short"),
    ("191f00", "BadType 15"),
    ("1b01e000", "BadType 14"),
    ("1b023e00", "BadType 14"),
    # A uuid has a byte less than it must, and a second one is cut off.
    ("1d00112233445566778899aabbccddee", "Short"),
    ("492d00112233445566778899aabbccddeeff00", "Short"),
]


def sized(text):
    """Bytes behind their number."""
    return struct.pack(">I", len(text)) + text


def message(protocol, kind, fields):
    """The frame of a message of m."""
    head = "8001%04x000000016d00000000" % kind if protocol == "binary" else "82%02x00016d" % (kind * 32 + 1)
    return sized(bytes.fromhex(head) + fields)


def returned(protocol, number):
    """The result that is this number, below 64."""
    return struct.pack(">bhib", 8, 0, number, 0) if protocol == "binary" else bytes([5, 0, 2 * number, 0])


def refused(protocol, why):
    """The exception that tells why arguments are refused."""
    text = b"Bad arguments: " + why.encode()
    if protocol == "binary":
        return b"\x0b\0\1" + sized(text) + b"\x08\0\2\0\0\0\7\0"
    return b"\x18" + bytes([len(text)]) + text + b"\x15\x0e\0"


def read_so(Row, protocol, args, made):
    """Arguments are read as a struct, of which a mirror returns the first number, or they are refused."""
    row = Row("rows/arguments.py", "%s: %s" % (protocol, args[:80]))
    row.words, row.files = ["rehearse", "s.thrift", protocol, "0", "S=mirror"], {"s.thrift": IDL}
    call = message(protocol, 1, bytes.fromhex(args))
    row.input = b"open\ndata 0 %s\nend 0\n" % call.hex().encode()
    if made.startswith("{"):
        first = made[3 : made.index("i")]
        reply, told = message(protocol, 2, returned(protocol, int(first))), "call 0 0 0 m %s ok %si\n" % (made, first)
    else:
        reply, told = message(protocol, 3, refused(protocol, made)), ""
    report = "tape open 0\ntape read 0 4\ntape read 0 %d\ntape wrote 0 %d\ntape end 0\ntape close 0\n" % (len(call) - 4, len(reply))
    row.output = ("%s%sconn 0 End %s\ncalls %d\n" % (report, told, reply.hex(), 1 if told else 0)).encode()
    return row


def rows(Row):
    # Lists in one another stand in a field that isn't declared: as many as are passed over, and one more.
    deep = [("0f0009" + "0f00000001" * more + "020000000000", "99" + "19" * more + "0100", made) for more, made in [(62, "{1=7i}"), (63, "TooDeep")]]
    for row in ROWS + deep:
        yield read_so(Row, "binary", row[0], row[2])
        yield read_so(Row, "compact", row[1], row[2])
    for args, why in BINARY_FAULTS:
        yield read_so(Row, "binary", args, why)
    for args, why in COMPACT_FAULTS:
        yield read_so(Row, "compact", args, why)

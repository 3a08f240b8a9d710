"""Lines of a script are of a form or of none: each kind of fault is told on a line of each form, and of two faults the first one."""
OPTIONS = "@tutorial binary 2 Calculator=calculator"
REHEARSE, RECORD = "rehearse " + OPTIONS, "record " + OPTIONS

# These lines, parted by `;`, are refused so where a schedule may stand, and so where none may. They stand behind two openings, of which the second one's
# input has ended, and there are two workers. A line that isn't refused leaves the first connection without its end.
JUDGED = [
    (
        "open;data 0 00;data 0 aF09;write 0 1;write 1 4294967295;block 0;block 1;writefail 0;writefail 1;rest;;#;#open 0",
        None,
        None,
    ),
    (
        "loop 0;loop 1;work 0;work 1;collect",
        None,
        "Schedule",
    ),
    (
        "data 2 00;end 2;readfail 2;write 2 1;block 2;writefail 2;data 4294967295 00;end 4294967295;readfail 4294967295;"
        "write 4294967295 1;block 4294967295;writefail 4294967295",
        "NoConnection",
        "NoConnection",
    ),
    (
        "loop 2;loop 4294967295",
        "NoConnection",
        "Schedule",
    ),
    (
        "work 2;work 4294967295",
        "NoWorker",
        "Schedule",
    ),
    (
        "data 1 00;end 1;readfail 1",
        "AfterEnd",
        "AfterEnd",
    ),
    # They have other words, or words too many or too few.
    (
        "opened;open ; open;open 0;Open;open\r;data;data 0;data 0 00 00;data  0 00;data 0  00;end;end ;end 0 ;end 0 0;end\t0;readfail;"
        "readfail 0 1;write;write 0;write 0 1 1;block;block 0 1;writefail;writefail 0 1;rest ;rest 0;rests;loop;loop 0 0;work;"
        "work 0 0;collect ;collect 0;schedule; ; #",
        "BadLine",
        "BadLine",
    ),
    # They have numbers that are none, or too large.
    (
        "data 4294967296 00;end 4294967296;readfail 4294967296;write 4294967296 1;write 0 4294967296;block 4294967296;"
        "writefail 4294967296;loop 4294967296;work 4294967296;data 00 00;end 00;readfail 00;write 00 1;write 0 01;block 00;"
        "writefail 00;loop 00;work 00;end +0;end -0;end -1;end x;loop -1;work x;end 0x0;end 18446744073709551616;write 0 0;write 1 0",
        "BadLine",
        "BadLine",
    ),
    # They have bytes that are none.
    (
        "data 0 ;data 0 0;data 0 000;data 0 0g;data 0 g0;data 0 0x00;data 0 00 ",
        "BadLine",
        "BadLine",
    ),
    # They have no form, and another fault besides.
    (
        "data 2 0;data 1 0;end 2 2;end 1 ;readfail 1 1;write 2 0;block 2 2;writefail 2 ;loop 2 2;work 2 2",
        "BadLine",
        "BadLine",
    ),
]

# These lines have one fault each, behind as many openings as may be, of which the first one's input has ended; there are two workers.
FAULTY = [("opens\n", "BadLine"), ("end 1024\n", "NoConnection"), ("work 2\n", "NoWorker"), ("end 0\n", "AfterEnd"), ("open\n", "TooMany")]

MOST = "open\n" * 1024 + "end 0\n"


def faulty(Row, words, text, line, kind):
    """A text is no script for a fault of this kind in this line."""
    row = Row("rows/script_forms.py", "%s: %s %d" % (words.split()[0], text[-40:].encode(), line))
    row.words, row.input, row.status = words.split(), text.encode(), 3
    row.errors = b"thriftd: script %d %s\n" % (line, kind.encode())
    return row


def judged(Row, line, words, kind):
    """A line is refused so, or it isn't and there is no end."""
    text = "open\nopen\nend 1\n" + line + "\n"
    return faulty(Row, words, text, 4, kind) if kind else faulty(Row, words, text, 5, "NoEnd")


def rows(Row):
    for lines, scheduled, unscheduled in JUDGED:
        for line in lines.split(";"):
            yield judged(Row, line, REHEARSE, scheduled)
            yield judged(Row, line, RECORD, unscheduled)
    for first, kind in FAULTY:
        for second, _ in FAULTY:
            yield faulty(Row, REHEARSE, MOST + first + second, 1026, kind)
            yield faulty(Row, RECORD, MOST + first + second, 1026, "Schedule" if kind == "NoWorker" else kind)
    # An opening too many is a line of its form.
    yield faulty(Row, REHEARSE, MOST + "open ", 1026, "BadLine")
    yield faulty(Row, REHEARSE, MOST + "open\n", 1026, "TooMany")
    # A script has at most 1,024 connections and 67,108,864 bytes.
    yield faulty(Row, RECORD, "open\n" * 1024, 1025, "NoEnd")
    yield faulty(Row, RECORD, "open\n" * 1025, 1025, "TooMany")
    yield faulty(Row, RECORD, "x" * 67108865, 0, "TooLong")

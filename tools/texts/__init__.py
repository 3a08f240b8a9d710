"""The texts that the program reads and writes, for the tools, the tests and the trials.

values    values and their text: `{1=1i,2="a"}`
schemas   what `check` prints of an IDL
entries   the lines of journals, reports and summaries
scripts   the lines of scripts, as a stream
compat    the rules of `compat` over two schemas, which tell all breaks
wire      payloads: message heads and structs in both protocols, and frames
named     values as JSON, with the names of a schema, and back
idl       the tokens of an IDL
program   the program itself: where it is, and what it prints
tool      what the tools have in common: words, errors, ends
"""


class Fault(Exception):
    """A text that is none, or bytes that are none: `what` is wrong at the place `at`, from 0."""

    def __init__(self, what, at=0):
        super().__init__(what, at)
        self.what, self.at = what, at

    def __str__(self):
        return self.what

#!/usr/bin/env python3
"""deepest.py PROGRAM: runs the deepest and the longest texts that the limits allow, and prints the stack that each run takes.

The program's own stack ends at the system's limit, 8 MiB as a rule. A run is wrong where it ends with another status than is wanted."""
import os
import sys
import tempfile

from runs import Watch

LIBRARY = "library (L) { time_unit : \"1ps\";\n%s}\n"
CELL = LIBRARY % "cell (C) {\n%s}\n"
GATE = CELL % (
    "pin (A) { direction : input; }\npin (B) { direction : input; }\n"
    "pin (Y) { direction : output; function : \"%s\"; timing () { related_pin : \"A\"; when : \"%s\";"
    " cell_rise (t) { values (\"1\"); } } }\n"
)
FLIP_FLOP = CELL % (
    "pin (A) { direction : input; }\npin (B) { direction : input; }\n"
    "ff (Q, N) { next_state : \"%s\"; clocked_on : \"B\"; }\npin (Y) { direction : output; function : \"Q\"; }\n"
)
MOST = 4096


def function_texts():
    """Texts of 4,096 bytes over the one name that is given, nested in each way that the grammar has."""
    yield "brackets", lambda name: "(" * 2047 + name + ")" * 2047
    yield "inversions before", lambda name: "!" * (MOST - 1) + name
    yield "inversions after", lambda name: name + "'" * (MOST - 1)
    yield "inverted brackets", lambda name: "!(" * 1365 + name + ")" * 1365
    yield "products side by side", lambda name: " ".join([name] * 2048)
    yield "exclusive ors", lambda name: "^".join([name] * 2048)
    yield "sums", lambda name: "+".join([name] * 2048)
    yield "sums to the right", lambda name: "+(".join([name] * 1024) + ")" * 1023


def functions():
    for name, text in function_texts():
        yield "udp, " + name, ["udp", "P", text("A")], {}, 0
        yield "output and condition, " + name, None, GATE % (text("A"), text("B")), 0
        yield "next state, " + name, None, FLIP_FLOP % text("A"), 0


def supports():
    names = ["p%d" % k for k in range(10)]
    yield "udp, exclusive or of ten names", ["udp", "P", "^".join(names)], {}, 0
    pins = "".join("pin (%s) { direction : input; }\n" % name for name in names[:8])
    state = "ff (Q, N) { next_state : \"%s\"; clocked_on : \"p0\"; }\n" % "^".join(names[1:8])
    yield "flip-flop over eight pins", None, CELL % (pins + state + "pin (Y) { direction : output; function : \"Q\"; }\n"), 0


def groups():
    nested = "g () { " * 29 + "a : b; " + "} " * 29
    yield "groups, 32 deep", None, CELL % ("pin (A) { direction : input; %s}\n" % nested), 0
    deeper = "g () { " * 30 + "a : b; " + "} " * 30
    yield "groups, 33 deep", None, CELL % ("pin (A) { direction : input; %s}\n" % deeper), 2
    yield "groups, a million opened", None, "library (L) {" + "g () {" * 1000000, 2
    yield "a value of a million brackets", None, LIBRARY % ("a : " + "(" * 1000000 + ";\n"), 0
    yield "a million statements in a cell", None, CELL % ("pin (A) { direction : input; }\n" + "a : b;\n" * 1000000), 0
    rows = ", ".join(["H : - : L"] * 100000)
    table = "statetable (\"A\", \"Q\") { table : \"%s\"; }\n" % rows
    pins = "pin (A) { direction : input; }\npin (Y) { direction : output; internal_node : \"Q\"; }\n"
    yield "a state table of 100,000 rows", None, CELL % (pins + table), 0


def models():
    row = "    0 : 0;\n" * 1000000
    primitive = "primitive P (q, a);\noutput q;\ninput a;\ntable\n%sendtable\nendprimitive\n" % row
    module = "`timescale 1ps/1ps\n%smodule M (A, Y);\ninput A;\noutput Y;\nP (Y, A);\nendmodule\n" % primitive
    words = ["replay-verilog", "a.v", "a.stim"]
    yield "a primitive of a million rows", words, {"a.v": module, "a.stim": ""}, 0
    yield "comments, a million opened", words, {"a.v": "/*" * 1000000, "a.stim": ""}, 5
    words = ["replay-vital", "a.vhd", "a.stim"]
    yield "VHDL, a million brackets", words, {"a.vhd": "(" * 1000000, "a.stim": ""}, 5
    words = ["replay-verilog", "a.v", "a.stim"]
    constant = "`timescale 1ps/1ps\nmodule C (Y);\n  output Y;\n  buf (Y, 1'b1);\nendmodule\n"
    yield "a stimulus of a million sections", words, {"a.v": constant, "a.stim": "cell C\n" * 1000000}, 0


def texts():
    yield from functions()
    yield from supports()
    yield from groups()
    yield from models()


def main():
    program = os.path.abspath(sys.argv[1])
    wrong = 0
    print("%-46s %9s %6s %9s %9s" % ("text", "bytes", "status", "requests", "stack"))
    with tempfile.TemporaryDirectory() as folder:
        watch = Watch(folder)
        for name, words, files, wanted in texts():
            if words is None:
                words, files = ["translate", "a.lib", "a.v", "a.vhd"], {"a.lib": files}
            files = {name: text.encode() for name, text in files.items()}
            left, requests, stack = watch.measured(program, words, files)
            size = sum(map(len, files.values())) or len(words[-1])
            well = left.status == wanted
            wrong += not well
            end = "" if well else "  wanted status %d" % wanted
            print("%-46s %9d %6d %9d %9d%s" % (name, size, left.status, requests, stack, end))
    return wrong > 0


if __name__ == "__main__":
    sys.exit(main())

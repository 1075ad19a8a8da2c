#!/usr/bin/env python3
"""make.py KIND SIZE: prints a hostile Liberty text, a hostile file of models, or the last word of `udp` or `selftest`, of this kind and
size; make.py KIND SIZE changes prints the stimulus of a kind that is replayed or simulated, make.py KIND SIZE models the Verilog file of
a kind that is compared; make.py alone lists the kinds, each with its command and its three sizes.

Each kind is small to write and dear to read or to run carelessly: it repeats one thing that a library, or a model, repeats only a
few times."""
import itertools
import string
import sys


def library(*cells):
    return "library (L) {\n" + "".join(cells) + "}\n"


def cell(*parts):
    return "cell (C) {\n" + "".join(parts) + "}\n"


def inputs(names):
    return "".join("pin (%s) { direction : input; }\n" % name for name in names)


def setup(related, when=""):
    condition = ' when : "%s";' % when if when else ""
    return 'timing () { timing_type : setup_rising; related_pin : "%s";%s rise_constraint (t) { values ("1"); } }\n' % (
        related,
        condition,
    )


def arc(related, when=""):
    condition = ' when : "%s";' % when if when else ""
    return 'timing () { related_pin : "%s";%s cell_rise (t) { values ("1"); } }\n' % (related, condition)


def literals(number, names):
    """the product of the names, each plain or inverted by a bit of the number"""
    return "*".join(("" if number >> k & 1 else "!") + name for k, name in enumerate(names))


def conditions(count, names):
    """unlike conditions over these names: sums of two products"""
    pairs = itertools.combinations(range(1 << len(names)), 2)
    return [literals(a, names) + "+" + literals(b, names) for a, b in itertools.islice(pairs, count)]


def long_text(names, end, most=4096):
    """a text of this many bytes at most, over these names, that ends so"""
    part = "+".join("*".join(pair) for pair in itertools.product(names, names)) + "+"
    text = part * (most // len(part) + 1)
    return text[: (most - len(end)) // len(part) * len(part)] + end


def one_pin_group_of_names(n):
    names = " ".join("p%d" % k for k in range(n)).replace(" ", ", ")
    pins = "pin (%s) { direction : input; %s}\n" % (names, setup(" ".join(["A"] * n)))
    return library(cell(inputs(["A"]), pins))


def shared_condition(n):
    return library(
        cell(
            inputs(["A", "B", "D"]),
            "pin (E) { direction : input; %s}\n" % setup(" ".join(["A"] * n), "*".join(["B"] * 2048)),
        )
    )


def outputs_by_related(n):
    names = ", ".join("y%d" % k for k in range(n))
    return library(
        cell(inputs(["A"]), 'pin (%s) { direction : output; function : "A"; %s}\n' % (names, arc(" ".join(["A"] * n))))
    )


def outputs_by_groups(n):
    """30 outputs, 30 related pins, n timing groups with unlike conditions"""
    related = ["a%d" % k for k in range(30)]
    groups = "".join(arc(" ".join(related), when) for when in conditions(n, ["S0", "S1", "S2", "S3", "S4"]))
    outputs = ", ".join("y%d" % k for k in range(30))
    return library(
        cell(
            inputs(related + ["S0", "S1", "S2", "S3", "S4"]),
            'pin (%s) { direction : output; function : "a0"; %s}\n' % (outputs, groups),
        )
    )


def unlike_conditions(n):
    names = ["S%d" % k for k in range(8)]
    groups = "".join(arc("A", when) for when in conditions(n, names))
    return library(cell(inputs(["A"] + names), 'pin (Y) { direction : output; function : "A"; %s}\n' % groups))


def unlike_ends(n):
    names = ["S%d" % k for k in range(8)]
    groups = "".join(
        arc(
            "A",
            long_text(
                names[:2],
                literals(k, names[:8]) + ("*S8" if k >> 8 & 1 else "*!S8") + ("*S9" if k >> 9 & 1 else "*!S9"),
            ),
        )
        for k in range(n)
    )
    return library(
        cell(inputs(["A"] + names + ["S8", "S9"]), 'pin (Y) { direction : output; function : "A"; %s}\n' % groups)
    )


def flip_flops(n):
    names = ["D%d" % k for k in range(8)]
    text = long_text(names, names[0])
    groups = "".join(
        'ff (q%d, n%d) { next_state : "%s"; clocked_on : "%s"; clear : "%s"; preset : "%s"; clear_preset_var1 : L; clear_preset_var2 : L; }\n'
        % (k, k, text, text, text, text)
        for k in range(n)
    )
    return library(cell(inputs(names), groups, 'pin (Y) { direction : output; function : "q0"; }\n'))


def table_parts(columns, nodes, rows):
    """a table with these rows, the pins of its nodes, and an output that shows the first one"""
    return (
        'statetable ("%s", "%s") { table : "%s"; }\n' % (" ".join(columns), " ".join(nodes), ", ".join(rows))
        + "".join('pin (%s) { direction : internal; internal_node : "%s"; }\n' % (node, node) for node in nodes)
        + 'pin (Y) { direction : output; state_function : "%s"; }\n' % nodes[0]
    )


def state_table(columns, nodes, rows):
    return library(cell(inputs(columns), table_parts(columns, nodes, rows)))


def table_rows(n):
    """rows of two inputs"""
    return state_table(["A", "B"], ["Q"], ["L L : - : L"] * (n - 1) + ["H H : - : H"])


EIGHT = ["D%d" % k for k in range(8)]


def falling(columns, n):
    """rows that fit no change of one input"""
    return [" ".join(["F"] * len(columns)) + " : - : L"] * n


def falling_rows(n):
    return state_table(EIGHT, ["Q"], falling(EIGHT, n))


def rows_of_nodes(n):
    """such rows over sixteen nodes"""
    nodes = ["Q%d" % k for k in range(16)]
    return state_table(EIGHT, nodes, [" : ".join(" ".join(part) for part in (["F"] * 8, ["-"] * 16, ["L"] * 16))] * n)


def halved_rows(n):
    """rows that are two rows each"""
    return state_table(EIGHT, ["Q"], [" ".join(["L/H"] * 8) + " : - : L"] * n)


def never(names):
    """a text over these names that is always 0"""
    return "!%s*%s" % (names[0], "*".join(names))


def scan_cell(pins, others, groups, names, behind):
    """a cell and its test cell that agree: the groups and the outputs of the one name these pins, those of the other these others"""
    enable = "pin (SE) { direction : input; %s}\n"

    def part(pins, declared, signal):
        flip_flops = "".join(
            'ff (q%d, n%d) { next_state : "%s"; clocked_on : "%s"; }\n' % (k, k, never(pins), never(pins)) for k in range(groups)
        )
        outputs = "".join('pin (%s) { direction : output; function : "%s"; }\n' % (name, behind(pins)) for name in names)
        return inputs(declared) + enable % signal + flip_flops + outputs

    test = part(others, others, 'signal_type : "test_scan_enable"; ')
    return library(cell(part(pins, pins + others, ""), "test_cell () {\n" + test + "}\n"))


def test_tables(n):
    """such rows in a cell and in its test cell, over other pins"""
    others = ["E%d" % k for k in range(7)]
    enable = "pin (SE) { direction : input; %s}\n"
    test = inputs(others) + enable % 'signal_type : "test_scan_enable"; ' + table_parts(others, ["Q"], falling(others, n))
    own = inputs(EIGHT + others) + enable % "" + table_parts(EIGHT, ["Q"], falling(EIGHT, n))
    return library(cell(own, "test_cell () {\n" + test + "}\n"))


def test_groups(n):
    return scan_cell(EIGHT, ["E%d" % k for k in range(7)], n, ["Y"], lambda pins: "q0")


def test_outputs(n):
    pins = [["%s%d" % (letter, k) for k in range(10)] for letter in "DE"]
    return scan_cell(*pins, 0, ["y%d" % k for k in range(n)], never)


def lines_without_semicolons(n):
    return library("a : b\n" * n)


def delay_file(n):
    return (
        '(DELAYFILE (SDFVERSION "3.0")\n'
        + '(CELL (CELLTYPE "INVX1") (INSTANCE u1) (DELAY (ABSOLUTE (IOPATH A Y (0.1) (0.2)))))\n' * n
        + ")\n"
    )


def brackets(n):
    return "library(L){a(" + "(" * n + "\n"


def cut_cell(n):
    return "library(L){cell(C){" + "a:1;" * n


def repeated(text):
    """cells that repeat this text"""
    return lambda n: "library(L){cell(C){" + text * n + "}}"


def deep(opening):
    """cells of groups that open so, thirty deep, as deep as groups may be"""
    return repeated(opening * 30 + "}" * 30)


def any_letters(count, text):
    """cells of this text with so many letters or digits in its places, all choices of them in turn"""

    def made(n):
        letters = itertools.cycle(itertools.product(string.ascii_letters + string.digits, repeat=count))
        return repeated("".join(text % some for some in itertools.islice(letters, n)))(1)

    return made


def short_arguments(n):
    return "library(L){cell(C){a(" + "b " * n + ");}}"


def long_timing_type(n):
    """a timing group of a type that makes nothing, under a group of 63 pins"""
    names = ", ".join("y%d" % k for k in range(63))
    timing = 'timing () { related_pin : "A"; timing_type : "%s"; }' % ("t" * n)
    return library(cell(inputs(["A"]), 'pin (%s) { direction : output; function : "A"; %s }\n' % (names, timing)))


# Models to replay. Each kind is a pair of functions of its size: the models and the stimulus.


def bus_type(name, bits):
    return "type (%s) { base_type : array; bit_width : %d; bit_from : %d; bit_to : 0; }\n" % (name, bits, bits - 1)


def timing_of_a_bus(n):
    """one bus of 64 bits with this many timing groups, each of another condition"""
    names = ["A%d" % k for k in range(6)]
    groups = "".join(arc("R", when) for when in conditions(n, names))
    pins = 'bus (Q) { bus_type : T; direction : output; function : "R"; %s}\n' % groups
    return library(bus_type("T", 64), cell(inputs(["R", *names]), pins))


def buses_of_a_cell(n):
    return library(bus_type("T", 64), cell(*("bus (B%d) { bus_type : T; direction : input; }\n" % k for k in range(n))))


def types_and_buses(n):
    """as many types as cells, each with a bus of the first type"""
    buses = "bus (A) { bus_type : T0; direction : input; } bus (Y) { bus_type : T0; direction : output; function : \"A\"; }"
    one = "cell (C%d) { " + buses + " }\n"
    return library(*(bus_type("T%d" % k, 1) for k in range(n)), *(one % k for k in range(n)))


def bank_of_long_texts(n):
    """a bank of this width with four texts over buses of this width, of up to 4 KB where names are replaced by those of bits"""
    names = list("DE")
    text = long_text(names, "D", 1600)
    said = "".join('%s : "%s"; ' % (word, text) for word in ("next_state", "clocked_on", "clear", "preset"))
    said += "clear_preset_var1 : L; clear_preset_var2 : L; "
    buses = "".join("bus (%s) { bus_type : T; direction : input; }\n" % name for name in names)
    output = 'bus (Q) { bus_type : T; direction : output; function : "I"; }\n'
    return library(bus_type("T", n), cell(buses, "ff_bank (I, N, %d) { %s}\n" % (n, said), output))


def bundle_of_one_name(n):
    return library(cell("bundle (B) { members (%s); direction : input; }\n" % ", ".join(["A"] * n)))


def timing_of_a_bundle(n):
    """a bundle with this many members and as many timing groups, which each of them has"""
    members = ", ".join("A%d" % k for k in range(n))
    groups = 'timing () { related_pin : "R"; }\n' * n
    return library(cell(inputs(["R"]), "bundle (B) { members (%s); direction : input; %s}\n" % (members, groups)))


def timing_of_an_output_bundle(n):
    """the same of outputs, whose function names another bundle of as many members"""
    bundles = (
        "bundle (%s) { members (%s); %s }\n" % (name, ", ".join("%s%d" % (name, k) for k in range(n)), said)
        for name, said in (
            ("A", "direction : input;"),
            ("B", 'direction : output; function : "A"; ' + 'timing () { related_pin : "R"; }\n' * n),
        )
    )
    return library(cell(inputs(["R"]), *bundles))


def timing_of_a_floating_bundle(n):
    """a bundle of outputs that may float, with this many members and as many timing groups, which each of them has"""
    members = ", ".join("A%d" % k for k in range(n))
    said = 'direction : output; function : "R"; three_state : "E"; ' + 'timing () { related_pin : "R"; }\n' * n
    return library(cell(inputs(["R", "E"]), "bundle (B) { members (%s); %s}\n" % (members, said)))


def timing_of_a_bundle_with_a_pin(n):
    """a bundle with this many members and as many timing groups, and a pin group for its first member"""
    members = ", ".join("A%d" % k for k in range(n))
    said = 'direction : input; pin (A0) { } ' + 'timing () { related_pin : "R"; }\n' * n
    return library(cell(inputs(["R"]), "bundle (B) { members (%s); %s}\n" % (members, said)))


def timing_that_names_a_bundle(n, group='timing () { related_pin : "A"; }\n'):
    """a bundle with this many members and as many timing groups, whose related pin is another bundle of as many members"""
    bundles = (
        "bundle (%s) { members (%s); direction : input; %s}\n" % (name, ", ".join("%s%d" % (name, k) for k in range(n)), said)
        for name, said in (("A", ""), ("B", group * n))
    )
    return library(cell(*bundles))


def checks_that_name_a_bundle(n):
    """the same with a table in each timing group"""
    return timing_that_names_a_bundle(n, setup("A"))


def timing_of_floating_bits(n):
    """the same of outputs that may float, behind a pin that does"""
    first = 'pin (Z) { direction : output; function : "E"; three_state : "E"; }\n'
    bundles = (
        "bundle (%s) { members (%s); %s}\n" % (name, ", ".join("%s%d" % (name, k) for k in range(n)), said)
        for name, said in (
            ("A", "direction : input; "),
            (
                "B",
                'direction : output; function : "A"; three_state : "E"; ' + 'timing () { related_pin : "A"; }\n' * n,
            ),
        )
    )
    return library(cell(inputs(["E"]), first, *bundles))


def statements_of_a_bundle(n):
    """a bundle of this many outputs, whose function names another bundle, with three times as many statements that are not read"""
    bundles = (
        "bundle (%s) { members (%s); %s}\n" % (name, ", ".join("%s%d" % (name, k) for k in range(n)), said)
        for name, said in (("A", "direction : input; "), ("B", 'direction : output; function : "A"; ' + "a : 1;\n" * (3 * n)))
    )
    return library(cell(*bundles))


def functions_of_a_bundle(n):
    """a bundle of this many outputs with as many functions, each of which names another bundle"""
    bundles = (
        "bundle (%s) { members (%s); %s}\n" % (name, ", ".join("%s%d" % (name, k) for k in range(n)), said)
        for name, said in (("A", "direction : input; "), ("B", "direction : output; " + 'function : "A";\n' * n))
    )
    return library(cell(*bundles))


def pins_of_a_bundle(n):
    """a bundle of this many members with a pin group for each"""
    members = ", ".join("B%d" % k for k in range(n))
    pins = "".join("pin (B%d) { capacitance : 1; }\n" % k for k in range(n))
    return library(cell("bundle (B) { members (%s); direction : input; %s}\n" % (members, pins)))


def related_words(n):
    """as many buses as words of a related pin"""
    buses = ('bus (B%d) { bus_type : T; direction : input; }\n' % k for k in range(n))
    words = " ".join("A%d" % k for k in range(n))
    pin = 'pin (Y) { direction : output; function : "R"; timing () { related_pin : "%s"; } }\n' % words
    return library(bus_type("T", 1), cell(inputs(["R"]), *buses, pin))


def module(header, *parts, tables="", name="M"):
    return "`timescale 1ps/1ps\n" + tables + "module %s (%s);\n" % (name, ", ".join(header)) + "".join(parts) + "endmodule\n"


def declared(word, names):
    return "".join("  %s %s;\n" % (word, name) for name in names)


def specified(*lines):
    return "  specify\n" + "".join("    %s;\n" % line for line in lines) + "  endspecify\n"


def primitive(name, inputs, rows, state=False):
    ports = ["i%d" % k for k in range(inputs)]
    return (
        "primitive %s (q, %s);\n  output q;\n" % (name, ", ".join(ports))
        + ("  reg q;\n" if state else "")
        + declared("input", ports)
        + "  table\n"
        + "".join("    %s;\n" % row for row in rows)
        + "  endtable\nendprimitive\n"
    )


BUFFER = primitive("B", 1, ["0 : 0", "1 : 1"])
LATCH = primitive("L", 1, ["(01) : ? : 1", "(10) : ? : 0", "(?x) : ? : -", "(x?) : ? : -"], state=True)


def turns(name, count, cell="M"):
    """a section of so many changes of one input, to and fro"""
    return "cell %s\n" % cell + "".join("%d %s %d\n" % (100 * (k + 1), name, k % 2) for k in range(count))


def outputs_of_one_input(n):
    outputs = ["y%d" % k for k in range(n)]
    driven = "".join("  B (%s, A);\n" % name for name in outputs)
    return module(["A"] + outputs, declared("input", ["A"]), declared("output", outputs), driven, tables=BUFFER)


def conditional_paths(wires, n):
    """n `if` paths on these wires in turn and n `ifnone` paths, all of the same two ports"""
    some = ["if (%s) (A => Y) = (1, 1)" % wires[k % len(wires)] for k in range(n)]
    driven = "".join("  B (%s, B1);\n" % wire for wire in wires)
    return module(
        ["A", "B1", "Y"],
        declared("input", ["A", "B1"]),
        declared("output", ["Y"]),
        declared("wire", wires),
        driven + "  B (Y, A);\n",
        specified(*some, *["ifnone (A => Y) = (2, 2)"] * n),
        tables=BUFFER,
    )


def conditions_of_wires(n):
    return conditional_paths(["w%d" % k for k in range(n)], n)


def conditions_of_one_wire(n):
    return conditional_paths(["w"], n)


def quiet_turns(n):
    """changes while the other input is 0, so that no `if` path is active"""
    return "cell M\n50 B1 0\n" + "".join(turns("A", 20).splitlines(True)[1:])


def checks_of_ports(n):
    ports = ["a%d" % k for k in range(n)]
    return module(
        ports + ["Y"],
        declared("input", ports),
        declared("output", ["Y"]),
        "  reg N;\n  B (Y, %s);\n" % ports[0],
        specified(*["$width(posedge %s, 1, 0, N)" % name for name in ports]),
        tables=BUFFER,
    )


def states_of_ports(n):
    ports = ["a%d" % k for k in range(n)]
    wires = ["s%d" % k for k in range(n)]
    driven = "".join("  L (%s, %s);\n" % pair for pair in zip(wires, ports))
    return module(
        ports + ["Y"],
        declared("input", ports),
        declared("output", ["Y"]),
        declared("wire", wires),
        driven + "  B (Y, %s);\n" % ports[0],
        tables=BUFFER + LATCH,
    )


def paths_to_outputs(n):
    outputs = ["y%d" % k for k in range(n)]
    driven = "".join("  B (%s, A);\n" % name for name in outputs)
    return module(
        ["A"] + outputs,
        declared("input", ["A"]),
        declared("output", outputs),
        driven,
        specified(*["(A => %s) = (1, 1)" % name for name in outputs]),
        tables=BUFFER,
    )


def rows_of_sections(n):
    rows = ["0 1 : 0"] * (50 * n - 2) + ["1 ? : 1", "0 0 : 0"]
    return module(
        ["A", "B1", "Y"],
        declared("input", ["A", "B1"]),
        declared("output", ["Y"]),
        "  T (Y, A, B1);\n",
        tables=primitive("T", 2, rows),
    )


def entity(ports, rows, columns, assignment):
    """an entity of these input ports and the output Y, with a truth table of these rows over these columns"""
    width = "(%s)" % (", ".join(columns) if len(columns) > 1 else "0 => " + columns[0])
    return (
        "library IEEE;\nuse IEEE.std_logic_1164.all;\nuse IEEE.VITAL_Timing.all;\nuse IEEE.VITAL_Primitives.all;\n"
        "entity M is\n  port (%s; Y : out std_ulogic);\nend M;\n" % "; ".join("%s : in std_ulogic" % name for name in ports)
        + "architecture vital of M is\n  constant k_1 : VitalTruthTableType := (\n    %s);\n"
        % ",\n    ".join("(%s)" % ", ".join("'%s'" % symbol for symbol in row) for row in rows)
        + "begin\n  process (%s)\n    variable z_1 : std_logic := 'X';\n" % ", ".join(ports)
        + ("    variable g_1 : VitalGlitchDataType;\n" if "g_1" in assignment else "")
        + "  begin\n    z_1 := VitalTruthTable (TruthTable => k_1, DataIn => %s);\n" % width
        + "    %s;\n  end process;\nend vital;\n" % assignment
    )


def entity_paths(n):
    """n input ports, and for each a path to the one output"""
    ports = ["a%d" % k for k in range(n)]
    entries = ", ".join("%d => (%s'last_event, (1 ps, 1 ps), true)" % pair for pair in enumerate(ports))
    return entity(
        ports,
        ["11", "00"],
        ports[:1],
        'VitalPathDelay01 (OutSignal => Y, GlitchData => g_1, OutSignalName => "Y", OutTemp => z_1, '
        "Paths => (%s), Mode => VitalTransport)" % entries,
    )


def columns_of_a_table(n):
    """a truth table of n columns and 100 rows"""
    ports = ["a%d" % k for k in range(n)]
    rows = ["-" * k + "0" + "-" * (n - k - 1) + "0" for k in range(99)] + ["1" * n + "1"]
    return entity(ports, rows, ports, "Y <= z_1")


def sections(n, cell="C"):
    """so many sections without a change"""
    return "cell %s\n" % cell * n


def conditional_arcs(n):
    """n conditions of one pair of pins, and a plain arc of it"""
    names = ["S%d" % k for k in range(8)]
    groups = "".join(arc("A", when) for when in conditions(n, names)) + arc("A")
    return library(cell(inputs(["A"] + names), 'pin (Y) { direction : output; function : "A"; %s}\n' % groups))


def turns_of_conditions(n):
    """n changes of the one pin, while no condition is 1"""
    still = "".join("%d S%d 0\n" % (k + 1, k) for k in range(8))
    return "cell C\n" + still.replace("S0 0", "S0 1") + "".join("%d A %d\n" % (100 * (k + 1), k % 2) for k in range(n))


def exclusive_ors_of_outputs(n):
    """n outputs, each an exclusive or of ten names"""
    names = ["A%d" % k for k in range(10)]
    outputs = ('pin (Y%d) { direction : output; function : "%s"; }\n' % (k, "^".join(names)) for k in range(n))
    return library(cell(inputs(names), *outputs))


def exclusive_ors(n):
    """two outputs, each an exclusive or of ten names"""
    return exclusive_ors_of_outputs(2)


def products(n):
    """two outputs, each a product of ten names"""
    return exclusive_ors(n).replace("^", "*")


def product(n):
    """a product of two pins, whatever the size, which is that of its module"""
    return library(cell(inputs(["A", "B"]), 'pin (Y) { direction : output; function : "A*B"; }\n'))


def repeated_rows(n):
    """the module of a product, whose primitive says each row n times"""
    rows = ["0 ? : 0", "? 0 : 0", "1 1 : 1"] * n
    ports = ["A", "B", "Y"]
    return module(
        ports, declared("input", ports[:2]), declared("output", ports[2:]), "  T (Y, A, B);\n", tables=primitive("T", 2, rows), name="C"
    )


TRANSLATED = {
    "one_pin_group_of_names": (one_pin_group_of_names, (7500, 15000, 30000)),
    "shared_condition": (shared_condition, (25000, 50000, 100000)),
    "outputs_by_related": (outputs_by_related, (500, 1000, 2000)),
    "outputs_by_groups": (outputs_by_groups, (100, 200, 400)),
    "unlike_conditions": (unlike_conditions, (4000, 8000, 16000)),
    "unlike_ends": (unlike_ends, (250, 500, 1000)),
    "flip_flops": (flip_flops, (4, 8, 16)),
    "table_rows": (table_rows, (10000, 20000, 40000)),
    "falling_rows": (falling_rows, (10000, 20000, 40000)),
    "rows_of_nodes": (rows_of_nodes, (5000, 10000, 20000)),
    "halved_rows": (halved_rows, (10000, 20000, 40000)),
    "test_tables": (test_tables, (1000, 2000, 4000)),
    "test_groups": (test_groups, (4, 8, 16)),
    "test_outputs": (test_outputs, (10, 20, 40)),
    "timing_of_a_bus": (timing_of_a_bus, (250, 500, 1000)),
    "buses_of_a_cell": (buses_of_a_cell, (250, 500, 1000)),
    "types_and_buses": (types_and_buses, (1000, 2000, 4000)),
    "bank_of_long_texts": (bank_of_long_texts, (4, 8, 16)),
    "bundle_of_one_name": (bundle_of_one_name, (7500, 15000, 30000)),
    "timing_of_a_bundle": (timing_of_a_bundle, (100, 200, 400)),
    "timing_of_an_output_bundle": (timing_of_an_output_bundle, (100, 200, 400)),
    "timing_of_a_floating_bundle": (timing_of_a_floating_bundle, (100, 200, 400)),
    "timing_of_a_bundle_with_a_pin": (timing_of_a_bundle_with_a_pin, (100, 200, 400)),
    "timing_that_names_a_bundle": (timing_that_names_a_bundle, (100, 200, 400)),
    "checks_that_name_a_bundle": (checks_that_name_a_bundle, (100, 200, 400)),
    "timing_of_floating_bits": (timing_of_floating_bits, (100, 200, 400)),
    "statements_of_a_bundle": (statements_of_a_bundle, (100, 200, 400)),
    "functions_of_a_bundle": (functions_of_a_bundle, (250, 500, 1000)),
    "pins_of_a_bundle": (pins_of_a_bundle, (1000, 2000, 4000)),
    "related_words": (related_words, (2000, 4000, 8000)),
    "lines_without_semicolons": (lines_without_semicolons, (2500000, 5000000, 10000000)),
    "delay_file": (delay_file, (150000, 300000, 600000)),
    "brackets": (brackets, (4000000, 8000000, 16000000)),
    "cut_cell": (cut_cell, (1000000, 2000000, 4000000)),
    "deep_groups": (deep("a(){"), (25000, 50000, 100000)),
    "deep_groups_of_two": (deep("a(b){a:1;"), (12500, 25000, 50000)),
    "short_attributes": (repeated("a:1;"), (1000000, 2000000, 4000000)),
    "no_values": (repeated("a:;"), (1000000, 2000000, 4000000)),
    "two_values": (repeated("a:b b;"), (500000, 1000000, 2000000)),
    "three_values": (repeated('a:b""b;'), (500000, 1000000, 2000000)),
    "two_arguments": (repeated("a(b,b);"), (500000, 1000000, 2000000)),
    "arguments_of_groups": (repeated("a(b,b){}a(b,c){}"), (250000, 500000, 1000000)),
    "groups_of_two": (repeated("a(){a:;a:;}"), (250000, 500000, 1000000)),
    "unlike_groups_of_two": (repeated("a(b,b){a:;a:}a(b,c){a:;a:}"), (125000, 250000, 500000)),
    "groups_of_any_two_arguments": (any_letters(2, "a(%s,%s){a:;a:}"), (125000, 250000, 500000)),
    "groups_of_any_three_letters": (any_letters(3, "a(%s,%s%s){a:;a:}"), (125000, 250000, 500000)),
    "groups_of_ten": (repeated("a(){" + "a:;" * 9 + "a:}"), (62500, 125000, 250000)),
    "five_values": (repeated('a:b""b""b;'), (250000, 500000, 1000000)),
    "groups_of_five": (repeated("a(){" + "a:;" * 5 + "}"), (125000, 250000, 500000)),
    "short_arguments": (short_arguments, (1000000, 2000000, 4000000)),
    "long_timing_type": (long_timing_type, (250000, 500000, 1000000)),
}

REPLAYED = {
    "outputs_of_one_input": ("replay-verilog", outputs_of_one_input, lambda n: turns("A", 2), (5000, 10000, 20000)),
    "conditions_of_wires": ("replay-verilog", conditions_of_wires, quiet_turns, (2000, 4000, 8000)),
    "conditions_of_one_wire": ("replay-verilog", conditions_of_one_wire, quiet_turns, (2000, 4000, 8000)),
    "checks_of_ports": ("replay-verilog", checks_of_ports, lambda n: turns("a0", 100), (1000, 2000, 4000)),
    "states_of_ports": ("replay-verilog", states_of_ports, lambda n: turns("a0", 100), (1000, 2000, 4000)),
    "changes_of_states": ("replay-verilog", states_of_ports, lambda n: turns("a0", n), (5000, 10000, 20000)),
    "paths_to_outputs": ("replay-verilog", paths_to_outputs, lambda n: turns("A", 2), (5000, 10000, 20000)),
    "columns_of_a_table": ("replay-vital", columns_of_a_table, lambda n: turns("a0", 1000), (1000, 2000, 4000)),
    "rows_of_sections": ("replay-verilog", rows_of_sections, lambda n: turns("A", 0) * n, (1000, 2000, 4000)),
    "entity_paths": ("replay-vital", entity_paths, lambda n: turns("a0", 100), (1000, 2000, 4000)),
}


SIMULATED = {
    "conditional_arcs": (conditional_arcs, lambda n: turns_of_conditions(4 * n), (255, 511, 1023)),
    "sections_of_exclusive_ors": (exclusive_ors, sections, (6250, 12500, 25000)),
    "sections_of_products": (products, sections, (6250, 12500, 25000)),
}


# Libraries that are compared with the Verilog file that is written of them, or with one of their own.
COMPARED = {
    "compared_conditions": (conditional_arcs, None, (255, 511, 1023)),
    "compared_outputs": (exclusive_ors_of_outputs, None, (10, 20, 40)),
    "compared_rows": (product, repeated_rows, (50000, 100000, 200000)),
}

# Commands without a file, and their last word.
WORDS = {
    "exclusive_or": ("udp", lambda n: "^".join("A%d" % k for k in range(n)), (8, 9, 10)),
    "made_cells": ("selftest", str, (250, 500, 1000)),
}


def main(words):
    if not words:
        for kind, (_, sizes) in TRANSLATED.items():
            print(kind, "translate", *sizes)
        for kind, (command, _, _, sizes) in REPLAYED.items():
            print(kind, command, *sizes)
        for kind, (_, _, sizes) in SIMULATED.items():
            print(kind, "simulate", *sizes)
        for kind, (_, models, sizes) in COMPARED.items():
            print(kind, "audit", *sizes)
        for kind, (command, _, sizes) in WORDS.items():
            print(kind, command, *sizes)
        return
    kind, size = words[0], int(words[1])
    if kind in TRANSLATED:
        text = TRANSLATED[kind][0](size)
    elif kind in WORDS:
        text = WORDS[kind][1](size)
    elif kind in COMPARED:
        library_of, models_of, _ = COMPARED[kind]
        text = (models_of or (lambda _: ""))(size) if words[2:] == ["models"] else library_of(size)
    else:
        models, changes = SIMULATED[kind][:2] if kind in SIMULATED else REPLAYED[kind][1:3]
        text = (changes if words[2:] == ["changes"] else models)(size)
    sys.stdout.write(text)


main(sys.argv[1:])

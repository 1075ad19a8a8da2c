#!/usr/bin/env python3
"""make_library.py MEGABYTES SEED OUT: writes a synthetic Liberty library of about so many MiB, always the same for a seed.

Gates, multiplexers, adders, flip-flops with and without clear, preset and scan, latches and clock gates by statetable;
tables of 7 by 7 delays, setup, hold, recovery, removal and width checks, and the power and leakage groups that a foundry's
library has and no model needs. No two cells share a name."""
import sys, random, io

mb = float(sys.argv[1])
rng = random.Random(int(sys.argv[2]))
out = open(sys.argv[3], "w", buffering=1 << 20)
limit = int(mb * 1048576)
size = 0


def write(s):
    global size
    out.write(s)
    size += len(s)


IDX1 = '"0.0050, 0.0161, 0.0403, 0.0944, 0.2121, 0.4650, 1.0000"'
IDX2 = '"0.0004, 0.0012, 0.0031, 0.0078, 0.0192, 0.0470, 0.1142"'


def table(name, tmpl, base, n=7):
    i1 = ", ".join("%.4f" % (0.005 * (2.3**k)) for k in range(n))
    i2 = ", ".join("%.4f" % (0.0004 * (2.5**k)) for k in range(n))
    s = '        %s (%s) {\n          index_1 ("%s");\n          index_2 ("%s");\n          values ( \\\n' % (
        name,
        tmpl,
        i1,
        i2,
    )
    rows = []
    for a in range(n):
        rows.append(
            '            "'
            + ", ".join("%.6f" % (base * (1 + 0.35 * a + 0.6 * b) * (1 + 0.05 * rng.random())) for b in range(n))
            + '"'
        )
    return s + ", \\\n".join(rows) + " \\\n          );\n        }\n"


def delay(rel, ttype, sense, when=None):
    b = 0.01 + 0.03 * rng.random()
    s = '      timing () {\n        related_pin : "%s";\n        timing_sense : %s;\n        timing_type : %s;\n' % (
        rel,
        sense,
        ttype,
    )
    if when:
        s += '        when : "%s";\n        sdf_cond : "%s";\n' % (when, when.replace("!", "~"))
    for t in ("cell_rise", "rise_transition", "cell_fall", "fall_transition"):
        s += table(t, "delay_template_7x7", b)
    return s + "      }\n"


def check(rel, ttype, which=("rise_constraint", "fall_constraint"), when=None):
    s = '      timing () {\n        related_pin : "%s";\n        timing_type : %s;\n' % (rel, ttype)
    if when:
        s += '        when : "%s";\n' % when
    for t in which:
        s += table(t, "constraint_template_3x3", rng.choice([-0.01, 0.02, 0.03]), 3)
    return s + "      }\n"


def power(rel):
    s = '      internal_power () {\n        related_pin : "%s";\n' % rel
    for t in ("rise_power", "fall_power"):
        s += table(t, "power_template_7x7", 0.002)
    return s + "      }\n"


def pin_in(n, extra="", clock=False):
    return (
        '    pin (%s) {\n      direction : input;\n      related_power_pin : "VDD";\n      related_ground_pin : "VSS";\n      capacitance : %.6f;\n%s      max_transition : 1.0;\n%s    }\n'
        % (n, 0.0005 + 0.001 * rng.random(), "      clock : true;\n" if clock else "", extra)
    )


def pin_out(n, fn, tim, attr="function"):
    return (
        '    pin (%s) {\n      direction : output;\n      related_power_pin : "VDD";\n      related_ground_pin : "VSS";\n      %s : "%s";\n      max_capacitance : %.4f;\n%s    }\n'
        % (n, attr, fn, 0.05 + 0.2 * rng.random(), tim)
    )


def cell(name, body, leak=()):
    s = (
        "  cell (%s) {\n    area : %.3f;\n    cell_leakage_power : %.5f;\n    pg_pin (VDD) {\n      voltage_name : VDD;\n      pg_type : primary_power;\n    }\n    pg_pin (VSS) {\n      voltage_name : VSS;\n      pg_type : primary_ground;\n    }\n"
        % (name, 0.5 + 4 * rng.random(), 0.01 * rng.random())
    )
    for c in leak:
        s += '    leakage_power () {\n      when : "%s";\n      value : %.6f;\n    }\n' % (c, 0.01 * rng.random())
    write(s + body + "  }\n")


GATES = [("INV", ["A"], "!A"), ("BUF", ["A"], "A")]
for n in (2, 3, 4):
    P = ["A%d" % k for k in range(1, n + 1)]
    GATES += [
        ("NAND%d" % n, P, "!(" + " & ".join(P) + ")"),
        ("NOR%d" % n, P, "!(" + " | ".join(P) + ")"),
        ("AND%d" % n, P, "(" + "*".join(P) + ")"),
        ("OR%d" % n, P, "(" + "+".join(P) + ")"),
    ]
GATES += [
    ("XOR2", ["A", "B"], "A ^ B"),
    ("XNOR2", ["A", "B"], "(A ^ B)'"),
    ("MUX2", ["A", "B", "S"], "(A*!S)+(B*S)"),
    ("MUX4", ["A", "B", "C", "D", "S0", "S1"], "(A*!S0*!S1)+(B*S0*!S1)+(C*!S0*S1)+(D*S0*S1)"),
    ("AOI21", ["A1", "A2", "B"], "!((A1 A2) | B)"),
    ("AOI22", ["A1", "A2", "B1", "B2"], "!((A1 & A2) | (B1 & B2))"),
    ("OAI21", ["A1", "A2", "B"], "!((A1 | A2) & B)"),
    ("OAI221", ["A1", "A2", "B1", "B2", "C"], "!((A1|A2)&(B1|B2)&C)"),
    ("MAJ3", ["A", "B", "C"], "(A B)+(A C)+(B C)"),
]


def gate(v, base, P, f):
    leak = [
        " & ".join(("!" if not (k >> i) & 1 else "") + p for i, p in enumerate(P)) for k in range(min(8, 1 << len(P)))
    ]
    t = "".join(
        delay(p, "combinational", rng.choice(["positive_unate", "negative_unate", "non_unate"])) for p in P
    ) + "".join(power(p) for p in P)
    cell("%s_%s" % (base, v), "".join(pin_in(p) for p in P) + pin_out("Y", f, t), leak)


def adder(v):
    P = ["A", "B", "CI"]
    t = "".join(delay(p, "combinational", "non_unate") for p in P)
    cell("FA_" + v, "".join(pin_in(p) for p in P) + pin_out("S", "A^B^CI", t) + pin_out("CO", "(A*B)+(A*CI)+(B*CI)", t))


def ff(v, clr, pre, scan, neg):
    ck = "CK"
    D = '"(SE*SI)+(D*!SE)"' if scan else '"D"'
    s = '    ff (IQ, IQN) {\n      next_state : %s;\n      clocked_on : "%s";\n' % (D, "!CK" if neg else "CK")
    if clr:
        s += '      clear : "!RN";\n'
    if pre:
        s += '      preset : "!SN";\n'
    if clr and pre:
        s += "      clear_preset_var1 : L;\n      clear_preset_var2 : L;\n"
    s += "    }\n"
    e = "falling" if neg else "rising"
    data = ["D"] + (["SI", "SE"] if scan else [])
    s += pin_in(
        "CK",
        "      min_pulse_width_high : %.4f;\n      min_pulse_width_low : %.4f;\n"
        % (0.05 * rng.random(), 0.05 * rng.random())
        + check("CK", "min_pulse_width"),
        True,
    )
    for p in data:
        s += pin_in(
            p,
            check("CK", "setup_" + e, when=("!SE" if scan and p == "D" else None))
            + check("CK", "hold_" + e, when=("!SE" if scan and p == "D" else None)),
        )
    for q, on in (("RN", clr), ("SN", pre)):
        if on:
            s += pin_in(
                q,
                check("CK", "recovery_" + e, ("rise_constraint",))
                + check("CK", "removal_" + e, ("rise_constraint",))
                + check(q, "min_pulse_width", ("fall_constraint",)),
            )
    edge = "falling_edge" if neg else "rising_edge"
    for q, fn in (("Q", "IQ"), ("QN", "IQN")):
        t = ""
        if scan:
            t += delay("CK", edge, "non_unate", "SE") + delay("CK", edge, "non_unate", "!SE")
        t += delay("CK", edge, "non_unate")
        if clr:
            t += delay("RN", "clear" if q == "Q" else "preset", "positive_unate")
        if pre:
            t += delay("SN", "preset" if q == "Q" else "clear", "negative_unate")
        s += pin_out(q, fn, t + power("CK"))
    if scan:
        s += '    test_cell () {\n      ff (IQ, IQN) {\n        next_state : "D";\n        clocked_on : "%s";\n' % (
            "!CK" if neg else "CK"
        )
        if clr:
            s += '        clear : "!RN";\n'
        if pre:
            s += '        preset : "!SN";\n'
        if clr and pre:
            s += "        clear_preset_var1 : L;\n        clear_preset_var2 : L;\n"
        s += "      }\n"
        for p in ["CK", "D"] + (["RN"] if clr else []) + (["SN"] if pre else []):
            s += "      pin (%s) {\n        direction : input;\n      }\n" % p
        s += '      pin (SI) {\n        direction : input;\n        signal_type : "test_scan_in";\n      }\n      pin (SE) {\n        direction : input;\n        signal_type : "test_scan_enable";\n      }\n'
        for q, fn, st in (("Q", "IQ", "test_scan_out"), ("QN", "IQN", "test_scan_out_inverted")):
            s += (
                '      pin (%s) {\n        direction : output;\n        function : "%s";\n        signal_type : "%s";\n      }\n'
                % (q, fn, st)
            )
        s += "    }\n"
    cell("%sDF%s%s%s_%s" % ("S" if scan else "", "N" if neg else "", "R" if clr else "", "S" if pre else "", v), s)


def latch(v, clr):
    s = '    latch (IQ, IQN) {\n      data_in : "D";\n      enable : "G";\n%s    }\n' % (
        '      clear : "!RN";\n' if clr else ""
    )
    s += pin_in("G", check("G", "min_pulse_width", ("rise_constraint",)), True) + pin_in(
        "D", check("G", "setup_falling") + check("G", "hold_falling")
    )
    if clr:
        s += pin_in(
            "RN",
            check("G", "recovery_falling", ("rise_constraint",)) + check("G", "removal_falling", ("rise_constraint",)),
        )
    for q, fn in (("Q", "IQ"), ("QN", "IQN")):
        s += pin_out(
            q,
            fn,
            delay("D", "combinational", "positive_unate")
            + delay("G", "rising_edge", "non_unate")
            + (delay("RN", "clear" if q == "Q" else "preset", "positive_unate") if clr else ""),
        )
    cell("DLA%s_%s" % ("R" if clr else "", v), s)


def cgate(v):
    s = '    clock_gating_integrated_cell : "latch_posedge_precontrol";\n    statetable ("CK E SE", "IQ") {\n      table : "L L L : - : L, \\\n               L L H : - : H, \\\n               L H L : - : H, \\\n               L H H : - : H, \\\n               H - - : - : N";\n    }\n'
    s += (
        pin_in("CK", "", True)
        + pin_in("E", check("CK", "setup_rising") + check("CK", "hold_rising"))
        + pin_in("SE", check("CK", "setup_rising") + check("CK", "hold_rising"))
    )
    s += '    pin (IQ) {\n      direction : internal;\n      internal_node : "IQ";\n    }\n' + pin_out(
        "GCK", "CK * IQ", delay("CK", "combinational", "positive_unate"), "state_function"
    )
    cell("ICG_" + v, s)


write(
    '/* synthetic library, make_library.py %s %s */\nlibrary (synth_ss_0p81v_125c) {\n  delay_model : table_lookup;\n  time_unit : "1ns";\n  voltage_unit : "1V";\n  current_unit : "1mA";\n  pulling_resistance_unit : "1kohm";\n  leakage_power_unit : "1nW";\n  capacitive_load_unit (1, pf);\n  nom_process : 1.0;\n  nom_voltage : 0.81;\n  nom_temperature : 125.0;\n  voltage_map (VDD, 0.81);\n  voltage_map (VSS, 0.0);\n  operating_conditions (ss_0p81v_125c) {\n    process : 1.0;\n    voltage : 0.81;\n    temperature : 125.0;\n  }\n  default_operating_conditions : ss_0p81v_125c;\n  slew_upper_threshold_pct_rise : 80;\n  slew_lower_threshold_pct_rise : 20;\n  slew_upper_threshold_pct_fall : 80;\n  slew_lower_threshold_pct_fall : 20;\n  input_threshold_pct_rise : 50;\n  input_threshold_pct_fall : 50;\n  output_threshold_pct_rise : 50;\n  output_threshold_pct_fall : 50;\n'
    % (sys.argv[1], sys.argv[2])
)
for t, n in (("delay_template_7x7", 7), ("constraint_template_3x3", 3), ("power_template_7x7", 7)):
    k = "power_lut_template" if "power" in t else "lu_table_template"
    v = (
        ("constrained_pin_transition", "related_pin_transition")
        if "constraint" in t
        else ("input_transition_time", "total_output_net_capacitance")
        if "power" in t
        else ("input_net_transition", "total_output_net_capacitance")
    )
    write(
        '  %s (%s) {\n    variable_1 : %s;\n    variable_2 : %s;\n    index_1 ("%s");\n    index_2 ("%s");\n  }\n'
        % (
            k,
            t,
            v[0],
            v[1],
            ", ".join("%d" % (1000 + i) for i in range(n)),
            ", ".join("%d" % (1000 + i) for i in range(n)),
        )
    )
k = 0
VT = ["LVT", "SVT", "HVT", "ULVT"]
cells = 0
while size < limit - 2:
    v = "X%d_%s%s" % (
        [1, 2, 3, 4, 6, 8, 12, 16][k % 8],
        VT[k // 8 % 4],
        "" if k < 32 else "_L%d" % (20 + 2 * (k // 32)),
    )
    jobs = (
        [lambda g=g: gate(v, *g) for g in GATES]
        + [lambda: adder(v)]
        + [lambda c=c, p=p, s=s, n=n: ff(v, c, p, s, n) for c in (0, 1) for p in (0, 1) for s in (0, 1) for n in (0, 1)]
        + [lambda: latch(v, 0), lambda: latch(v, 1), lambda: cgate(v)]
    )
    for j in jobs:
        if size >= limit - 2:
            break
        j()
        cells += 1
    k += 1
write("}\n")
out.close()
sys.stderr.write("%s: %d bytes, %d cells\n" % (sys.argv[3], size, cells))

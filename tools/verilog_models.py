"""Reads the primitives and modules of a file of models (the Verilog subset of docs/FORMATS.md), and runs a module.

For the other scripts of this folder. The meaning is that of `Runs of models` in docs/DEFINITIONS.md. Nothing is checked:
`lib2sim replay-verilog` does that. Values are `0`, `1` and `x`; nets are names. A driver runs as its core, and what it drives is
not told.
"""
import copy
import re

LEVELS = {"0": "0", "1": "1", "x": "x", "?": "01x", "b": "01"}
EDGES = {"r": ["01"], "f": ["10"], "p": ["01", "0x", "x1"], "n": ["10", "1x", "x0"]}
ANY = [old + new for old in "01x" for new in "01x" if old != new]
RISES, FALLS = EDGES["p"], EDGES["n"]
KINDS = {"posedge": RISES, "negedge": FALLS, "": ANY}


def changes_of(entry):
    """The pairs of values that an entry of a row stands for, nothing where it is a level."""
    if entry.startswith("("):
        return [old + new for old in LEVELS[entry[1]] for new in LEVELS[entry[2]] if old != new]
    return ANY if entry == "*" else EDGES.get(entry, [])


class Primitive:
    def __init__(self, text):
        self.name = re.match(r"\s*(\w+)", text).group(1)
        self.has_state = re.search(r"\breg\b", text) is not None
        self.rows = [self.row(it) for it in re.search(r"\btable\b(.*)\bendtable\b", text, re.S).group(1).split(";") if it.strip()]
        self.level_rows = [it for it in self.rows if not any(it[1])]
        self.edge_rows = [it for it in self.rows if any(it[1])]
        self.known = {}

    def row(self, text):
        """The values of each place, the changes of each place, the states, and what the row gives."""
        parts = [it.strip().lower() for it in text.split(":")]
        entries = re.findall(r"\(..\)|\S", parts[0])
        return ([LEVELS.get(it, "") for it in entries], [changes_of(it) for it in entries],
                LEVELS[parts[1]] if self.has_state else "x", parts[-1])

    def value(self, values, state="x", place=None, old=None):
        """What the table gives at these values, of a state where the input at `place` had the value `old` before."""
        key = (values, state, place, old)
        if key not in self.known:
            self.known[key] = self.looked_up(*key)
        return self.known[key]

    def looked_up(self, values, state, place, old):
        for levels, _, states, result in self.level_rows:
            if state in states and all(map(str.__contains__, levels, values)):
                return state if result == "-" else result
        for levels, changes, states, result in self.edge_rows:
            if place is not None and state in states and old + values[place] in changes[place]:
                if all(at == place or value in levels[at] for at, value in enumerate(values)):
                    return state if result == "-" else result
        return "x"


class Check:
    """A check: its kind, first and second event (a pin, and the changes of it that count), limit and condition, if any."""

    def __init__(self, kind, words):
        self.kind = kind
        events, numbers = [it for it in words if re.search("[A-Za-z_]", it)][:-1], [int(it) for it in words if it.isdigit()]
        self.limit = numbers[0]
        self.condition = next((it.split("&&&")[1].strip() for it in events if "&&&" in it), None)
        pairs = [self.event(it.split("&&&")[0]) for it in events]
        if kind == "width":
            pin, changes = pairs[0]
            pairs.append((pin, FALLS if changes is RISES else RISES))
        if kind == "removal":
            pairs.reverse()
        self.first, self.second = pairs[0], pairs[-1]

    @staticmethod
    def event(text):
        words = text.split()
        return words[-1], KINDS[words[0] if len(words) > 1 else ""]

    def is_first(self, pin, change):
        return pin == self.first[0] and (self.kind == "period" or change in self.first[1])

    def is_second(self, pin, change):
        return pin == self.second[0] and (self.kind == "period" or change in self.second[1])

    def compared_with(self, change):
        """Which of the kept times a change is compared with: of a period that of the last change of its own kind."""
        return None if self.kind != "period" else change in RISES


class Module:
    def __init__(self, text, primitives):
        self.name, self.ports = re.match(r"\s*(\w+)\s*\(([^)]*)\)", text).groups()
        body, _, block = text.partition("specify")
        nets = {word: re.findall(r"\b%s\s+(\w+)\s*;" % word, body) for word in ("input", "output", "wire", "reg")}
        self.inputs, self.outputs, self.register = nets["input"], nets["output"], (nets["reg"] or [None])[0]
        self.input_names, self.is_core = self.inputs, False
        self.core = (re.findall(r"(\w+)\s+lib_u\s*\(", body) or [None])[0]
        calls = re.findall(r"(\w+)\s*\(([^;]*)\)\s*;", body.split(";", 1)[1])
        self.instances = [(primitives.get(name), [it.strip() for it in words.split(",")]) for name, words in calls]
        self.states = [(it, words[0], words[1:]) for it, words in self.instances if it and it.has_state]
        self.wires = {net: at for at, (_, net, _) in enumerate(self.states)}
        drives = {words[0]: (it, words[1:]) for it, words in self.instances if it and not it.has_state}
        self.conditions = drives
        found = re.findall(r"\$(\w+)\s*\(([^;]*)\)\s*;", block)
        checks = [Check(kind, [it.strip() for it in words.split(",")]) for kind, words in found]
        self.checks = [it for at, it in enumerate(checks) if it.kind != "period" or (it.first[1] is RISES)]
        self.delays = [int(it) for pair in re.findall(r"=\s*\((\d+)\s*,\s*(\d+)\)", block) for it in pair]

    def over(self, core):
        """What a driver over a core does: its names, the core's states and checks, and the delays of both."""
        driver = copy.copy(core)
        driver.name, driver.ports, driver.core, driver.is_core = self.name, self.ports, self.core, False
        driver.input_names, driver.outputs = self.inputs, self.outputs
        driver.delays = core.delays + self.delays
        return driver

    def start(self):
        """The values of all inputs, the states, and the register of the checks."""
        return "x" * len(self.inputs), "x" * len(self.states), "x"

    def fed(self, place, old, inputs, states, register):
        """The states behind a change of an input, or of the register where `place` is None."""
        pin = self.register if place is None else self.inputs[place]
        return "".join(self.next_state(number, pin, old, inputs, states, register) for number in range(len(self.states)))

    def next_state(self, number, pin, old, inputs, states, register):
        primitive, _, nets = self.states[number]
        if pin not in nets:
            return states[number]
        values = tuple(register if it == self.register else inputs[self.inputs.index(it)] for it in nets)
        return primitive.value(values, states[number], nets.index(pin), old)

    def value(self, net, inputs, states):
        """The value of a net, 1 where a `buf` drives it."""
        if net in self.wires:
            return states[self.wires[net]]
        if net in self.inputs:
            return inputs[self.inputs.index(net)]
        primitive, nets = self.conditions.get(net, (None, []))
        return primitive.value(tuple(self.value(it, inputs, states) for it in nets)) if primitive else "1"

    def after(self, node, moves):
        """The node behind changes of inputs, long after the one before them, and the register's changes, each with the inputs
        and states at which it came. A change has the time from the last one, a place and a value."""
        turns = []
        for node, _, each in self.steps(node, moves):
            turns += each
        return node, turns

    def steps(self, node, moves):
        """Behind each change the node, which checks report, and the register's changes."""
        (inputs, states, register), now, kept = node, 0, {}
        for gap, place, value in moves:
            now, old, pin, turns = now + gap, inputs[place], self.inputs[place], []
            inputs = inputs[:place] + value + inputs[place + 1:]
            states = self.fed(place, old, inputs, states, register)
            reports = [it for it in range(len(self.checks)) if self.reports(it, pin, old + value, inputs, now, kept)]
            for number, check in enumerate(self.checks):
                if check.is_first(pin, old + value):
                    kept[number, check.compared_with(old + value)] = now
            for _ in reports:
                turns.append((inputs, states, register))
                before, register = register, "1" if register == "0" else "0"
                states = self.fed(None, before, inputs, states, register)
            yield (inputs, states, register), reports, turns

    def reports(self, number, pin, change, inputs, now, kept):
        check = self.checks[number]
        before = kept.get((number, check.compared_with(change)))
        is_late = before is None or now - before >= check.limit
        if is_late or not check.is_second(pin, change):
            return False
        return check.condition is None or self.value(check.condition, inputs, "") == "1"


def read(text):
    """The modules of a file, in order, the drivers among them. The core of a driver is told by `is_core`."""
    text = re.sub(r"//[^\n]*|/\*.*?\*/", " ", text, flags=re.S)
    parts = re.findall(r"\bprimitive\b(.*?)\bendprimitive\b|\bmodule\b(.*?)\bendmodule\b", text, re.S)
    primitives = {it.name: it for it in (Primitive(part) for part, _ in parts if part)}
    modules = {it.name: it for it in (Module(part, primitives) for _, part in parts if part)}
    for module in modules.values():
        if module.core:
            modules[module.core].is_core = True
    return [it.over(modules[it.core]) if it.core else it for it in modules.values()]

"""Reads the names of a Liberty library's cells and ports, for the other scripts of this folder.

It looks at `cell`, `pin` and `direction` alone, and takes for granted that `lib2sim translate` reads the library.
"""
import re

TOKENS = re.compile(rb'/\*.*?\*/|"(?:\\.|[^"\\])*"|[{}();:,]|(?:(?!/\*)[^\s{}();:,"\\])+|\n', re.S)


class Cell:
    """A cell's name and its pins that are inputs or outputs, in order, each with its direction."""

    def __init__(self, name):
        self.name, self.pins = name, []


def tokens_of(text):
    """The tokens without comments, a text without its quotes."""
    for match in TOKENS.finditer(text):
        token = match.group().decode("latin-1")
        if token.startswith('"'):
            yield re.sub(r"\\\s*\n", "", token[1:-1])
        elif not token.startswith("/*"):
            yield token


def names_in(tokens, at):
    """The names between the brackets that begin at a token."""
    found = []
    for token in tokens[at + 1:]:
        if token == ")":
            return found
        found += [] if token in (",", "\n") else [token]
    return found


def cells_of(text):
    """The cells of a library, in order; pins of buses and of test cells are none."""
    tokens = list(tokens_of(text))
    cells, open_groups, head = [], [], None
    for at, token in enumerate(tokens):
        if token == "(":
            head = (tokens[at - 1], names_in(tokens, at))
        elif token == "{":
            open_groups.append(head)
            if [it[0] for it in open_groups] == ["library", "cell"]:
                cells.append(Cell((head[1] or ["?"])[0]))
        elif token == "}" and open_groups:
            open_groups.pop()
        elif token == ":" and tokens[at - 1] == "direction" and [it[0] for it in open_groups] == ["library", "cell", "pin"]:
            cells[-1].pins += [(name, tokens[at + 1]) for name in open_groups[-1][1] if tokens[at + 1] in ("input", "output")]
    return cells


def names_of(path, modules):
    """For each module of the models of a library the name of its cell, and that of each of its ports."""
    names, cells = {}, cells_of(open(path, "rb").read())
    by_name = {}
    for number, cell in enumerate(cells, 1):
        by_name.setdefault(cell.name, cell)
        by_name["cell%d" % number] = by_name["lib_%d_z" % number] = cell
    for module in modules:
        cell = by_name.get(module.name)
        if cell:
            ports = [it.strip() for it in module.ports.split(",")]
            names[module.name] = (cell.name, dict(zip(ports, (name for name, _ in cell.pins))))
    return names

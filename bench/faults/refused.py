#!/usr/bin/env python3
"""refused.py PROGRAM [COMMAND..]: runs commands with each of their requests for memory refused in turn, and prints how they ended.

Each run ends with 8, or with the command's usual status and outputs; with 8 each output is a front of the usual one. The last
line of `faults`, which tells of the want of memory, is held against its one text."""
import concurrent.futures
import os
import re
import sys
import tempfile

from runs import Watch, example, run, translated

MEMORY = 8
NOT_FOUND = b"lib2sim: out of memory\n"


def commands(program):
    """Name, words, files read and files written of each command; of `simulate-edited` a row of the Verilog file gives another value."""
    library, stimulus = example("cells.lib"), example("cells.stim")
    verilog, vital = translated(program, library)
    edited = re.sub(rb"^( *\(01\) .*: )1;$", rb"\g<1>0;", verilog, count=1, flags=re.MULTILINE)
    if edited == verilog:
        raise SystemExit("the examples have no row that could be edited")
    models = {"a.v": verilog, "a.vhd": vital, "a.stim": stimulus}
    yield "udp", ["udp", "AND2", "A*B"], {}, []
    yield "translate", ["translate", "a.lib", "a.v", "a.vhd"], {"a.lib": library}, ["a.v", "a.vhd"]
    simulate = ["simulate", "a.lib", "a.v", "a.vhd", "a.stim"]
    yield "simulate", simulate, {"a.lib": library, **models}, []
    yield "simulate-edited", simulate, {"a.lib": library, **models, "a.v": edited}, []
    yield "replay-verilog", ["replay-verilog", "a.v", "a.stim"], models, []
    yield "replay-vital", ["replay-vital", "a.vhd", "a.stim"], models, []
    yield "selftest", ["selftest", "2"], {}, []


def is_well(left, whole):
    if left.status == whole.status:
        return left.outputs == whole.outputs
    if left.status != MEMORY or left.outputs["faults"] not in (b"", NOT_FOUND):
        return False
    left.outputs["faults"] = b""
    return left.is_front_of(whole)


def tried(program, watch, name, words, files, written):
    """Prints a line for the command; answers how many of its runs are wrong."""
    whole, requests, _ = watch.measured(program, words, files, written)
    if name == "selftest" and whole.status == 1:
        print("%-16s the program has no such command" % name)
        return 0
    with concurrent.futures.ThreadPoolExecutor(os.cpu_count()) as pool:
        numbers = range(1, requests + 1)
        ends = list(pool.map(lambda k: watch.refused(program, words, files, written, k), numbers))
    wrong = [(k, left.status) for k, left in zip(numbers, ends) if not is_well(left, whole)]
    refused = sum(left.status == MEMORY for left in ends)
    print("%-16s status %d, requests %6d, ended with 8 %6d, wrong %d" % (name, whole.status, requests, refused, len(wrong)))
    for k, status in wrong[:3]:
        print("    request %d: status %s" % (k, status))
    return len(wrong)


def main():
    program = os.path.abspath(sys.argv[1])
    with tempfile.TemporaryDirectory() as folder:
        watch = Watch(folder)
        chosen = [it for it in commands(program) if it[0] in sys.argv[2:] or not sys.argv[2:]]
        wrong = sum(tried(program, watch, *command) for command in chosen)
    return wrong > 0


if __name__ == "__main__":
    sys.exit(main())

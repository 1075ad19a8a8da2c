#!/usr/bin/env python3
"""damaged.py PROGRAM [COUNT [SEED]]: gives each reader COUNT files (10,000) that were made from the examples by cutting, flipping,
doubling and swapping of bytes and lines, and counts the statuses.

A run is wrong where it ends by a signal, not within its time, with a status that its reader has not, or with other lines on
standard error than its status has."""
import collections
import concurrent.futures
import os
import random
import sys

from runs import example, run, translated

# Statuses with one line on standard error; of the others there is none.
TOLD = {2, 4, 5, 9}


def cut(parts, random):
    first = random.randrange(len(parts))
    last = random.choice([len(parts), min(len(parts), first + random.randint(1, 8))])
    return parts[:first] + parts[last:]


def doubled(parts, random):
    first = random.randrange(len(parts))
    last = min(len(parts), first + random.randint(1, 8))
    return parts[:last] + parts[first:]


def swapped(parts, random):
    one, other = random.randrange(len(parts)), random.randrange(len(parts))
    parts = list(parts)
    parts[one], parts[other] = parts[other], parts[one]
    return parts


def flipped(bytes, random):
    place = random.randrange(len(bytes))
    bytes = list(bytes)
    bytes[place] = random.choice([bytes[place] ^ 1 << random.randrange(8), random.randrange(256)])
    return bytes


def damage(text, random):
    """One to three damages of bytes or of whole lines."""
    for _ in range(random.randint(1, 3)):
        if not text:
            break
        kind = random.choice([cut, doubled, swapped, flipped])
        if kind is not flipped and random.random() < 0.7:
            text = b"".join(kind(text.splitlines(keepends=True), random))
        else:
            text = bytes(kind(list(text), random))
    return text


def readers(program):
    """Name, words, files, the damaged file, and the statuses that there may be."""
    library, stimulus = example("cells.lib"), example("cells.stim")
    verilog, vital = translated(program, library)
    files = {"a.v": verilog, "a.vhd": vital, "a.stim": stimulus}
    yield "Liberty", ["translate", "a.lib", "b.v", "b.vhd"], {"a.lib": library}, "a.lib", {0, 2, 3}
    yield "Verilog", ["replay-verilog", "a.v", "a.stim"], files, "a.v", {0, 4, 5}
    yield "VHDL", ["replay-vital", "a.vhd", "a.stim"], files, "a.vhd", {0, 4, 5}
    yield "stimulus", ["replay-verilog", "a.v", "a.stim"], files, "a.stim", {0, 4}


def is_well(left, statuses):
    if left.status not in statuses:
        return False
    return left.outputs["faults"].count(b"\n") == (left.status in TOLD)


def tried(program, count, seed, name, words, files, damaged, statuses):
    """Prints a line for the reader; answers how many of its runs are wrong."""

    def one(number):
        text = damage(files[damaged], random.Random("%d %s %d" % (seed, name, number)))
        left = run(program, words, {**files, damaged: text})
        return left.status, is_well(left, statuses)

    with concurrent.futures.ThreadPoolExecutor(os.cpu_count()) as pool:
        ends = list(pool.map(one, range(count)))
    counts = collections.Counter(status for status, _ in ends)
    wrong = [number for number, (_, well) in enumerate(ends) if not well]
    shown = ", ".join("status %s: %d" % it for it in sorted(counts.items(), key=str))
    print("%-10s files %d, %s, wrong %d" % (name, count, shown, len(wrong)))
    for number in wrong[:3]:
        print("    file %d: status %s" % (number, ends[number][0]))
    return len(wrong)


def main():
    program = os.path.abspath(sys.argv[1])
    count = int(sys.argv[2]) if len(sys.argv) > 2 else 10000
    seed = int(sys.argv[3]) if len(sys.argv) > 3 else 1
    return sum(tried(program, count, seed, *reader) for reader in readers(program)) > 0


if __name__ == "__main__":
    sys.exit(main())

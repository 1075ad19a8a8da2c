#!/usr/bin/env python3
"""bench/stimulus/make.py CELL COUNT FILE: a stimulus of COUNT random changes of CELL, at most 200 ps apart.

CELL is `FLOP`, with three inputs, or `WIDE`, with sixteen, as bench/stimulus/program.txt has them."""
import random
import sys

INPUTS = {"FLOP": ["D", "CK", "RN"], "WIDE": [letter + str(number) for letter in "AB" for number in range(8)]}


def main():
    if len(sys.argv) != 4 or sys.argv[1] not in INPUTS:
        sys.exit(__doc__)
    cell, count = sys.argv[1], int(sys.argv[2])
    draw, time = random.Random(cell), 0
    with open(sys.argv[3], "w") as file:
        file.write("cell %s\n" % cell)
        for _ in range(count):
            time += draw.randrange(1, 201)
            file.write("%d %s %s\n" % (time, draw.choice(INPUTS[cell]), draw.choice("0101010x")))


main()

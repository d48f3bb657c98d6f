#!/usr/bin/env python3
"""Writes the lines that bench/way_curve.c notes as the text of a trace, so that the planner's steps can be compared with its loop.

usage: bench/lackey_lines.py COUNT DIFFERENT

    bench/lackey_lines.py 4000000 32768 > TRACE
    valgrind --tool=callgrind --callgrind-out-file=PLAN.out resctrl_plan curve 1024 16 < TRACE
    valgrind --tool=callgrind --callgrind-out-file=LOOP.out way_curve 1024 4000000 32768
"""
import sys


def main():
    count, different = map(int, sys.argv[1:])
    number = 1
    for _ in range(count):
        number = (number * 6364136223846793005 + 1442695040888963407) % 2**64
        print(f" L {(number >> 33) % different * 64:x},1")


if __name__ == "__main__":
    main()

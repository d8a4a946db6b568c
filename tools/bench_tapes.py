#!/usr/bin/env python3
"""Measures what a tape costs, read, checked and looked through once from its first token to its last:
bench_tapes.py REPLAY.

For each choice of what is shown, and for tapes with no token hidden and with all but one of four hidden,
it counts instructions by valgrind's callgrind at N and at 2 N tokens, and prints the difference divided by
N. A stream that went over its tokens again for each look would show numbers that grow with N.
"""
import os
import sys

from bench_sets import instructions
from gen_tapes import NET


def script(count, show, hidden):
    rows = ["word 1 %d 1 %d 0 0\n" % (1 if hidden and i % 4 else 0, i) for i in range(count - 1)]
    return "show %s\n" % show + NET + "".join(rows) + "word -1 0 1 0 0 0\nwithin 8\n"


def main():
    replay = os.path.abspath(sys.argv[1])
    print("shown     hidden        N  instructions a token")
    for show, hidden in [("all", False), ("channel0", False), ("channel0", True)]:
        for count in [1000, 4000, 16000]:
            one, two = (instructions(replay, script(n, show, hidden)) for n in (count, 2 * count))
            print("%-9s %-6s %8d %21.0f" % (show, "3 of 4" if hidden else "none", count, (two - one) / count))


if __name__ == "__main__":
    main()

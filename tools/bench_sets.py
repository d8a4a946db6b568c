#!/usr/bin/env python3
"""Measures what one question `within 0` costs: bench_sets.py REPLAY [QUESTIONS].

For each lookahead and each size a net of gen_chain_net.py is read once with one question and once with
QUESTIONS more (2000 unless given), and the difference is divided by their number: time, the best of
five runs, and instructions, as valgrind's callgrind counts them with a tenth as many questions.
"""
import os
import re
import subprocess
import sys
import time

HERE = os.path.dirname(os.path.abspath(__file__))


def net_of(states):
    done = subprocess.run([sys.executable, os.path.join(HERE, "gen_chain_net.py"), str(states)], capture_output=True, text=True, check=True)
    return done.stdout


def seconds(replay, script):
    best = float("inf")
    for _ in range(5):
        start = time.perf_counter()
        subprocess.run([replay], input=script.encode(), capture_output=True, check=True)
        best = min(best, time.perf_counter() - start)
    return best


def instructions(replay, script):
    command = ["valgrind", "--tool=callgrind", "--callgrind-out-file=/dev/null", replay]
    done = subprocess.run(command, input=script.encode(), capture_output=True, check=True)
    return int(re.search(rb"Collected : (\d+)", done.stderr).group(1))


def main():
    replay = os.path.abspath(sys.argv[1])
    many = int(sys.argv[2]) if len(sys.argv) > 2 else 2000
    few = max(1, many // 10)
    print("lookahead  states  edges  us a question  instructions a question")
    for kind in ["walker", "table", "cache"]:
        for states in [50, 100, 200, 500]:
            net = net_of(states)
            script = "lookahead %s\n%s" % (kind, net)
            ask = "within 0\n"
            time_each = (seconds(replay, script + ask * (1 + many)) - seconds(replay, script + ask)) / many
            count_each = (instructions(replay, script + ask * (1 + few)) - instructions(replay, script + ask)) / few
            print("%-9s %7d %6d %14.1f %24d" % (kind, states, net.count("\nedge"), 1e6 * time_each, count_each))


if __name__ == "__main__":
    main()

#!/usr/bin/env python3
"""Runs each script of FILE through two programs and reports where they differ.

    compare.py REPLAY ORACLE FILE            compares the answers
    compare.py --whole [LINE] REPLAY ORACLE FILE
                                             compares all that is printed; LINE, if given, is put before each script
    compare.py --answers ORACLE FILE         writes each script with ORACLE's answer, a line `= ANSWER`, after it
    compare.py --printed ORACLE FILE         the same with each line that ORACLE prints
    compare.py --tally ORACLE FILE           counts ORACLE's answers

A program may have arguments: give it as one word, as "PROGRAM --flag". It reads a script on standard
input. Its answer is the first line it prints, or `malformed` if its status is not 0. In FILE a line
`---` stands between two scripts; lines that begin with `=` are left out.
"""
import collections
import concurrent.futures
import shlex
import subprocess
import sys


def scripts(path):
    with open(path, newline="") as file:
        parts = file.read().split("---\n")
    for part in parts:
        yield "".join(line for line in part.splitlines(True) if not line.startswith("="))


def answer(command, script):
    done = subprocess.run(shlex.split(command), input=script.encode(), capture_output=True)
    if done.returncode != 0:
        return "malformed"
    lines = done.stdout.decode().splitlines()
    return lines[0] if lines else "nothing"


def write_answers(oracle, path):
    sys.stdout.write("---\n".join("%s= %s\n" % (s, answer(oracle, s)) for s in scripts(path)))


def write_printed(oracle, path):
    sys.stdout.write("---\n".join(s + "".join("= %s\n" % l for l in printed(oracle, s).splitlines()) for s in scripts(path)))


def tally(oracle, path):
    counts = collections.Counter(answer(oracle, s) for s in scripts(path))
    total = sum(counts.values())
    for name, count in counts.most_common():
        print("%6d %5.1f%% %s" % (count, 100 * count / total, name))


def printed(command, script):
    done = subprocess.run(shlex.split(command), input=script.encode(), capture_output=True)
    return done.stdout.decode() if done.returncode == 0 else "malformed\n"


def compare_whole(line, replay, oracle, path):
    total = lines = differ = 0
    with concurrent.futures.ThreadPoolExecutor() as pool:
        texts = [line + script for script in scripts(path)]
        pairs = zip(texts, pool.map(lambda t: printed(replay, t), texts), pool.map(lambda t: printed(oracle, t), texts))
        for number, (script, ours, theirs) in enumerate(pairs, 1):
            total += 1
            lines += ours.count("\n")
            if ours != theirs:
                differ += 1
                print("script %d:\n%sand by the oracle\n%s%s" % (number, ours, theirs, script))
    print("%d scripts compared, %d lines printed, %d scripts differ" % (total, lines, differ))
    return 1 if differ else 0


def compare(replay, oracle, path):
    total = differ = 0
    for number, script in enumerate(scripts(path), 1):
        total += 1
        ours, theirs = answer(replay, script), answer(oracle, script)
        if ours != theirs:
            differ += 1
            print("script %d: %s, and %s by the oracle\n%s" % (number, ours, theirs, script))
    print("%d nets compared, %d differ" % (total, differ))
    return 1 if differ else 0


def main():
    if sys.argv[1] == "--answers":
        write_answers(sys.argv[2], sys.argv[3])
    elif sys.argv[1] == "--printed":
        write_printed(sys.argv[2], sys.argv[3])
    elif sys.argv[1] == "--whole":
        line = sys.argv[2] + "\n" if len(sys.argv) == 6 else ""
        sys.exit(compare_whole(line, *sys.argv[-3:]))
    elif sys.argv[1] == "--tally":
        tally(sys.argv[2], sys.argv[3])
    else:
        sys.exit(compare(sys.argv[1], sys.argv[2], sys.argv[3]))


if __name__ == "__main__":
    main()

#!/usr/bin/env python3
"""Writes N random scripts with a tape to standard output: gen_tapes.py N SEED [--shown].

A line `---` stands between two scripts. The same N and SEED give the same scripts. Each is the pass net of
docs/FORMAT.md and rows of words or of events: mostly a tape, else one that is damaged in one or two places
(a number beyond its limit, the end of the input in the middle or missing), with or without a `show` line,
and a question. With --shown a line `tokens` follows, and after it, in lines that begin with `=`, what is to
be printed for it.
"""
import random
import sys

NET = """net 3
rule 0 5
rule 6 10
state 0 2 1
state 0 10 2
state 0 1 1
state 0 9 1
state 0 1 1
state 0 7 0
state 1 2 1
state 1 1 1
state 1 1 1
state 1 1 1
state 1 7 0
edge 1 1 0 0
edge 1 2 0 0
edge 1 4 0 0
edge 3 6 1 3
edge 1 1 0 0
edge 5 5 -1 0
edge 1 7 0 0
edge 5 8 1 0
edge 5 9 2 0
edge 5 10 3 0
"""
LIMITS = [(-1, 255), (0, 255), (0, 1_000_000), (0, 1_000_000)]  # type, channel, line, column


def number(rng, low, high):
    return rng.choice([low, high, low + 1, high - 1, rng.randint(low, high), rng.randint(low, min(high, 9))])


def token(rng, kind, hidden):
    row = [rng.choice([0, 1, 2, 3, rng.randint(0, 255)])]
    row.append(rng.choice([1, 2, 255, rng.randint(1, 255)]) if rng.random() < hidden else 0)
    row += [number(rng, *LIMITS[2]), number(rng, *LIMITS[3])]
    if kind == "word":
        row += [rng.randint(-9, 99), rng.choice([-1, rng.randint(0, 99), 2**31 - 1, -(2**31)])]
    return row


def damage(rng, rows):
    at = rng.randrange(len(rows))
    what = rng.randrange(6)
    if what < 4:
        low, high = LIMITS[what]
        rows[at][what] = rng.choice([low - 1, high + 1, -(2**31), 2**31 - 1, high + 70_000, 2**40, -(2**40)])
    elif what == 4:
        rows[at][0] = -1
    else:
        rows[-1][0] = rng.randint(0, 255)


def is_tape(rows):
    inside = all(low <= n <= high for row in rows for n, (low, high) in zip(row, LIMITS))
    ends = [row[0] == -1 for row in rows]
    return inside and ends[-1] and not any(ends[:-1])


def script(rng, shown):
    kind = rng.choice(["word", "lane"])
    hidden = rng.choice([0, 0.3, 0.7, 1])
    rows = [token(rng, kind, hidden) for _ in range(rng.choice([0, 0, 1, 2, 3, rng.randint(0, 30)]))]
    end = token(rng, kind, hidden)
    end[0] = -1
    rows.append(end)
    for _ in range(rng.choice([0, 0, 0, 1, 1, 2])):
        damage(rng, rows)
    show = rng.choice(["", "show all\n", "show channel0\n", "show all\nshow channel0\n"])
    lines = ["%s %s\n" % (kind, " ".join(map(str, row))) for row in rows]
    text = NET + "".join(lines)
    text = show + text if rng.random() < 0.5 else text + show
    if not shown:
        return text + "within %d\n" % rng.randint(0, 12)
    printed = ["net ok"]
    if is_tape(rows):
        seen = [i for i, row in enumerate(rows) if "channel0" not in show or row[1] == 0 or row[0] == -1]
        printed += ["tape ok", "tokens: %d" % len(seen)]
        printed += ["  %d: %s %s" % (i, kind, " ".join(map(str, rows[i]))) for i in seen]
        printed += ["leaves 0 added 1000 free", "reports 0"]
    else:
        printed.append("tape denied 6")
    return text + "tokens\n" + "".join("= %s\n" % line for line in printed)


def main():
    count, rng = int(sys.argv[1]), random.Random(int(sys.argv[2]))
    shown = "--shown" in sys.argv
    sys.stdout.write("---\n".join(script(rng, shown) for _ in range(count)))


if __name__ == "__main__":
    main()

#!/usr/bin/env python3
"""Writes a script of one net with STATES states to standard output: gen_chain_net.py STATES [DEPTH].

The net is for measuring: the walk from state 0, the start of rule 0, visits every state and every edge.
Rule 0 is a chain of star loops with diamonds inside, so that the number of ways through it grows tenfold
with each 16 states. Some of the loops call rule 1. Rules 1 to DEPTH can take nothing, and each calls the
next one from two places, so that the number of piles doubles with each rule: a program that follows each
pile takes twice as long for each. DEPTH is 4, or less in a net of less than 100 states, if it is not said.
STATES is 30 to 512. The script ends with the rows; put the questions after them.
"""
import sys

from gen_nets import (
    ACTION,
    ATOM,
    BASIC,
    BLOCK,
    BLOCK_END,
    CALL,
    EPSILON,
    LOOP_END,
    PREDICATE,
    RANGE,
    STAR_BACK,
    STAR_BLOCK,
    STAR_ENTRY,
    Builder,
)

LARGEST = 250
NESTED_RULE = 8  # at most so many states has a nested rule, without a diamond
DIAMOND = 5  # states of a diamond
LOOP = 2 * DIAMOND + 6  # states of a loop: two diamonds, a call, and four of its own


class Chain:
    """Builds the net; the states of rule 0 are added as long as there is room."""

    def __init__(self, states, depth):
        self.b = Builder(None, depth + 1, LARGEST)
        self.limit = states
        self.next_type = 0

    def room(self):
        return self.limit - len(self.b.states)

    def type(self):
        """The types in turn, far apart, so that sets have many intervals."""
        self.next_type = (self.next_type + 2) % LARGEST
        return self.next_type + 1

    def token(self, source, target):
        low = self.type()
        if low % 3 == 0:
            self.b.edge(source, RANGE, target, low, min(low + 2, LARGEST))
        else:
            self.b.edge(source, ATOM, target, min(low, LARGEST))

    def then(self, source, kind=BASIC):
        target = self.b.state(source.rule, kind)
        self.b.free(source, target, EPSILON)
        return target

    def diamond(self, at):
        """A block with three ways to its end, each of which also takes a token."""
        block, end = self.then(at, BLOCK), self.b.state(at.rule, BLOCK_END)
        for kind in (EPSILON, PREDICATE, ACTION):
            way = self.b.state(at.rule)
            self.b.free(block, way, EPSILON)
            self.b.free(way, end, kind)
            self.token(way, end)
        return end

    def called(self, source, rule):
        """A way over a call of the rule, from a state of its own."""
        return self.b.call(self.then(source), rule)

    def loop(self, at, called):
        """A star loop around two diamonds, and a call between them if a rule is given."""
        entry = self.then(at, STAR_ENTRY)
        block = self.then(entry, STAR_BLOCK)
        inner = self.diamond(block)
        if called is not None:
            inner = self.called(inner, called)
        back = self.then(self.diamond(inner), STAR_BACK)
        self.b.free(back, entry, EPSILON)
        return self.then(entry, LOOP_END)

    def nested(self, rule, diamond):
        """A rule that can take nothing, with two ways, each over a call of the next rule."""
        at = self.then(self.b.start[rule], BLOCK)
        end = self.b.state(rule, BLOCK_END)
        last = rule + 1 == self.b.rule_count
        for _ in range(2):
            way = self.then(at) if last else self.called(at, rule + 1)
            self.b.free(way, end, EPSILON)
            self.token(way, end)
        if diamond:
            end = self.diamond(end)
        self.token(end, self.b.stop[rule])
        self.b.free(end, self.b.stop[rule], EPSILON)

    def net(self):
        depth = self.b.rule_count - 1
        for rule in range(1, depth + 1):
            needed = NESTED_RULE * (depth - rule + 1) + 2 * LOOP
            self.nested(rule, self.room() > max(needed, self.limit * 0.6))
        at, turn = self.b.start[0], 0
        while self.room() >= LOOP:
            at = self.loop(at, 1 if depth and turn % 4 == 0 else None)
            turn += 1
        while self.room() >= DIAMOND:
            at = self.diamond(at)
        for _ in range(self.room()):
            at = self.then(at)
        self.b.free(at, self.b.stop[0], EPSILON)
        return self.b.finish(order="kept")


def main():
    states = int(sys.argv[1])
    depth = int(sys.argv[2]) if len(sys.argv) > 2 else min(4, states // 25)
    if not 30 <= states <= 512:
        sys.exit("STATES is 30 to 512")
    deepest = (states - LOOP - 2) // NESTED_RULE
    if not 0 <= depth <= deepest:
        sys.exit("DEPTH is 0 to %d for %d states" % (deepest, states))
    net = Chain(states, depth).net()
    print("# state 0 is the start of rule 0")
    print("net", net.largest)
    for name, table in zip(["rule", "state", "edge", "interval"], net.tables()):
        for row in table:
            print(name, *row)


if __name__ == "__main__":
    main()

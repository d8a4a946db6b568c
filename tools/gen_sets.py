#!/usr/bin/env python3
"""Writes N random scripts with questions about sets to standard output: gen_sets.py N SEED.

A line `---` stands between two scripts. The same N and SEED give the same scripts. Each is a net of at
most 60 states, nearly always a valid one, and after its rows 5 to 25 questions: `within S`,
`in-context S C..`, `expected S C..`, `recovery C..`.
"""
import random
import sys

from gen_nets import (
    ATOM,
    CALL,
    DAMAGES,
    FREE_EDGES,
    NOT_SET,
    RANGE,
    SET,
    STOP,
    TOKEN_EDGES,
    WILDCARD,
    Builder,
    Grammar,
    grammar_net,
    nullable_rules,
    open_way,
    recursion_net,
    set_edges,
    text,
    wild_net,
)

MOST_STATES = 60
RULE_COUNTS = [1, 2, 2, 3, 3, 4, 5, 6, 7, 8]


class Facts:
    """What the questions need to know of a net that keeps the rules."""

    def __init__(self, net):
        self.net = net
        self.count = len(net.states)
        self.rule = [rule for rule, _, _ in net.states]
        self.edges = []
        place = 0
        for _, _, run in net.states:
            self.edges.append(net.edges[place : place + run])
            place += run
        self.callers = [s for s in range(self.count) if self.is_caller(s)]
        self.null = self.null_states()
        self.nulls = sorted(self.null)
        self.open_callers = [s for s in self.callers if self.follow(s) in self.null]
        over = {s for s in self.callers if self.edges[s][0][1] in self.null}
        self.through = [s for s in range(self.count) if over & self.reach(s)]  # a walk goes over a call

    def is_caller(self, state):
        return 0 <= state < self.count and any(edge[0] == CALL for edge in self.edges[state])

    def takes_more(self, state):
        """Whether the state may have edges beside its own."""
        return self.net.states[state][1] != STOP and not self.is_caller(state)

    def states_of(self, rule):
        return [s for s in range(self.count) if self.rule[s] == rule]

    def called(self, caller):
        return self.edges[caller][0][2]

    def follow(self, caller):
        return self.edges[caller][0][3]

    def null_states(self):
        """The states from which a walk can end on the stop state of their rule."""
        null = {stop for _, stop in self.net.rules}
        grown = True
        while grown:
            grown = False
            for state, edges in enumerate(self.edges):
                if state not in null and any(self.leads_to(edge, null) for edge in edges):
                    null.add(state)
                    grown = True
        return null

    def leads_to(self, edge, null):
        kind, target, _, follow = edge
        if kind == CALL:
            return target in null and follow in null
        return kind in FREE_EDGES and target in null

    def steps(self, state):
        for kind, target, _, follow in self.edges[state]:
            if kind == CALL:
                yield target
                if target in self.null:
                    yield follow
            elif kind in FREE_EDGES:
                yield target

    def reach(self, state):
        """The states on which a walk from this one can stand before it ends or leaves the rule."""
        seen, todo = {state}, [state]
        while todo:
            for target in self.steps(todo.pop()):
                if target not in seen:
                    seen.add(target)
                    todo.append(target)
        return seen

    def left_recursive(self):
        return any(
            self.is_caller(state) and self.edges[state][0][1] == start
            for start, _ in self.net.rules
            for state in self.reach(start)
        )


# Nets


class OpenGrammar(Grammar):
    """A grammar most of whose elements can take nothing."""

    def sequence(self, at, left, depth):
        for _ in range(self.rng.choice([0, 1, 1, 2, 2, 3])):
            element = self.open_element if self.rng.random() < 0.6 else self.element
            at, left = element(at, left, depth)
        return at, left

    def open_element(self, at, left, depth):
        others = range(at.rule + 1, self.b.rule_count) if left else range(self.b.rule_count)
        if others and self.rng.random() < 0.7:
            return self.b.call(at, self.rng.choice(others)), left
        if depth > 0 and self.rng.random() < 0.6:
            return self.star(at, left, depth - 1)
        return self.b.then_free(at), left

    def last_edge(self, last, stop):
        if self.rng.random() < 0.1:
            self.b.token(last, stop)
        else:
            self.b.free(last, stop)


def open_grammar_net(rng):
    return OpenGrammar(rng, rng.choice(RULE_COUNTS)).net()


def plain_grammar_net(rng):
    return Grammar(rng, rng.choice(RULE_COUNTS)).net()


def layered_net(rng):
    """Rules that call those after them in nested ways, most of which can take nothing."""
    b = Builder(rng, rng.choice([2, 3, 4, 5, 6, 7, 8]))
    nullables = list(range(b.rule_count - 1))
    first = rng.randint(0, len(nullables) - 1)
    nullable_rules(b, nullables[first:])
    b.token(b.start[-1], b.stop[-1])
    for rule in range(first):
        at = b.start[rule]
        for _ in range(rng.randint(1, 3)):
            at = b.call(at, rng.randrange(rule + 1, b.rule_count - 1))
            if rng.random() < 0.3:
                b.token(b.then_free(at), b.stop[rule])
        if rng.random() < 0.3:
            # a call of any rule at all, after a token
            at = b.call(b.then_token(open_way(b, at, [])), rng.randrange(b.rule_count))
        b.free(at, b.stop[rule])
    return b.finish()


def tangled_net(rng):
    return wild_net(rng, calls=rng.choice([0.1, 0.2, 0.35, 0.5]))


def guarded_ring_net(rng):
    return recursion_net(rng, closed=True)


KINDS = {
    open_grammar_net: 35,
    plain_grammar_net: 8,
    grammar_net: 4,
    layered_net: 25,
    tangled_net: 20,
    guarded_ring_net: 8,
}


def token_row(rng, net, targets):
    """A token edge to one of the states, with few types, so that sets have many intervals."""
    kind = rng.choice([ATOM, ATOM, ATOM] + TOKEN_EDGES)
    low = rng.randint(1, net.largest)
    row = [kind, rng.choice(targets), 0, 0]
    if kind == ATOM:
        row[2] = -1 if rng.random() < 0.1 else low
    elif kind == RANGE:
        row[2:] = [low, rng.randint(low, min(net.largest, low + rng.choice([0, 1, 3, 9, 255])))]
    elif kind in (SET, NOT_SET):
        row[2:] = interval_run(rng, net)
    return row


def interval_run(rng, net):
    """New intervals in any order, many short and few long ones, that may overlap."""
    first, count = len(net.intervals), rng.choice([1, 2, 3, 5, 8, 13])
    for _ in range(count):
        low = rng.randint(1, net.largest)
        high = min(net.largest, low + rng.choice([0, 0, 0, 1, 2, 5, 20, 255]))
        net.intervals.append([-1, -1] if rng.random() < 0.1 else [low, high])
    return first, count


def add_fan(rng, net):
    """Gives a state many token edges."""
    facts = Facts(net)
    state = rng.randrange(facts.count)
    if not facts.takes_more(state):
        return
    own = facts.states_of(facts.rule[state])
    rows = facts.edges[state] + [token_row(rng, net, own) for _ in range(rng.choice([3, 6, 12, 30]))]
    if rng.random() < 0.15 and net.largest > 5:
        types = list(range(rng.choice([1, 2]), net.largest + 1, 2))
        rng.shuffle(types)
        rows += [[ATOM, rng.choice(own), t, 0] for t in types]
    rng.shuffle(rows)
    set_edges(net, state, rows)


def add_tokens(rng, net):
    """Gives some states, here and there, one more token edge."""
    facts = Facts(net)
    share = rng.choice([0.05, 0.1, 0.2])
    for state in filter(facts.takes_more, range(facts.count)):
        if rng.random() < share:
            row = token_row(rng, net, facts.states_of(facts.rule[state]))
            set_edges(net, state, rng.choice([facts.edges[state] + [row], [row] + facts.edges[state]]))


def spread(rng, net):
    """Makes room for more types, with fewer edges that take nearly all of them."""
    net.largest = max(net.largest, rng.choice([20, 60, 255]))
    for edge in net.edges:
        if edge[0] in (NOT_SET, WILDCARD) and rng.random() < 0.8:
            edge[0], edge[2], edge[3] = ATOM, rng.randint(1, net.largest), 0


def more_intervals(rng, net):
    """Gives some of the set edges longer runs of intervals."""
    for edge in net.edges:
        if edge[0] in (SET, NOT_SET) and rng.random() < 0.4:
            edge[2:] = interval_run(rng, net)


def any_net(rng):
    """A net of at most 60 states that keeps the rules; rarely a left-recursive one."""
    make = rng.choices(list(KINDS), KINDS.values())[0]
    while True:
        net = make(rng)
        facts = Facts(net)
        if facts.left_recursive() and rng.random() < 0.99:
            continue
        if len(net.states) <= MOST_STATES and (facts.callers or rng.random() < 0.3):
            break
    if rng.random() < 0.4:
        spread(rng, net)
    if rng.random() < 0.5:
        add_tokens(rng, net)
    if rng.random() < 0.4:
        more_intervals(rng, net)
    if rng.random() < 0.4:
        add_fan(rng, net)
    return net


# Questions


class Asker:
    def __init__(self, rng, facts):
        self.rng = rng
        self.facts = facts

    def outside(self):
        """A number that is no state's: one close by, or one that could be taken for a state's."""
        past = self.facts.count
        state = self.rng.choice(self.facts.callers or [0])
        if self.rng.random() < 0.3:
            return self.rng.choice([state - past, state + 256, state + 512, state + 2**16])
        return self.rng.choice([past, past, past + 1, -1, -1, -2, 511, 512, 2**31 - 1, -(2**31)])

    def state(self):
        """A state to ask about; often one whose walk can reach its stop, or goes over a call."""
        roll = self.rng.random()
        if roll < 0.05:
            return self.outside()
        if roll < 0.35:
            return self.rng.choice(self.facts.nulls)
        if roll < 0.65 and self.facts.through:
            return self.rng.choice(self.facts.through)
        if roll < 0.7:
            return self.rng.choice(self.facts.net.rules)[0]
        return self.rng.randrange(self.facts.count)

    def length(self):
        roll = self.rng.random()
        if roll < 0.93:
            return self.rng.randint(0, 8)
        return self.rng.choice([self.rng.randint(9, 62), 63, 63, 64, 70])

    def callers_of(self, rule, pool):
        return [s for s in pool if self.facts.called(s) == rule]

    def chain(self, state, length):
        """Callers, innermost first: any, ones with a way on to their stop, or ones that fit together."""
        facts = self.facts
        if not facts.callers:
            return [self.bad_member() for _ in range(min(length, self.rng.choice([0, 0, 1, 2])))]
        open_share = self.rng.choice([0, 0.5, 0.9, 1])
        fit = self.rng.random() < 0.4
        rule = facts.rule[state] if 0 <= state < facts.count else None
        members = []
        for _ in range(length):
            pool = facts.callers
            if facts.open_callers and self.rng.random() < open_share:
                pool = facts.open_callers
            if fit:
                pool = self.callers_of(rule, pool) or self.callers_of(rule, facts.callers) or pool
            members.append(self.rng.choice(pool))
            rule = facts.rule[members[-1]]
        if length > 8 and facts.open_callers and self.rng.random() < 0.7:
            # a long chain that leads to its outermost member
            members[:-1] = [self.rng.choice(facts.open_callers) for _ in members[1:]]
            members[-1] = self.rng.choice(facts.callers)
        if members and self.rng.random() < 0.06:
            members[self.rng.randrange(len(members))] = self.bad_member()
        return members

    def bad_member(self):
        """A state that calls no rule, or none of the net's."""
        others = [s for s in range(self.facts.count) if not self.facts.is_caller(s)]
        return self.rng.choice(others) if self.rng.random() < 0.5 else self.outside()

    def question(self):
        name = self.rng.choice(["within", "in-context", "in-context", "expected", "expected", "recovery"])
        if name == "recovery" and not self.facts.callers and self.rng.random() < 0.8:
            name = "within"
        state = self.state()
        if name == "within":
            return [name, state]
        if name == "recovery":
            return [name] + (self.chain(state, max(1, self.length())) or [self.bad_member()])
        return [name, state] + self.chain(state, self.length())

    def questions(self):
        asked = [self.question() for _ in range(self.rng.randint(5, 25))]
        for place in range(len(asked)):
            if self.rng.random() < 0.05:
                asked[place] = self.rng.choice(asked)
        return asked


def script(rng):
    net = any_net(rng)
    asked = Asker(rng, Facts(net)).questions()
    if rng.random() < 0.03:
        rng.choices(list(DAMAGES), DAMAGES.values())[0](rng, net)
    lines = [" ".join(str(word) for word in question) for question in asked]
    return text(rng, net, malformed=0) + "\n".join(lines) + "\n"


def main():
    count, seed = int(sys.argv[1]), int(sys.argv[2])
    rng = random.Random(seed)
    sys.stdout.write("---\n".join(script(rng) for _ in range(count)))


if __name__ == "__main__":
    main()

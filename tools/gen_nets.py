#!/usr/bin/env python3
"""Writes N random scripts, valid and damaged, to standard output: gen_nets.py N SEED.

A line `---` stands between two scripts. The same N and SEED give the same scripts. Of 50 scripts or
more, the first eight are nets with as many rows of each table as there may be, and one more.
"""
import random
import sys

BASIC, START, BLOCK, PLUS_BLOCK, STAR_BLOCK, STOP, BLOCK_END = 1, 2, 3, 4, 5, 7, 8
STAR_BACK, STAR_ENTRY, PLUS_BACK, LOOP_END = 9, 10, 11, 12
EPSILON, RANGE, CALL, PREDICATE, ATOM, ACTION, SET, NOT_SET, WILDCARD, PRECEDENCE = range(1, 11)
FREE_EDGES = [EPSILON, PREDICATE, ACTION, PRECEDENCE]  # they lead on and take no token
TOKEN_EDGES = [RANGE, ATOM, SET, NOT_SET, WILDCARD]
INNER_KINDS = [BASIC, BLOCK, PLUS_BLOCK, STAR_BLOCK, BLOCK_END, STAR_BACK, STAR_ENTRY, PLUS_BACK, LOOP_END]
HUGE = [2**31 - 1, 2**31, -(2**31), -(2**31) - 1, 2**32, 2**32 + 1, 2**63 - 1, -(2**63)]


class Net:
    """The tables of a net as lists of numbers."""

    def __init__(self, largest):
        self.largest = largest
        self.rules = []
        self.states = []
        self.edges = []
        self.intervals = []
        self.counts = None

    def lengths(self):
        return [len(self.rules), len(self.states), len(self.edges), len(self.intervals)]

    def tables(self):
        return [self.rules, self.states, self.edges, self.intervals]


class State:
    def __init__(self, rule, kind):
        self.rule = rule
        self.kind = kind
        self.edges = []


class Builder:
    """Builds a net whose edges name states as objects, and numbers them last."""

    def __init__(self, rng, rule_count, largest=None):
        self.rng = rng
        self.largest = largest or rng.choice([1, 2, 3, 3, 5, 9, 60, 254, 255])
        self.states = []
        self.intervals = []
        self.start = [self.state(r, START) for r in range(rule_count)]
        self.stop = [self.state(r, STOP) for r in range(rule_count)]
        self.rule_count = rule_count

    def state(self, rule, kind=BASIC):
        state = State(rule, kind)
        self.states.append(state)
        return state

    def edge(self, source, kind, target, a=0, b=0):
        source.edges.append([kind, target, a, b])

    def free(self, source, target, kind=None):
        self.edge(source, kind or self.rng.choice(FREE_EDGES), target)

    def interval(self):
        """A good interval: types in order, or the end of the input."""
        if self.rng.random() < 0.2:
            return [-1, -1]
        low = self.rng.randint(1, self.largest)
        return [low, self.rng.randint(low, self.largest)]

    def interval_run(self):
        """A run of intervals for a set: new ones, or some that are there, shared or overlapping."""
        if self.intervals and self.rng.random() < 0.5:
            first = self.rng.randrange(len(self.intervals))
            return first, self.rng.randint(1, len(self.intervals) - first)
        first = len(self.intervals)
        count = self.rng.randint(1, 3)
        self.intervals += [self.interval() for _ in range(count)]
        return first, count

    def token(self, source, target, kind=None):
        kind = kind or self.rng.choice(TOKEN_EDGES)
        a = b = 0
        if kind == RANGE:
            a = self.rng.randint(1, self.largest)
            b = self.rng.randint(a, self.largest)
        elif kind == ATOM:
            a = -1 if self.rng.random() < 0.2 else self.rng.randint(1, self.largest)
        elif kind in (SET, NOT_SET):
            a, b = self.interval_run()
        self.edge(source, kind, target, a, b)

    def call(self, source, rule):
        """A call of the rule from a state of its own; the follow state."""
        follow = self.state(source.rule)
        if source.edges:
            before = source
            source = self.state(before.rule)
            self.free(before, source, EPSILON)
        self.edge(source, CALL, self.start[rule], rule, follow)
        return follow

    def then_token(self, source, kind=None):
        target = self.state(source.rule)
        self.token(source, target, kind)
        return target

    def then_free(self, source):
        target = self.state(source.rule)
        self.free(source, target)
        return target

    def finish(self, order="shuffled"):
        """The net with its states numbered: rule by rule, or in any order."""
        states = sorted(self.states, key=lambda s: s.rule)
        if order == "shuffled" and self.rng.random() < 0.4:
            self.rng.shuffle(states)
        number = {id(s): i for i, s in enumerate(states)}
        net = Net(self.largest)
        net.rules = [[number[id(a)], number[id(b)]] for a, b in zip(self.start, self.stop)]
        for s in states:
            net.states.append([s.rule, s.kind, len(s.edges)])
            for kind, target, a, b in s.edges:
                b = number[id(b)] if kind == CALL else b
                net.edges.append([kind, number[id(target)], a, b])
        net.intervals = self.intervals
        return net


# Nets built from the shapes of grammars


class Grammar:
    """Rules of sequences, choices and loops. Only where a token has surely been taken may a rule call
    itself or one before it, so that no rule is left-recursive."""

    def __init__(self, rng, rule_count):
        self.rng = rng
        self.b = Builder(rng, rule_count)

    def sequence(self, at, left, depth):
        for _ in range(self.rng.choice([0, 1, 1, 2, 3])):
            at, left = self.element(at, left, depth)
        return at, left

    def element(self, at, left, depth):
        shape = self.rng.choice(["token", "token", "free", "call", "call", "choice", "star", "plus"])
        if shape == "call":
            callable_rules = range(at.rule + 1, self.b.rule_count) if left else range(self.b.rule_count)
            if callable_rules:
                return self.b.call(at, self.rng.choice(list(callable_rules))), left
            shape = "token"
        if shape == "free" or (depth == 0 and shape != "token"):
            return self.b.then_free(at), left
        if shape == "token":
            return self.b.then_token(at), False
        return getattr(self, shape)(at, left, depth - 1)

    def choice(self, at, left, depth):
        block, end = self.b.state(at.rule, BLOCK), self.b.state(at.rule, BLOCK_END)
        self.b.free(at, block, EPSILON)
        still_left = False
        for _ in range(self.rng.randint(1, 3)):
            first = self.b.then_free(block)
            last, alternative_left = self.sequence(first, left, depth)
            self.b.free(last, end, EPSILON)
            still_left = still_left or alternative_left
        after = self.b.then_free(end)
        return after, still_left

    def star(self, at, left, depth):
        entry, block = self.b.state(at.rule, STAR_ENTRY), self.b.state(at.rule, STAR_BLOCK)
        end, back = self.b.state(at.rule, BLOCK_END), self.b.state(at.rule, STAR_BACK)
        after = self.b.state(at.rule, LOOP_END)
        self.b.free(at, entry, EPSILON)
        self.b.free(entry, block, EPSILON)
        self.b.free(entry, after, EPSILON)
        last, _ = self.sequence(self.b.then_free(block), left, depth)
        self.b.free(last, end, EPSILON)
        self.b.free(end, back, EPSILON)
        self.b.free(back, entry, EPSILON)
        return self.b.then_free(after), left

    def plus(self, at, left, depth):
        block, end = self.b.state(at.rule, PLUS_BLOCK), self.b.state(at.rule, BLOCK_END)
        back, after = self.b.state(at.rule, PLUS_BACK), self.b.state(at.rule, LOOP_END)
        self.b.free(at, block, EPSILON)
        last, body_left = self.sequence(self.b.then_free(block), left, depth)
        self.b.free(last, end, EPSILON)
        self.b.free(end, back, EPSILON)
        self.b.free(back, block, EPSILON)
        self.b.free(back, after, EPSILON)
        return self.b.then_free(after), body_left

    def net(self):
        for rule in range(self.b.rule_count):
            last, _ = self.sequence(self.b.start[rule], True, self.rng.choice([0, 1, 1, 2]))
            if last.edges:
                last = self.b.then_free(last)
            self.last_edge(last, self.b.stop[rule])
        return self.b.finish()

    def last_edge(self, last, stop):
        if self.rng.random() < 0.3:
            self.b.token(last, stop, self.rng.choice([ATOM, SET]))
        else:
            self.b.free(last, stop)


def grammar_net(rng):
    return Grammar(rng, rng.choice([1, 1, 2, 2, 3, 4, 6])).net()


def wild_net(rng, calls=0.25):
    """Any edges that the rules of a net allow, in any shape: also states out of reach, and left recursion."""
    b = Builder(rng, rng.choice([1, 2, 2, 3, 5]))
    for rule in range(b.rule_count):
        own = [b.start[rule], b.stop[rule]]
        own += [b.state(rule, rng.choice(INNER_KINDS)) for _ in range(rng.randint(0, 5))]
        for state in own:
            if state.kind == STOP:
                continue
            if rng.random() < calls:
                called = rng.randrange(b.rule_count)
                b.edge(state, CALL, b.start[called], called, rng.choice(own))
                continue
            for _ in range(rng.choice([1, 1, 2, 3])):
                if rng.random() < 0.5:
                    b.free(state, rng.choice(own))
                else:
                    b.token(state, rng.choice(own))
    return b.finish()


# Left recursion, and what only looks like it


def nullable_rules(b, rules):
    """Makes each rule one that may take nothing, some only by way of those after it."""
    for i, rule in enumerate(rules):
        at = b.start[rule]
        if i + 1 < len(rules) and b.rng.random() < 0.6:
            at = b.call(at, rules[i + 1])
            if b.rng.random() < 0.3:
                at = b.call(at, rules[-1])
        else:
            b.free(at, b.stop[rule])
        b.free(at, b.stop[rule])
        if at.kind != START or b.rng.random() < 0.5:
            b.token(b.then_free(at), b.stop[rule])


def open_way(b, at, nullables):
    """Goes on from the state by ways that take no token."""
    for _ in range(b.rng.choice([0, 0, 1, 1, 2, 3])):
        if nullables and b.rng.random() < 0.5:
            at = b.call(at, b.rng.choice(nullables))
        else:
            at = b.then_free(at)
            if b.rng.random() < 0.3:
                b.token(at, b.stop[at.rule])
    return at


def recursion_net(rng, closed):
    """A ring of rules, each calling the next before any token; closed by a token in one of them if asked."""
    ring = rng.randint(1, 4)
    nullables = list(range(ring, ring + rng.randint(0, 3)))
    solid = ring + len(nullables)  # a rule that takes a token
    b = Builder(rng, solid + 1)
    nullable_rules(b, nullables)
    b.token(b.start[solid], b.stop[solid])
    guard = rng.randrange(ring) if closed else None
    for rule in range(ring):
        at = open_way(b, b.start[rule], nullables)
        if rule == guard:
            at = b.call(at, solid) if rng.random() < 0.4 else b.then_token(at)
            at = open_way(b, at, nullables)
        at = b.call(at, (rule + 1) % ring)
        b.free(at, b.stop[rule])
        if rng.random() < 0.5:
            b.token(at, b.stop[rule])
    return b.finish()


# Nets at the limits


def many_rules(rng, count):
    b = Builder(rng, count)
    for rule in range(count):
        if rule + 1 < count and rng.random() < 0.1:
            b.free(b.call(b.start[rule], rule + 1), b.stop[rule])
        else:
            b.token(b.start[rule], b.stop[rule])
    return b.finish()


def many_states(rng, count):
    b = Builder(rng, 1)
    at = b.start[0]
    for _ in range(count - 2):
        at = b.then_free(at)
    b.token(at, b.stop[0])
    return b.finish()


def many_edges(rng, count):
    b = Builder(rng, 1)
    middle = b.then_free(b.start[0])
    for _ in range(count - 1):
        b.free(middle, b.stop[0])
    return b.finish()


def many_intervals(rng, count):
    net = grammar_net(rng)
    first = len(net.intervals)
    net.intervals += [[-1, -1] for _ in range(count - first)]
    return net


LIMITS = [(many_rules, 64), (many_states, 512), (many_edges, 2048), (many_intervals, 1024)]


def limit_nets(rng):
    """Each table at its limit, and with one row more."""
    return [make(rng, limit + more) for make, limit in LIMITS for more in (0, 1)]


def limit_net(rng):
    """A net whose size, or largest type, lies at a limit or just past it."""
    roll = rng.random()
    if roll < 0.35:
        net = grammar_net(rng)
        net.largest = rng.choice([0, 0, 256, 256, 255, 1, -1, 1000, rng.choice(HUGE)])
        return net
    if roll < 0.7:
        net = grammar_net(rng)
        net.counts = net.lengths()
        place = rng.randrange(4)
        net.counts[place] = rng.choice([0, 0, 1, -1, -5, rng.choice([HUGE[3], HUGE[7]])])
        return net
    if roll < 0.95:
        net = Net(rng.choice([1, 3, 255]))
        for table, width in zip(net.tables(), [2, 3, 4, 2]):
            if rng.random() < 0.4:
                table.append([rng.randint(-1, 2) for _ in range(width)])
        return net
    make, limit = rng.choice(LIMITS)
    net = make(rng, limit + rng.choice([0, 1, 1]))
    if rng.random() < 0.5:
        net.counts = [min(n, most) for n, most in zip(net.lengths(), [64, 512, 2048, 1024])]
    return net


# Damage


def other_state(rng, net, rule):
    others = [i for i, s in enumerate(net.states) if s[0] != rule]
    return rng.choice(others) if others else len(net.states)


def state_of_edge(net, place):
    """The number of the state that has the edge."""
    for number, state in enumerate(net.states):
        place -= state[2]
        if place < 0:
            return number
    return 0


def edge_of(rng, net, kinds):
    fitting = [i for i, e in enumerate(net.edges) if e[0] in kinds]
    return rng.choice(fitting) if fitting else None


def damage_target(rng, net):
    place = rng.randrange(len(net.edges))
    edge = net.edges[place]
    rule = net.states[state_of_edge(net, place)][0]
    edge[1] = rng.choice([edge[1] + 1, edge[1] - 1, -1, len(net.states), other_state(rng, net, rule)])


def damage_edge_kind(rng, net):
    edge = rng.choice(net.edges)
    edge[0] = rng.choice([0, 11, 0, 11, -1, 12, rng.randint(1, 10), rng.randint(1, 10)])


def damage_label(rng, net):
    place = edge_of(rng, net, rng.choice([[RANGE], [RANGE, ATOM]]))
    if place is None:
        return damage_target(rng, net)
    edge = net.edges[place]
    values = [0, -1, -2, net.largest, net.largest + 1, edge[2] + 1, edge[3] + 1, edge[3] - 1, 1]
    if rng.random() < 0.6:
        edge[rng.choice([2, 2, 3])] = rng.choice(values)
    else:
        edge[2] = edge[3] = rng.choice([-1, -1, 0, net.largest, net.largest + 1])


def damage_set(rng, net):
    place = edge_of(rng, net, [SET, NOT_SET])
    if place is None:
        return damage_edge_kind(rng, net)
    edge, count = net.edges[place], len(net.intervals)
    if rng.random() < 0.5:
        edge[2] = rng.choice([-1, edge[2] + 1, edge[2] - 1, count, count + 1, count - 1])
    else:
        edge[3] = rng.choice([0, -1, edge[3] + 1, edge[3] - 1, count - edge[2], count - edge[2] + 1])


def damage_interval(rng, net):
    if not net.intervals:
        return damage_label(rng, net)
    interval = rng.choice(net.intervals)
    low, high = interval
    interval[:] = rng.choice(
        [[high + 1, low], [0, high], [low, net.largest + 1], [low, net.largest], [-1, high], [-1, 0],
         [-2, -1], [-1, -1], [-2, -2], [high, low], [low, 0], [net.largest + 1, net.largest + 1]]
    )


def damage_call(rng, net):
    place = edge_of(rng, net, [CALL])
    if place is None:
        return damage_target(rng, net)
    edge = net.edges[place]
    rule = net.states[state_of_edge(net, place)][0]
    if rng.random() < 0.5:
        other = other_state(rng, net, rule)
        edge[3] = rng.choice([-1, len(net.states), edge[3] + 1, edge[3] - 1, other, other, edge[1]])
    else:
        edge[2] = rng.choice([-1, len(net.rules), edge[2] + 1, edge[2] - 1, rule])


def damage_company(rng, net):
    """A rule edge gets a second edge beside it, which the state's count says."""
    place = edge_of(rng, net, [CALL])
    if place is None:
        return damage_state_edges(rng, net)
    state = net.states[state_of_edge(net, place)]
    state[2] += 1
    stop = net.rules[state[0]][1]
    net.edges.insert(place + rng.randint(0, 1), rng.choice([[EPSILON, stop, 0, 0], list(net.edges[place])]))


def damage_rule(rng, net):
    rule = rng.choice(net.rules)
    place = rng.randrange(2)
    others = [r[place] for r in net.rules] + [rule[1 - place], rule[place] + 1, rule[place] - 1]
    rule[place] = rng.choice(others + [-1, len(net.states)])


def damage_state_rule(rng, net):
    state = rng.choice(net.states)
    state[0] = rng.choice([-1, len(net.rules), state[0] + 1, state[0] - 1, rng.randrange(len(net.rules))])


def inner_state(rng, net):
    """A state that is no start and no stop, if there is one."""
    inner = [i for i, s in enumerate(net.states) if s[1] not in (START, STOP)]
    return rng.choice(inner) if inner else rng.randrange(len(net.states))


def set_edges(net, number, rows):
    """Gives the state these edges in place of its own."""
    first = sum(s[2] for s in net.states[:number])
    net.edges[first : first + net.states[number][2]] = rows
    net.states[number][2] = len(rows)


def damage_state_kind(rng, net):
    state = net.states[inner_state(rng, net)] if rng.random() < 0.8 else rng.choice(net.states)
    state[1] = rng.choice([0, 6, 13, -1, rng.choice(INNER_KINDS)])


def damage_ends(rng, net):
    """A second start or stop, none, or one with edges that the other should have."""
    number = inner_state(rng, net)
    rule = net.states[number][0]
    start, stop = net.rules[rule]
    roll = rng.random()
    if roll < 0.25:
        net.states[number][1] = START
    elif roll < 0.5:
        set_edges(net, number, [])
        net.states[number][1] = STOP
    elif roll < 0.7:
        set_edges(net, stop, [[rng.choice(FREE_EDGES), rng.choice([start, stop, number]), 0, 0]])
    elif roll < 0.85:
        set_edges(net, rng.choice([number, start]), [])
    else:
        net.states[rng.choice([start, stop])][1] = rng.choice(INNER_KINDS)


def damage_state_edges(rng, net):
    """The number of one state's edges, or an edge moved from one state to another."""
    first, second = rng.choice(net.states), rng.choice(net.states)
    change = rng.choice([1, -1, -2, -1 - first[2], 5])
    first[2] += change
    if rng.random() < 0.6:
        second[2] -= change


def damage_rows(rng, net):
    """A row too few or too many at a table's end, or twice in it."""
    tables = [t for t in net.tables() if t]
    table = rng.choice(tables)
    roll = rng.random()
    if roll < 0.4 and len(table) > 1:
        table.pop()
    elif roll < 0.7:
        table.append([rng.randint(-2, 9) for _ in table[0]])
    else:
        table.insert(rng.randrange(len(table)), list(rng.choice(table)))


def damage_counts(rng, net):
    """Counts as they are, too large, too small, or small over more rows than count."""
    net.counts = net.lengths()
    roll = rng.random()
    place = rng.randrange(4)
    if roll < 0.55:
        net.counts[place] += rng.choice([1, 1, 2, 100, 2**31, 2**40])
        if rng.random() < 0.2:
            net.largest = 0
    elif roll < 0.7:
        net.counts[rng.choice([place, 3 if net.intervals else place])] -= 1
    else:
        tables, widths = net.tables(), [2, 3, 4, 2]
        for i in range(4):
            if i == place or rng.random() < 0.4:
                tables[i] += [[rng.randint(-9, 99) for _ in range(widths[i])] for _ in range(rng.randint(1, 3))]


def damage_unused(rng, net):
    """The columns that an edge's kind does not use, or an interval that no edge names: no damage at all."""
    if rng.random() < 0.3:
        net.intervals.append([rng.randint(-9, 9), rng.choice([-3, 0, 256, rng.choice(HUGE)])])
        return
    place = edge_of(rng, net, FREE_EDGES + [WILDCARD, ATOM])
    if place is not None:
        edge = net.edges[place]
        column = 3 if edge[0] == ATOM else rng.choice([2, 3])
        edge[column] = rng.choice([-1, 1, 999, rng.choice(HUGE)])


def damage_number(rng, net):
    """Any number of any row: huge, off by one, or off by what 32 bits would lose."""
    row = rng.choice(rng.choice([t for t in net.tables() if t]))
    place = rng.randrange(len(row))
    row[place] = rng.choice([rng.choice(HUGE), row[place] + 2**32, row[place] - 2**32, row[place] + 1, -row[place]])


def damage_largest(rng, net):
    net.largest = max(1, net.largest - rng.choice([1, 1, 2, 50]))


DAMAGES = {
    damage_target: 3,
    damage_edge_kind: 3,
    damage_label: 4,
    damage_set: 3,
    damage_interval: 3,
    damage_call: 3,
    damage_company: 2,
    damage_rule: 3,
    damage_state_rule: 2,
    damage_state_kind: 4,
    damage_ends: 5,
    damage_state_edges: 3,
    damage_rows: 2,
    damage_counts: 1,
    damage_unused: 2,
    damage_number: 2,
    damage_largest: 1,
}


# what can be done to tables that no longer fit together
SECOND_DAMAGES = [
    damage_target,
    damage_edge_kind,
    damage_label,
    damage_set,
    damage_interval,
    damage_call,
    damage_state_kind,
    damage_unused,
    damage_number,
]


def any_net(rng):
    roll = rng.random()
    if roll < 0.55:
        return grammar_net(rng)
    if roll < 0.75:
        return wild_net(rng, calls=0.15)
    return recursion_net(rng, closed=True)


def damaged_net(rng):
    net = any_net(rng)
    rng.choices(list(DAMAGES), DAMAGES.values())[0](rng, net)
    if net.edges and rng.random() < 0.25:
        rng.choice(SECOND_DAMAGES)(rng, net)
    return net


def counted_net(rng):
    net = any_net(rng)
    damage_counts(rng, net)
    return net


KINDS = [
    (25, any_net),
    (6, wild_net),
    (12, lambda rng: recursion_net(rng, closed=False)),
    (38, damaged_net),
    (11, counted_net),
    (8, limit_net),
]


def random_net(rng):
    makers = [maker for _, maker in KINDS]
    weights = [weight for weight, _ in KINDS]
    return rng.choices(makers, weights)[0](rng)


# As text


def written(rng, number, fancy):
    if fancy and rng.random() < 0.03:
        if number < 0:
            return "-00%d" % -number
        return rng.choice(["+%d", "00%d", "+0%d"]) % number
    return str(number)


def row_lines(rng, net):
    """The lines, the rows of each table in their order; the tables in turn, in any order, or mixed."""
    lines = [["net", net.largest]]
    if net.counts is not None:
        lines.append(["counts"] + net.counts)
    names = ["rule", "state", "edge", "interval"]
    tables = [[[name] + row for row in table] for name, table in zip(names, net.tables())]
    style = rng.random()
    if style < 0.6:
        groups = [lines] + tables
        return [line for group in groups for line in group]
    groups = [[line] for line in lines] + tables
    if style < 0.8:
        rng.shuffle(groups)
        return [line for group in groups for line in group]
    mixed = []
    groups = [group for group in groups if group]
    while groups:
        group = rng.choice(groups)
        mixed.append(group.pop(0))
        groups = [group for group in groups if group]
    return mixed


def malform(rng, lines):
    """One line that no script has."""
    place = rng.randrange(len(lines))
    line = lines[place]
    roll = rng.random()
    if roll < 0.3 and (line[0] != "state" or len(line) != 3):
        line.append(rng.randint(0, 3))
    elif roll < 0.5 and line[0] != "state":
        line.pop()
    elif roll < 0.7:
        line[-1] = rng.choice(["x", "1x", "--1", "1.5", "", "0x10", "9223372036854775808", "-9223372036854775809", "-"])
        if line[-1] == "":
            line[-1] = "#"
    elif roll < 0.9:
        line[0] = rng.choice(["nett", "Rule", "edges", "states", "x", "1", "intervals", "NET"])
    else:
        lines[:] = [line for line in lines if line[0] != "net"]


def text(rng, net, malformed=0.03):
    lines = row_lines(rng, net)
    if rng.random() < 0.05:
        lines.insert(0, ["net", rng.choice([0, 1, 300])])
    fancy = rng.random() < 0.25
    if rng.random() < malformed:
        malform(rng, lines)
    out = []
    for line in lines:
        blank = rng.choice([" ", "  ", "\t"]) if fancy else " "
        words = [word if isinstance(word, str) else written(rng, word, fancy) for word in line]
        out.append((blank if fancy and rng.random() < 0.1 else "") + blank.join(words))
        if fancy and rng.random() < 0.1:
            out.append(rng.choice(["", "  ", "# a comment", "#", "  # net 9", "#state 0 0 0"]))
    return "\n".join(out) + "\n"


def main():
    count, seed = int(sys.argv[1]), int(sys.argv[2])
    rng = random.Random(seed)
    nets = limit_nets(rng) if count >= 50 else []
    texts = [text(rng, net, malformed=0) for net in nets]
    texts += [text(rng, random_net(rng)) for _ in range(count - len(nets))]
    sys.stdout.write("---\n".join(texts))


if __name__ == "__main__":
    main()

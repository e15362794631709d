"""Certificates of small sheets by docs/certificates.md: nets, least sets, and what is right."""
import re
from collections import defaultdict
from itertools import combinations

from slow import NONS, UNITS, fixed


class Net:
    """A net: how many states it has, its final state, and its moves, edges and calls by the state
    that they leave."""

    def __init__(self):
        self.count, self.final = 1, 0
        self.moves, self.edges = defaultdict(list), defaultdict(list)
        self.calls = defaultdict(list)

    def state(self):
        self.count += 1
        return self.count - 1


class Nets:
    """The nets of a side: of the inside of each group, with its left fence, of each rule, and of
    the front and the rest of each cut."""

    def __init__(self, side):
        self.side, self.numbers = side, {}
        rules = [*enumerate(letters for _, letters in side.rules)]
        for rule, letters in rules:
            for place, letter in enumerate(letters):
                if letter in side.fences:
                    self.numbers[rule, place] = len(self.numbers)
        self.groups = []
        for rule, place in self.numbers:
            letters = rules[rule][1]
            inside = self.net(rule, place + 1, side.partner(letters, place))
            self.groups.append((letters[place], inside))
        self.rules = [self.net(rule, 0, len(letters)) for rule, letters in rules]
        self.cuts = {}
        for rule, letters in rules:
            for cut in range(1, len(letters)):
                start, end = side.round(letters, cut)
                self.cuts[rule, cut] = self.net(rule, start, cut), self.net(rule, cut, end)

    def net(self, rule, start, end):
        """Returns the net of a level stretch of a rule."""
        net = Net()
        for place, _ in self.side.parts(self.side.rules[rule][1], start, end):
            net.final = self.block(net, net.final, rule, place)
        return net

    def block(self, net, before, rule, place):
        """Adds the block of an outer item, and returns the state after it."""
        letter = self.side.rules[rule][1][place]
        if letter in self.side.fences:
            first, last = net.state(), net.state()
            net.calls[before].append((self.numbers[rule, place], first))
            net.moves[first].append(last)
            return last
        if letter in NONS:
            return self.component(net, before, NONS.index(letter))
        if letter in UNITS:
            unit = UNITS[letter]
            states = [net.state() for _ in unit.positions]
            after = net.state()
            for state, (symbols, is_first, is_last, _) in zip(states, unit.positions):
                if is_first:
                    net.edges[before].append((symbols, state))
                if is_last:
                    net.moves[state].append(after)
            for state, (_, _, _, leads) in zip(states, unit.positions):
                net.edges[state] += ((unit.positions[other][0], states[other]) for other in leads)
            if unit.is_nullable:
                net.moves[before].append(after)
            return after
        for symbol in fixed(letter):
            after = net.state()
            net.edges[before].append((symbol, after))
            before = after
        return before

    def component(self, net, before, non):
        """Adds the block of a nonterminal, and returns its exit."""
        members = self.side.component(non)
        entries, exits = {}, {}
        for member in members:
            entries[member], exits[member] = net.state(), net.state()
        for rule, (owner, letters) in enumerate(self.side.rules):
            if owner not in members:
                continue
            at = net.state()
            net.moves[entries[owner]].append(at)
            for place, _ in self.side.parts(letters):
                other = NONS.find(letters[place])
                if other in members:
                    net.moves[at].append(entries[other])
                    at = net.state()
                    net.moves[exits[other]].append(at)
                else:
                    at = self.block(net, at, rule, place)
            net.moves[at].append(exits[owner])
        net.moves[before].append(entries[non])
        return exits[non]

    def of_one_fence(self):
        """Yields each two groups of one fence, the smaller first."""
        for number, (left, _) in enumerate(self.groups):
            for other in range(number, len(self.groups)):
                if self.groups[other][0] == left:
                    yield number, other

    def shared(self):
        """Returns the groups of one fence that share a word."""
        shared, more = set(), True
        while more:
            more = False
            for pair in self.of_one_fence():
                m, n = self.nets_of("group", *pair)
                if pair not in shared and (m.final, n.final) in closed(shared, m, n, {(0, 0)}):
                    shared.add(pair)
                    more = True
        return shared

    def heads(self, shared):
        """Returns the first lines of the blocks, where these groups share a word: each a word with
        two numbers."""
        groups = [("group", *pair) for pair in self.of_one_fence() if pair not in shared]
        rules = []
        for (p, (owner, _)), (q, (other, _)) in combinations(enumerate(self.side.rules), 2):
            if owner == other:
                rules.append(("rules", p, q))
        return groups + rules + [("cut", *cut) for cut in self.cuts]

    def nets_of(self, word, first, second):
        """Returns the two nets of a block."""
        if word == "cut":
            return self.cuts[first, second]
        if word == "rules":
            return self.rules[first], self.rules[second]
        return self.groups[first][1], self.groups[second][1]


def drifts(m, n, a, b):
    """Yields the pairs to which empty moves lead from a pair."""
    yield from ((c, b) for c in m.moves[a])
    yield from ((a, d) for d in n.moves[b])


def strides(shared, m, n, a, b):
    """Yields the pairs to which edges of both nets, or calls of both, lead from a pair."""
    for symbols, c in m.edges[a]:
        yield from ((c, d) for others, d in n.edges[b] if {*symbols} & {*others})
    for group, c in m.calls[a]:
        for other, d in n.calls[b]:
            if (min(group, other), max(group, other)) in shared:
                yield c, d


def reached(pairs, leads):
    """Returns the pairs and all to which they lead."""
    found, waiting = set(), [*pairs]
    while waiting:
        pair = waiting.pop()
        if pair not in found:
            found.add(pair)
            waiting += leads(*pair)
    return found


def closed(shared, m, n, pairs):
    """Returns the least closed set that has the pairs."""
    return reached(pairs, lambda a, b: [*drifts(m, n, a, b), *strides(shared, m, n, a, b)])


def sets_of_cut(shared, front, rest):
    """Returns the least sets of a cut, in the order in which they are written."""
    fronts = closed(shared, front, front, {(0, 0)})
    begun = {(b, 0) for a, b in fronts if a == front.final}
    pauses = reached(begun, lambda a, b: drifts(front, rest, a, b))
    begun = {pair for it in pauses for pair in strides(shared, front, rest, *it)}
    middles = closed(shared, front, rest, begun)
    rests = closed(shared, rest, rest, {(0, r) for b, r in middles if b == front.final})
    return {1: fronts, 0: pauses, 2: middles, 3: rests}


def rows(pairs):
    """Returns the lines of a set."""
    partners = defaultdict(list)
    for a, b in sorted(pairs):
        partners[a].append(b)
    return [" ".join(map(str, (a, *others))) for a, others in sorted(partners.items())]


def certificate(sides):
    """Returns the certificate of the least sets of both sides, by their nets."""
    lines = ["xsugar-cert-1"]
    for name, nets in zip(("text", "xml"), sides):
        shared = nets.shared()
        lines += [f"side {name}", *(f"shared {first} {second}" for first, second in sorted(shared))]
        for head in nets.heads(shared):
            lines.append(" ".join(map(str, head)))
            m, n = nets.nets_of(*head)
            if head[0] == "cut":
                for number, pairs in sets_of_cut(shared, m, n).items():
                    lines += [f"set {number}", *rows(pairs)]
            else:
                lines += rows(closed(shared, m, n, {(0, 0)}))
    return "\n".join([*lines, "end", ""]).encode()


LINE = re.compile(rb"(shared |group |rules |cut |set |)((?:0|[1-9][0-9]*)(?: (?:0|[1-9][0-9]*))*)")


def read(line):
    """Returns the word of a line, empty in a row, and its numbers; or its whole text alone, where
    it has no numbers, or not as it should."""
    found = LINE.fullmatch(line)
    numbers = [*map(int, found[2].split())] if found else [2**32]
    return (found[1].decode().strip(), *numbers) if max(numbers) < 2**32 else (line,)


def pairs_of(lines, high, wide):
    """Returns the pairs of rows, of states below `high` with partners below `wide`, or None where
    these are no rows of a set."""
    pairs, least = set(), 0
    for word, *numbers in lines:
        if word != "" or len(numbers) < 2:
            return None
        state, *partners = numbers
        if not least <= state < high or partners != sorted({*partners}) or partners[-1] >= wide:
            return None
        least = state + 1
        pairs |= {(state, partner) for partner in partners}
    return pairs


def end_of(lines, at, words):
    """Returns the place after a line and those after it that begin with one of the words."""
    places = range(at + 1, len(lines))
    return next((place for place in places if lines[place][0] not in words), len(lines))


def is_closed(shared, m, n, pairs):
    return all({*drifts(m, n, *it), *strides(shared, m, n, *it)} <= pairs for it in pairs)


def is_apart(shared, m, n, lines):
    """Returns whether the lines are a set that shows that two nets share no word."""
    pairs = pairs_of(lines, m.count, n.count) or set()
    has_ends = (0, 0) in pairs and (m.final, n.final) not in pairs
    return has_ends and is_closed(shared, m, n, pairs)


def is_clear(shared, front, rest, lines):
    """Returns whether the lines are four sets that show that a front and a rest do not overlap."""
    sets, at = [], 0
    for number, m, n in ((1, front, front), (0, front, rest), (2, front, rest), (3, rest, rest)):
        if lines[at : at + 1] != [("set", number)]:
            return False
        end = end_of(lines, at, [""])
        sets.append(pairs_of(lines[at + 1 : end], m.count, n.count))
        at = end
    if at < len(lines) or None in sets:
        return False
    fronts, pauses, middles, rests = sets
    return (
        (0, 0) in fronts
        and is_closed(shared, front, front, fronts)
        and {(b, 0) for a, b in fronts if a == front.final} <= pauses
        and all({*drifts(front, rest, *it)} <= pauses for it in pauses)
        and all({*strides(shared, front, rest, *it)} <= middles for it in pauses)
        and is_closed(shared, front, rest, middles)
        and {(0, r) for b, r in middles if b == front.final} <= rests
        and is_closed(shared, rest, rest, rests)
        and (rest.final, rest.final) not in rests
    )


class Tester:
    """What is right of bytes as a certificate of a sheet, by the nets of its sides."""

    def __init__(self, sides):
        self.sides, self.known = sides, {}

    def is_block(self, nets, shared, head, lines):
        """Returns whether the lines are a block of the two nets of its head, and right."""
        key = (id(nets), frozenset(shared), head, *lines)
        if key not in self.known:
            is_right = is_clear if head[0] == "cut" else is_apart
            self.known[key] = lines[0] == head and is_right(shared, *nets.nets_of(*head), lines[1:])
        return self.known[key]

    def bad_line(self, content):
        """Returns the first line after all that is right, from 1, or None where that is all."""
        *ended, rest = content.split(b"\n")
        lines = [read(line) for line in ended]
        at = 0
        for title in (b"xsugar-cert-1", b"side text", b"side xml"):
            if lines[at : at + 1] != [(title,)]:
                return at + 1
            at += 1
            if title.startswith(b"side"):
                nets = self.sides[title == b"side xml"]
                at, is_right = self.half(nets, lines, at)
                if not is_right:
                    return at + 1
        return None if lines[at:] == [(b"end",)] and not rest else at + 1

    def half(self, nets, lines, at):
        """Returns the place after what is right of a side after its first line, which stands before
        a place, and whether that is all of the side."""
        shared, least = set(), (0, 0)
        while at < len(lines) and lines[at][0] == "shared":
            pair = lines[at][1:]
            if pair not in nets.of_one_fence() or pair < least:
                return at, False
            shared.add(pair)
            least = (pair[0], pair[1] + 1)
            at += 1
        for head in nets.heads(shared):
            end, start = end_of(lines, at, ["set", ""]), at
            stops = range(end, start, -1)
            good = (it for it in stops if self.is_block(nets, shared, head, lines[start:it]))
            at = next(good, start)
            if at < end or at == start:
                return at, False
        return at, True

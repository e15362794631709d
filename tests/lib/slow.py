"""Small sheets as letters, and what plain slow programs of the definitions find of them.

A production is a nonterminal, and for each side a string of letters, one for each item. `S`, `T`
and `U` are the nonterminals s, t and u; UNITS has the terminals and ignorables, and WORDS fixed
words; `{`, `}`, `<` and `>` are the tags <e>, </e>, <f> and </f>; and any other letter is the fixed
word of itself. Words are strings of such letters too.
"""
import itertools
import os
import re
import subprocess
import sys
from collections import defaultdict

NONS = "STU"
TAGS = {"{": "<e>", "}": "</e>", "<": "<f>", ">": "</f>"}
TEXT_FENCES = {"(": ")", "[": "]"}
XML_FENCES = {"{": "}", "<": ">"}
WORDS = {"w": "ab", "-": 8192 * "-"}
CAP = 1_000_000


class Unit:
    """A terminal, or an ignorable whose normal spelling is empty: its pattern, and its automaton.

    Each position is a class, whether it is a first one, whether it is a last one, and those that
    may follow.
    """

    def __init__(self, pattern, is_ignorable, is_nullable, *positions):
        self.pattern, self.is_ignorable = pattern, is_ignorable
        self.is_nullable, self.positions = is_nullable, positions
        self.found = {}

    def has(self, word):
        """Returns whether this is a word of the unit, as another engine says."""
        return re.fullmatch(self.pattern, word) is not None

    def words(self, longest):
        """Returns the words up to a length."""
        if longest not in self.found:
            counts = range(longest + 1)
            every = (it for count in counts for it in itertools.product("ab", repeat=count))
            self.found[longest] = {word for word in map("".join, every) if self.has(word)}
        return self.found[longest]


UNITS = {
    "x": Unit("[ab]", False, False, ("ab", True, True, ())),
    "y": Unit("a*", False, True, ("a", True, True, (0,))),
    "z": Unit("(a|b)?", False, True, ("a", True, True, ()), ("b", True, True, ())),
    "q": Unit("a{1,2}", False, False, ("a", True, True, (1,)), ("a", False, True, ())),
    "k": Unit("b*", True, True, ("b", True, True, (0,))),
    "l": Unit("(ab)?", True, True, ("a", True, False, (1,)), ("b", False, True, ())),
}


def fixed(letter):
    """Returns the word of a fixed item."""
    return WORDS.get(letter, letter)


class Side:
    """A side of a sheet: how many nonterminals it has, its rules, each a nonterminal and its
    letters, and its fences."""

    def __init__(self, nons, rules, fences):
        self.nons, self.rules, self.fences = nons, rules, fences
        self.leads = [{non} for non in range(nons)]
        for _ in range(nons):
            for owner, letters in rules:
                for start, _ in self.parts(letters):
                    if letters[start] in NONS:
                        self.leads[owner] |= self.leads[NONS.index(letters[start])]

    def partner(self, letters, place):
        """Returns the place of the fence that closes the one at a place; for another letter its
        own."""
        depth = 0
        for other in range(place, len(letters)):
            depth += letters[other] in self.fences
            depth -= letters[other] in self.fences.values()
            if depth == 0:
                return other
        raise ValueError(letters)

    def parts(self, letters, start=0, end=None):
        """Yields where each outer item and group of a level stretch begins, and where it ends."""
        end = len(letters) if end is None else end
        while start < end:
            after = self.partner(letters, start) + 1
            yield start, after
            start = after

    def round(self, letters, cut):
        """Returns where what stands in the innermost group round a cut begins and ends, or the
        rule."""
        found = 0, len(letters)
        for place, letter in enumerate(letters[:cut]):
            if letter in self.fences and cut <= self.partner(letters, place):
                found = place + 1, self.partner(letters, place)
        return found

    def component(self, non):
        """Returns the nonterminals that derive each other with this one through outer items."""
        return [it for it in range(self.nons) if it in self.leads[non] and non in self.leads[it]]


class Loose:
    """The words that are loose for each nonterminal of a side: of all words up to a length, or of
    the pieces of one word."""

    def __init__(self, side, longest=0, word=None):
        self.side, self.longest, self.pieces = side, longest, None
        if word is not None:
            places = range(len(word) + 1)
            self.pieces = {word[start:end] for start in places for end in places[start:]}
        self.nons, found = None, [set() for _ in range(side.nons)]
        while self.nons != found:
            self.nons = found
            found = [self.walked(non) for non in range(side.nons)]

    def is_kept(self, word):
        return len(word) <= self.longest if self.pieces is None else word in self.pieces

    def read(self, letters, start, end):
        """Returns what is read of an outer item or group."""
        letter = letters[start]
        if letter in NONS:
            return self.nons[NONS.index(letter)]
        if letter in UNITS and self.pieces is None:
            return UNITS[letter].words(self.longest)
        if letter in UNITS:
            return {word for word in self.pieces if UNITS[letter].has(word)}
        found = {fixed(letter)}
        if letter in self.side.fences:
            inside = self.stretch(letters[start + 1 : end - 1])
            found = {letter + word + self.side.fences[letter] for word in inside}
        return {word for word in found if self.is_kept(word)}

    def stretch(self, letters):
        """Returns what is loose for a level stretch."""
        found = {""}
        for part in self.side.parts(letters):
            more = self.read(letters, *part)
            found = {word + it for word in found for it in more if self.is_kept(word + it)}
        return found

    def moves(self, members):
        """Returns for each spot of a component the spots to which it leads, each with what is read
        on the way."""
        moves = defaultdict(list)
        for number, (owner, letters) in enumerate(self.side.rules):
            if owner not in members:
                continue
            moves["in", owner].append(((number, 0), {""}))
            moves[number, len(letters)].append((("out", owner), {""}))
            for start, end in self.side.parts(letters):
                other = NONS.find(letters[start])
                if other in members:
                    moves[number, start].append((("in", other), {""}))
                    moves["out", other].append(((number, end), {""}))
                else:
                    more = self.read(letters, start, end)
                    moves[number, start].append(((number, end), more))
        return moves

    def walked(self, non):
        """Returns what is read on walks from the entry of a nonterminal to its exit."""
        moves = self.moves(self.side.component(non))
        found = defaultdict(set)
        waiting = [(("in", non), "")]
        while waiting:
            spot, word = waiting.pop()
            if word not in found[spot]:
                found[spot].add(word)
                for after, more in moves[spot]:
                    waiting += ((after, word + it) for it in more if self.is_kept(word + it))
        return found["out", non]


def overlap(front, rest):
    """Returns whether there are x, a and y, a not empty, such that x and xa are in the front, y and
    ay in the rest."""
    middles = {word[at:] for word in front for at in range(len(word)) if word[:at] in front}
    ends = ((word[:at], word[at:]) for word in rest for at in range(1, len(word) + 1))
    return any(a in middles and y in rest for a, y in ends)


def first_vertical(loose):
    """Returns the first two rules of one nonterminal that share a word, or None."""
    rules = [(owner, loose.stretch(letters)) for owner, letters in loose.side.rules]
    for (p, (owner, words)), (q, (other, others)) in itertools.combinations(enumerate(rules), 2):
        if owner == other and words & others:
            return p, q
    return None


def first_horizontal(loose):
    """Returns the first rule and cut at which front and rest overlap, or None."""
    for number, (_, letters) in enumerate(loose.side.rules):
        for cut in range(1, len(letters)):
            start, end = loose.side.round(letters, cut)
            if overlap(loose.stretch(letters[start:cut]), loose.stretch(letters[cut:end])):
                return number, cut
    return None


def stretch_weight(side, letters, start, end, members=()):
    """Returns what the outer items and groups of a level stretch weigh, where those of a component
    weigh 1."""
    parts = (part_weight(side, letters[at], members) for at, _ in side.parts(letters, start, end))
    return min(CAP, sum(parts))


def part_weight(side, letter, members):
    if letter in side.fences:
        return 2
    if letter in UNITS:
        return len(UNITS[letter].positions) + 1
    if letter not in NONS:
        return len(fixed(letter))
    non = NONS.index(letter)
    return 1 if non in members else component_weight(side, side.component(non))


def component_weight(side, members):
    bodies = [letters for owner, letters in side.rules if owner in members]
    rules = sum(1 + stretch_weight(side, it, 0, len(it), members) for it in bodies)
    return min(CAP, 2 * len(members) + rules)


def rule_weight(side, letters):
    """Returns 1 more than what the items of a rule weigh, or those inside one of its groups,
    whichever is more."""
    lefts = [at for at, it in enumerate(letters) if it in side.fences]
    stretches = [(0, len(letters)), *((at + 1, side.partner(letters, at)) for at in lefts)]
    return min(CAP, 1 + max(stretch_weight(side, letters, *it) for it in stretches))


def derivations(side, longest, most):
    """Returns for each nonterminal its words up to a length, each with the number of its
    derivations, up to `most`."""

    def joined(some, others):
        found = defaultdict(int)
        for word, count in some.items():
            for other, times in others.items():
                if len(word) + len(other) <= longest:
                    found[word + other] = min(found[word + other] + count * times, most)
        return found

    def read(nons, letter):
        if letter in NONS:
            return nons[NONS.index(letter)]
        words = UNITS[letter].words(longest) if letter in UNITS else [fixed(letter)]
        return dict.fromkeys(words, 1)

    def higher(nons):
        """Returns the same by derivations that are one production higher."""
        sums = [defaultdict(int) for _ in range(side.nons)]
        for owner, letters in side.rules:
            found = {"": 1}
            for letter in letters:
                found = joined(found, read(nons, letter))
            for word, count in found.items():
                sums[owner][word] = min(sums[owner][word] + count, most)
        return sums

    nons, found = None, [{} for _ in range(side.nons)]
    while nons != found:
        nons, found = found, higher(found)
    return nons


def translations(sheet, longest):
    """Returns the texts of a sheet up to a length, each with its XML and with itself in normal
    spelling, where no text of a nonterminal has two derivations."""

    def read(found, letter):
        """Yields the texts of a letter, each with its XML and its normal spelling."""
        if letter in NONS:
            yield from found[NONS.index(letter)].items()
        elif letter in UNITS:
            for word in UNITS[letter].words(longest):
                yield word, ("", "") if UNITS[letter].is_ignorable else (word, word)
        else:
            yield fixed(letter), ("", fixed(letter))

    def joined(found, letters):
        """Returns the texts of letters, each with what is read of each letter."""
        rows = [("", [])]
        for letter in letters:
            both = [(row, it) for row in rows for it in read(found, letter)]
            rows = [(word + more, [*parts, part]) for (word, parts), (more, part) in both]
            rows = [(word, parts) for word, parts in rows if len(word) <= longest]
        return rows

    def spelt(letter, place, parts):
        return parts[place][0] if letter in NONS or letter in UNITS else fixed(letter)

    last, found = None, [{} for _ in range(sheet.nons)]
    while last != found:
        last, found = found, [{} for _ in range(sheet.nons)]
        for owner, text, xml in sheet.productions:
            for word, parts in joined(last, text):
                shown = "".join(spelt(*it, parts) for it in xml)
                found[owner][word] = shown, "".join(normal for _, normal in parts)
    return found[0]


def viable(side, word):
    """Returns how many symbols of a word begin a word of the first nonterminal, where each
    nonterminal has words: by the least sets of pieces that nonterminals derive and begin."""
    places = range(len(word) + 1)
    derived = [{place: set() for place in places} for _ in range(side.nons)]
    begun = [set() for _ in range(side.nons)]

    def ends(letter, start):
        """Returns the places where words of a letter end that begin at a place."""
        if letter in NONS:
            return derived[NONS.index(letter)][start]
        if letter in UNITS:
            return {end for end in places[start:] if UNITS[letter].has(word[start:end])}
        return {start + len(fixed(letter))} if word.startswith(fixed(letter), start) else set()

    def begins(letter, start, end):
        """Returns whether a piece begins a word of a letter."""
        if letter in NONS:
            return (start, end) in begun[NONS.index(letter)]
        words = UNITS[letter].words(len(word) + 2) if letter in UNITS else [fixed(letter)]
        return any(it.startswith(word[start:end]) for it in words)

    def widen(owner, letters, start):
        """Adds what a rule derives and begins from a place on, and returns whether that is more."""
        fresh, reached = {(start, start)}, {start}
        for letter in letters:
            on = {end for at in reached for end in places[at:] if begins(letter, at, end)}
            fresh |= {(start, end) for end in on}
            reached = {end for at in reached for end in ends(letter, at)}
        fresh |= {(start, end) for end in reached}
        is_more = not (fresh <= begun[owner] and reached <= derived[owner][start])
        begun[owner] |= fresh
        derived[owner][start] |= reached
        return is_more

    while any([widen(*rule, start) for rule in side.rules for start in places]):
        pass
    return max(end for start, end in begun[0] if start == 0)


class Sheet:
    """A sheet: its version, whether it names fences, how many nonterminals it has, and its
    productions, each a nonterminal, the letters of its text, and those of its XML, each with the
    place of the item of the text that it is."""

    def __init__(self, version, is_fenced, nons, productions):
        self.version, self.is_fenced = version, is_fenced
        self.nons, self.productions = nons, productions
        texts = [(owner, letters) for owner, letters, _ in productions]
        xmls = [(owner, "".join(letter for letter, _ in xml)) for owner, _, xml in productions]
        self.text = Side(nons, texts, TEXT_FENCES if is_fenced else {})
        self.xml = Side(nons, xmls, XML_FENCES if version == 2 else {})
        self.head = [f"xsugar-{version}", "start s"]
        for name, unit in UNITS.items():
            if unit.is_ignorable:
                self.head.append(f'ignorable {name} = /{unit.pattern}/ ""')
            else:
                self.head.append(f"terminal {name} = /{unit.pattern}/")
        if is_fenced:
            self.head += (f'fence "{left}" "{right}"' for left, right in TEXT_FENCES.items())

    def __str__(self):
        def item(letter, place):
            if letter in TAGS:
                return TAGS[letter]
            if letter in UNITS and UNITS[letter].is_ignorable:
                return f"[{letter}]"
            if letter in NONS or letter in UNITS:
                return f"[{letter.lower()} {chr(ord('a') + place)}]"
            return f'"{fixed(letter)}"'

        lines = [*self.head]
        for owner, text, xml in self.productions:
            items = " ".join(item(letter, place) for place, letter in enumerate(text))
            others = " ".join(item(*it) for it in xml)
            lines.append(f"{NONS[owner].lower()} : {items} = {others}")
        return "\n".join(lines) + "\n"

    def number(self, line):
        """Returns the number of the production on a line."""
        return line - len(self.head) - 1


def element(text, tag="{", is_bare=False, has_words=True):
    """Returns the XML of a text: its items but for ignorables, with or without the fixed words, in
    an element or bare."""
    items = [(letter, place) for place, letter in enumerate(text) if letter not in "kl"]
    items = [it for it in items if has_words or it[0] in NONS or it[0] in UNITS]
    return items if is_bare else [(tag, 0), *items, (XML_FENCES[tag], 0)]


def letters_of(shown):
    """Returns the word that is shown between the quotes of a line."""
    letters = {tag: letter for letter, tag in TAGS.items()}
    return "".join(letters.get(it, it) for it in re.findall("</?[ef]>|.", shown))


class Draws:
    """Numbers drawn by a linear congruential generator."""

    def __init__(self, seed):
        self.state = seed * 2654435761 % 2**32

    def below(self, count):
        self.state = (self.state * 1103515245 + 12345) % 2**32
        return (self.state >> 16) % count

    def one_of(self, choices):
        return choices[self.below(len(choices))]


def drawn_letters(draws, nons, is_fenced):
    """Returns up to four letters of a text, one in three of them of a nonterminal where there are
    some, and those that close fences."""
    letters = unclosed = ""
    for _ in range(draws.below(5)):
        if is_fenced and draws.below(4) == 0:
            left = draws.one_of("([")
            letters += left
            unclosed = TEXT_FENCES[left] + unclosed
        elif nons and draws.below(3) == 0:
            letters += NONS[draws.below(nons)]
        else:
            letters += draws.one_of("aabbccwxyzk")
        if draws.below(4) == 0:
            letters += unclosed[:1]
            unclosed = unclosed[1:]
    return letters + unclosed


def drawn_sheet(draws, most_nons):
    """Returns a sheet with up to three productions of each nonterminal, of which most often the
    last has no nonterminal. The XML of each is its items, or those that are no fixed words, in an
    element, or bare where it is not of the start."""
    nons = draws.below(most_nons) + 1
    is_fenced = draws.below(4) > 0
    version = 2 if is_fenced or draws.below(2) else 1
    productions = []
    for non in range(nons):
        last = nons if draws.below(8) == 0 else 0
        for used in [nons] * draws.below(3) + [last]:
            text = drawn_letters(draws, used, is_fenced)
            is_bare = non > 0 and draws.below(3) == 0
            xml = element(text, draws.one_of("{<"), is_bare, draws.below(2) == 0)
            productions.append((non, text, xml))
    return Sheet(version, is_fenced, nons, productions)


class Program:
    """The built program, or the one that XSUGAR_PROGRAM names, which runs in a folder, and how many
    checks passed and failed."""

    def __init__(self, room):
        built = f"{os.path.dirname(__file__)}/../../crates/xsugar/out/xsugar"
        self.path = os.path.realpath(os.environ.get("XSUGAR_PROGRAM", built))
        self.room, self.passed, self.failed = room, 0, 0
        if not os.access(self.path, os.X_OK):
            sys.exit("build the program first: cd crates/xsugar && rt run")

    def keep(self, name, content):
        """Keeps a file for the program."""
        with open(f"{self.room}/{name}", "wb") as it:
            it.write(content if isinstance(content, bytes) else content.encode())

    def run(self, *words, document=""):
        """Returns the status of a run, what it wrote and what it reported."""
        words = [self.path, *words]
        ended = subprocess.run(words, input=document.encode(), capture_output=True, cwd=self.room)
        return ended.returncode, ended.stdout.decode(), ended.stderr.decode()

    def is_so(self, whether, *told):
        """Counts a check, and tells of one that fails."""
        self.passed += bool(whether)
        self.failed += not whether
        if not whether and self.failed <= 20:
            print("failed:", *told, sep="\n")

    def counted(self):
        """Tells how many checks passed, and returns whether one failed."""
        print(f"{self.passed} passed, {self.failed} failed")
        return self.failed > 0

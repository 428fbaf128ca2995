"""Trees: what a search writes where it finds no waves, and the verdict on such a text, of versions 1, 2 and 3."""

import re

from forwarding import OLD, round_of
from order_files import change_of, entry_of
from words import address, address_text, lines_of, single_words

# In the order in which they are told of one line, counted from 1.
KINDS = ("Form", "Router", "Address", "Originator", "Step", "OneSided", "NotAssumed")


def tree_text(head, nodes, network, word):
    """The text of a tree: `word` writes an item of a leaf."""
    lines = [head]
    for kind, *what in nodes:
        if kind == "branch":
            turns = " ".join(f"{network.names[router]}:{tag}" for router, tag in what[0].turns)
            lines.append(f"branch {address_text(what[0].address)} {turns}")
        elif kind == "leaf":
            lines.append("leaf " + " ".join(map(word, what[0])))
        else:
            lines.append("open")
    return "".join(line + "\n" for line in lines)


class Wrong(Exception):
    """A line of a tree that doesn't hold, with the kind of it."""

    def __init__(self, line, kind):
        super().__init__(line, kind)
        self.line, self.kind = line, kind


def verdict(mixed, text, versions=(1, 2, 3)):
    """What is said of a tree of one of some versions, and the code."""
    try:
        judge = Judge(mixed, lines_of(text), versions)
        judge.judge()
    except Wrong as wrong:
        return f"wrong {wrong.line} {KINDS.index(wrong.kind) + 1} {wrong.kind}\n", 1
    if judge.opens:
        return f"open {judge.opens}\n", 1
    return f"closed {judge.branches} {judge.leaves}\n", 0


class Judge:
    """Judges a tree line by line. A place is (pair, place above), None at the top; `places` are those that are left to fill."""

    def __init__(self, mixed, lines, versions):
        self.mixed, self.network, self.lines = mixed, mixed.network, lines
        self.heads = [f"tree {version}" for version in versions]
        self.at = 0
        self.start, self.columns, self.places = [OLD] * mixed.size, {}, [None]
        self.branches = self.leaves = self.opens = 0

    def hold(self, holds, kind):
        """The line that was taken last has to keep this."""
        if not holds:
            raise Wrong(self.at, kind)

    def take(self):
        """The next line; behind the last one there is none, and that is its fault."""
        self.at += 1
        self.hold(self.at <= len(self.lines), "Form")
        return self.lines[self.at - 1]

    def judge(self):
        self.hold_head()
        while self.places:
            place = self.places.pop()
            line = self.take()
            words = single_words(line)
            if line == "open":
                self.opens += 1
                continue
            self.hold("" not in words, "Form")
            if words[0] == "branch" and len(words) >= 4:
                self.hold_branch(place, words[1], words[2:])
            else:
                self.hold(words[0] == "leaf" and len(words) >= 3, "Form")
                self.hold_leaf(place, words[1:])
        if self.at < len(self.lines):
            raise Wrong(self.at + 1, "Form")

    def hold_head(self):
        """The header, and in version 3 the line of the phases at the start."""
        self.at = 1
        self.hold(self.lines[:1] in [[head] for head in self.heads], "Form")
        self.version = int(self.lines[0][-1])
        self.base = {(2 * router, 2 * router + 1) for router in range(self.mixed.size)} if self.version == 2 else set()
        if self.version != 3:
            return
        words = single_words(self.take())
        entries = [entry_of(word) for word in words[1:]]
        self.hold(words[0] == "start" and None not in entries, "Form")
        names, routers = self.routers_of(entries)
        self.hold(routers == sorted(routers), "Form")
        self.hold(len(routers) == len(names) == len(set(names)), "Router")
        for router, (_, count) in zip(routers, entries):
            self.start[router] = count

    def routers_of(self, entries):
        """The names of entries, and the numbers of those that are of routers."""
        names = [name for name, _ in entries]
        return names, [self.network.number[name] for name in names if name in self.network.number]

    def hold_branch(self, place, address_word, words):
        """A loop of the network: each router steps to the next by its tag, and some are old alone, some new alone."""
        where = address(address_word)
        self.hold(where is not None, "Form")
        entries = [self.turn_of(word) for word in words]
        self.hold(None not in entries, "Form")
        names, routers = self.routers_of(entries)
        self.hold(len(routers) == len(names) == len(set(names)), "Router")
        if where not in self.columns:
            self.columns[where] = self.mixed.column(where)
        column = self.columns[where]
        self.hold(column is not None, "Address")
        self.hold(not column.originators & set(routers), "Originator")
        tags = [tag for _, tag in entries]
        self.hold(tags == [column.tag(*step, self.start) for step in round_of(routers)], "Step")
        turns = list(zip(routers, tags))
        item = column.switch if self.version == 2 else int
        pairs = [(item(old), item(new)) for old, tag in turns if tag == "O" for new, other in turns if other == "N"]
        self.hold(pairs, "OneSided")
        self.branches += 1
        self.places += [(pair, place) for pair in reversed(pairs)]

    def turn_of(self, word):
        """A name and a tag behind its last colon."""
        name, _, tag = word.rpartition(":")
        return (name, tag) if name and re.fullmatch("[ONB]", tag) else None

    def hold_leaf(self, place, words):
        """A cycle of pairs that are assumed at its place."""
        if self.version == 2:
            entries = [entry_of(word) for word in words]
            self.hold(None not in entries, "Form")
            items = [change_of(self.network, entry) for entry in entries]
        else:
            items = [self.network.number.get(name) for name in words]
        self.hold(None not in items and len(set(items)) == len(items), "Router")
        assumed = set(self.base)
        while place is not None:
            pair, place = place
            assumed.add(pair)
        self.hold(assumed.issuperset(round_of(items)), "NotAssumed")
        self.leaves += 1

"""Order files of versions 1, 2 and 3, and journals of what was done."""

from words import Refused, lines_of, single_words

# In the order in which they are told of one line.
KINDS_OF_WAVES = ("NotInNetwork", "Twice")
KINDS_OF_CHANGES = ("Form", "NotInNetwork", "Twice", "Early")


def entry_of(word):
    """A name and the number of a change behind its last colon, None where a word has no such form."""
    name, _, change = word.rpartition(":")
    return (name, int(change)) if name and change in ("1", "2") else None


def change_of(network, entry):
    """The change of an entry by number, None where its name is that of no router."""
    router = network.number.get(entry[0])
    return None if router is None else 2 * router + entry[1] - 1


class OrderReader:
    """Reads the lines of an order file; its least faulty line is refused."""

    def __init__(self, order, network):
        self.file, self.network, self.lines = order[0], network, lines_of(order[1])
        self.rank_of, self.waves, self.has_chain = {}, [], False

    def refuse(self, line, kind):
        raise Refused(f"refused {self.file} {line} {kind}\n")

    def refuse_first(self, line, kinds, found):
        """Refuses a line for the first of the kinds that are found."""
        for kind in kinds:
            if found[kind]:
                self.refuse(line, kind)

    def ranks(self, items):
        """The wave of each item, where none is missing."""
        if len(self.rank_of) < len(items):
            self.refuse(len(self.lines) + 1, "Missing")
        return [self.rank_of[item] for item in items]

    def add_wave(self, items):
        self.rank_of |= {item: len(self.waves) for item in items}
        self.waves.append(items)

    def is_chain(self, items):
        return len(items) == len(self.waves) and all(item in wave for item, wave in zip(items, self.waves))

    def read_routers(self):
        """Version 1: the name of a router on each line."""
        for line, name in enumerate(self.lines[1:], 2):
            self.refuse_first(line, KINDS_OF_WAVES, {"NotInNetwork": name not in self.network.number,
                                                     "Twice": name in self.rank_of})
            self.add_wave([name])
        return self.ranks(self.network.names)

    def read_waves(self):
        """Version 2: the routers of a wave on each line, and a chain behind all."""
        for line, text in enumerate(self.lines[1:], 2):
            words = single_words(text)
            names = words[1:]
            if self.has_chain or not names or words[0] not in ("wave", "chain") or "" in words:
                self.refuse(line, "Wave")
            if words[0] == "wave":
                self.refuse_first(line, KINDS_OF_WAVES, {"NotInNetwork": any(name not in self.network.number for name in names),
                                                         "Twice": self.is_again(names)})
                self.add_wave(names)
            else:
                self.has_chain = True
                if not self.is_chain(names):
                    self.refuse(line, "Chain")
        return self.ranks(self.network.names)

    def is_again(self, items):
        return len(set(items)) < len(items) or any(item in self.rank_of for item in items)

    def read_changes(self):
        """Version 3: the changes of a wave on each line, by the numbers of their routers, and a chain behind all."""
        for line, text in enumerate(self.lines[1:], 2):
            words = single_words(text)
            entries = [entry_of(word) for word in words[1:]]
            if self.has_chain or not entries or words[0] not in ("wave", "chain") or None in entries:
                self.refuse(line, "Form")
            changes = [change_of(self.network, entry) for entry in entries]
            if words[0] == "wave":
                known = [change for change in changes if change is not None]
                is_early = any(change % 2 == 1 and change - 1 not in self.rank_of for change in known)
                self.refuse_first(line, KINDS_OF_CHANGES, {"Form": known != sorted(known), "NotInNetwork": None in changes,
                                                           "Twice": self.is_again(changes), "Early": is_early})
                self.add_wave(changes)
            else:
                self.has_chain = True
                if not self.is_chain(changes):
                    self.refuse(line, "Form")
        return self.ranks(range(2 * self.network.size))


def read_order(order, network):
    """The version of an order file, (name, text), 1 or 2, and the rank of each router."""
    reader = OrderReader(order, network)
    lines = reader.lines
    if lines[:1] == ["order 1"]:
        return 1, reader.read_routers()
    if lines[:1] == ["order 2"]:
        return 2, reader.read_waves()
    return reader.refuse(1, "Header")


def is_of_changes(text):
    return lines_of(text)[:1] == ["order 3"]


def read_changes(order, network):
    """The rank of each change of an order file of version 3."""
    return OrderReader(order, network).read_changes()


def flat_run(ranks):
    """The routers wave by wave, in a wave by number."""
    return sorted(range(len(ranks)), key=lambda router: (ranks[router], router))


class Departs(Exception):
    """A journal that an order doesn't allow, at this line."""

    def __init__(self, line):
        super().__init__(line)
        self.line = line


class Journal:
    """The changes that were made, as (router, 0 or 1), in their order, and how many each router has made."""

    def __init__(self, network, ranks, text):
        self.ranks, self.made, self.told = ranks, [0] * network.size, []
        lines = lines_of(text)
        if lines[:1] != ["journal 1"]:
            raise Departs(1)
        changes = {f"{name} {half + 1}": (router, half) for name, router in network.number.items() for half in (0, 1)}
        for line, text_of_line in enumerate(lines[1:], 2):
            if text_of_line not in changes or not self.may_be_next(*changes[text_of_line]):
                raise Departs(line)
            router, half = changes[text_of_line]
            self.made[router] += 1
            self.told.append((router, half))

    def may_be_next(self, router, half):
        """A first change is of the first wave that isn't done, a second one behind the first of its router."""
        return self.made[router] == half and (half == 1 or self.ranks[router] == self.wave())

    def wave(self):
        """The first wave that isn't done, None where all are."""
        return min((rank for rank, made in zip(self.ranks, self.made) if made < 2), default=None)

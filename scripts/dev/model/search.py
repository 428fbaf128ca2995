"""The search for waves: assumed pairs give each item its earliest wave, and a loop that is left is branched on.

An item is a router, or with two passes one of the changes of a router: twice its number, and one more for the second.
"""

from forwarding import OLD, change_times, router_times


class Routers:
    """What is asked where both changes of a router are in one wave. `start` has the phases that routers are in already."""

    order, tree = "order 2", "tree 1"

    def __init__(self, mixed, start=None):
        self.mixed, self.start = mixed, start
        self.size, self.base = mixed.size, []

    def ask(self, ranks):
        """The loop that arises in these waves with its turns by items, None where they are good."""
        fault = self.mixed.times_fault(self.start, router_times(self.start or [OLD] * self.size, ranks))
        return None if fault is None else (fault[1], fault[1].turns)

    def word(self, item):
        return self.mixed.network.names[item]


class Changes:
    """What is asked where each change is in a wave of its own, the first one of a router before its second."""

    order, tree = "order 3", "tree 2"

    def __init__(self, mixed):
        self.mixed = mixed
        self.size, self.base = 2 * mixed.size, [(2 * router, 2 * router + 1) for router in range(mixed.size)]

    def ask(self, ranks):
        fault = self.mixed.times_fault(None, change_times(ranks))
        if fault is None:
            return None
        column = self.mixed.column(fault[1].address)
        return fault[1], [(column.switch(router), tag) for router, tag in fault[1].turns]

    def word(self, item):
        return f"{self.mixed.network.names[item // 2]}:{item % 2 + 1}"


def layers(size, pairs):
    """The earliest wave of each item, behind all that are assumed before it."""
    before = [[] for _ in range(size)]
    for first, second in pairs:
        before[second].append(first)
    found = [None] * size
    for item in range(size):
        todo = [item]
        while todo:
            last = todo[-1]
            left = [each for each in before[last] if found[each] is None]
            todo += left
            if not left:
                todo.pop()
                found[last] = max((found[each] + 1 for each in before[last]), default=0)
    return found


def chain_of(size, pairs):
    """An item of each layer, each assumed before the next: from the lowest of the last layer back, each time by the lowest."""
    found = layers(size, pairs)
    chain = [found.index(max(found))]
    while found[chain[-1]]:
        chain.append(min(first for first, second in pairs if second == chain[-1] and found[first] == found[second] - 1))
    return chain[::-1]


def leads(pairs, first, last):
    """Whether pairs lead from one item to another, or they are the same."""
    seen, todo = {first}, [first]
    while todo:
        item = todo.pop()
        new = {second for before, second in pairs if before == item} - seen
        seen |= new
        todo += new
    return last in seen


def cycle_of(pairs, first, second):
    """The cycle that a pair closes: each time the lowest item after the last one that is the first or leads to it."""
    cycle = [first, second]
    while True:
        item = min(after for before, after in pairs if before == cycle[-1] and leads(pairs, after, first))
        if item == first:
            return cycle
        cycle.append(item)


class Search:
    """A search with a budget of branches. `nodes` is its tree: ("branch", loop), ("leaf", cycle) and ("open",)."""

    def __init__(self, oracle, budget):
        self.oracle, self.budget = oracle, budget
        self.pairs, self.nodes = list(oracle.base), []
        self.branches, self.is_spent = 0, False

    def find(self):
        """Waves as (ranks, chain), or None: then the tree says why, or the budget is spent."""
        ranks = layers(self.oracle.size, self.pairs)
        picked = self.oracle.ask(ranks)
        if picked is None:
            return ranks, chain_of(self.oracle.size, self.pairs)
        if self.branches == self.budget:
            self.is_spent = True
            self.nodes.append(("open",))
            return None
        self.branches += 1
        loop, turns = picked
        self.nodes.append(("branch", loop))
        for pair in [(old, new) for old, tag in turns if tag == "O" for new, other in turns if other == "N"]:
            found = self.assume(*pair)
            if found:
                return found
        return None

    def assume(self, first, second):
        """The search below a pair more, a leaf where it closes a cycle."""
        if self.is_spent:
            self.nodes.append(("open",))
        elif leads(self.pairs, second, first):
            self.nodes.append(("leaf", cycle_of(self.pairs, first, second)))
        else:
            self.pairs.append((first, second))
            found = self.find()
            self.pairs.pop()
            return found
        return None

"""Forwarding while routers change, each by itself, from one set of tables to another; what is wrong with states on the way.

A router is OLD, MIDDLE behind its first change, NEW behind its second. In each phase it uses the entry of the longest match, and
of two entries for one prefix that with the lower administrative distance.
"""

from networks import connected, range_prefixes, up
from words import base_of

OLD, MIDDLE, NEW = 0, 1, 2
CONNECTED = "connected"
CONNECTED_DISTANCE, NEW_DISTANCE, UNUSED_DISTANCE = 0, 115, 255
NOWHERE = frozenset()


class Missing:
    """A fault: a router that has to pass packets to an address on has no step."""

    def __init__(self, address, router):
        self.address, self.router = address, router


class Loop:
    """A fault: steps to an address that return, from the lowest-numbered router on, as turns (router, tag)."""

    def __init__(self, address, turns):
        self.address, self.turns = address, turns


class Column:
    """An address, the least of its class: the routers that originate its target, and the steps of all in each phase."""

    def __init__(self, address, originators, steps):
        self.address, self.originators, self.steps = address, originators, steps

    def tag(self, router, neighbor, start):
        """By which phase a router steps to a neighbor, from its phase at the start on: old O, new N, both B; None by neither."""
        first = OLD if start is None else start[router]
        is_old, is_new = neighbor in self.steps[first][router], neighbor in self.steps[NEW][router]
        return "B" if is_old and is_new else "O" if is_old else "N" if is_new else None

    def switch(self, router):
        """The change, from 0 over all routers, at which a router switches: its first where it steps as NEW behind it."""
        return 2 * router + (self.steps[MIDDLE][router] != self.steps[NEW][router])


class Mixed:
    """A network with the tables before and after, and a column for each class of addresses that is forwarded differently."""

    def __init__(self, network, old, new):
        self.network, self.old, self.new = network, old, new
        self.size, configurations = network.size, network.configurations
        self.connected = [connected(each) for each in configurations]
        self.targets = {interface.subnet for each in configurations for interface in up(each)
                        if interface.area is not None or interface.levels}
        self.distances = [each.ospf_distance if each.process is not None else 110 for each in configurations]
        prefixes = set().union(*self.connected, *old, *new, *map(range_prefixes, configurations))
        self.lengths = sorted({length for _, length in prefixes}, reverse=True)
        self.columns = self.distinct_columns(prefixes)

    def distinct_columns(self, prefixes):
        """A column for each way of forwarding, at its least address: it changes only where a prefix begins or ends."""
        ends = {base + (1 << 32 - length) for base, length in prefixes}
        found = {}
        for address in sorted({0} | {base for base, _ in prefixes} | {end for end in ends if end < 1 << 32}):
            column = self.column(address)
            if column is not None:
                found.setdefault((column.originators, tuple(map(tuple, column.steps))), column)
        return list(found.values())

    def column(self, address):
        """The column of any address, None where it has no target."""
        prefixes = [(base_of(address, length), length) for length in self.lengths]
        target = next((prefix for prefix in prefixes if prefix in self.targets), None)
        if target is None:
            return None
        originators = frozenset(router for router in range(self.size) if target in self.connected[router])
        steps = [[NOWHERE if router in originators else self.step(router, phase, prefixes) for router in range(self.size)]
                 for phase in (OLD, MIDDLE, NEW)]
        return Column(address, originators, steps)

    def step(self, router, phase, prefixes):
        """The hops of the entry that a router uses in a phase; none where it has no entry or its entry leads to no neighbor."""
        distance = self.distances[router]
        for prefix in prefixes:
            entries = [(CONNECTED_DISTANCE, CONNECTED)] if prefix in self.connected[router] else []
            if phase != NEW and distance != UNUSED_DISTANCE and prefix in self.old[router]:
                entries.append((distance, self.old[router][prefix]))
            if phase != OLD and prefix in self.new[router]:
                entries.append((NEW_DISTANCE, self.new[router][prefix]))
            if entries:
                used = min(entries, key=lambda entry: entry[0])[1]
                return used if isinstance(used, frozenset) else NOWHERE
        return NOWHERE

    def fault(self, spans, start=None):
        """The fault of the states in which each router has one of the phases of its span: of the least address that has one."""
        return next((fault for column in self.columns if (fault := column_fault(column, spans, start))), None)

    def state_fault(self, phases, start=None):
        return self.fault([(phase,) for phase in phases], start)

    def order_fault(self, order):
        """The number of changes behind which the first state with a fault is, where each router makes both after another."""
        phases, made = [OLD] * self.size, 0
        fault = self.state_fault(phases)
        for router in order:
            for phase in (MIDDLE, NEW):
                if fault is None:
                    phases[router], made = phase, made + 1
                    fault = self.state_fault(phases)
        return None if fault is None else (made, fault)

    def times_fault(self, start, times):
        """The first wave with a fault, where `times` has for each router the waves of its two changes, 0 for one made before."""
        last = max(max(both) for both in times)
        for wave in range(1, max(last, 1) + 1):
            spans = [tuple(range(phase_before(wave, both), phase_before(wave + 1, both) + 1)) for both in times]
            fault = self.fault(spans, start)
            if fault:
                return wave, fault
        return None


def phase_before(wave, times):
    first, second = times
    return NEW if second < wave else MIDDLE if first < wave else OLD


def flat_phases(order, made):
    """The phases behind so many changes, where each router makes both after another."""
    phases = [OLD] * len(order)
    for place, router in enumerate(order):
        phases[router] = min(NEW, max(OLD, made - 2 * place))
    return phases


def router_times(start, ranks):
    """The waves of the changes where each router makes those that are left in the wave of its rank."""
    return [(0 if phase >= MIDDLE else rank + 1, 0 if phase == NEW else rank + 1) for phase, rank in zip(start, ranks)]


def change_times(ranks):
    """The waves of the changes, each by a rank of its own."""
    return [(ranks[place] + 1, ranks[place + 1] + 1) for place in range(0, len(ranks), 2)]


def column_fault(column, spans, start):
    """The fault at an address: the lowest-numbered router without a step in a phase of its span, else a loop over all steps."""
    hops = []
    for router, span in enumerate(spans):
        if router not in column.originators and any(not column.steps[phase][router] for phase in span):
            return Missing(column.address, router)
        hops.append(frozenset().union(*(column.steps[phase][router] for phase in span)))
    ring = least_ring(hops)
    if ring is None:
        return None
    return Loop(column.address, [(router, column.tag(router, neighbor, start)) for router, neighbor in round_of(ring)])


def round_of(ring):
    """Each element of a ring with the next one."""
    return list(zip(ring, ring[1:] + ring[:1]))


def live_routers(hops):
    """The routers from which steps lead on for ever."""
    before, left = [[] for _ in hops], [len(each) for each in hops]
    for router, each in enumerate(hops):
        for hop in each:
            before[hop].append(router)
    done = [router for router, count in enumerate(left) if count == 0]
    for router in done:
        for other in before[router]:
            left[other] -= 1
            if left[other] == 0:
                done.append(other)
    return set(range(len(hops))) - set(done)


def least_ring(hops):
    """From the lowest live router by the lowest live hop each time, until one returns; from its lowest router on."""
    live = live_routers(hops)
    if not live:
        return None
    path, router = [], min(live)
    while router not in path:
        path.append(router)
        router = min(hops[router] & live)
    ring = path[path.index(router):]
    least = ring.index(min(ring))
    return ring[least:] + ring[:least]

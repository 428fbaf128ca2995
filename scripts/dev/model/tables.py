"""The route tables of OSPF (RFC 2328, section 16) and IS-IS (RFC 1195, RFC 5302): for each router its hops to each prefix.

A table has no prefix that is connected. Hops are a set of neighbors by number, or DISCARD for an active range of a border router.
"""

import heapq

from networks import connected, up
from words import base_of

DISCARD = "discard"
DEFAULT = (0, 0)


def walks(size, arcs):
    """For each root the least costs to all vertices that it reaches, and the first hops of all walks that attain them."""
    found = []
    for root in range(size):
        costs, hops, done = {root: 0}, {root: frozenset()}, set()
        heap = [(0, root)]
        while heap:
            cost, vertex = heapq.heappop(heap)
            if vertex in done:
                continue
            done.add(vertex)
            for neighbor, arc in arcs[vertex].items():
                first = frozenset([neighbor]) if vertex == root else hops[vertex]
                if neighbor not in costs or cost + arc < costs[neighbor]:
                    costs[neighbor], hops[neighbor] = cost + arc, first
                    heapq.heappush(heap, (cost + arc, neighbor))
                elif cost + arc == costs[neighbor] and neighbor != root:
                    hops[neighbor] |= first
        found.append((costs, hops))
    return found


def adjacencies(network, runs):
    """The arcs of a zone. `runs` gives what two interfaces of one subnet have to share and the cost to send there, or None."""
    there = {}
    for router, configuration in enumerate(network.configurations):
        for interface in up(configuration):
            what = None if interface.is_loopback else runs(configuration, interface)
            if what is not None:
                there.setdefault(interface.subnet, []).append((router, *what))
    arcs = [{} for _ in range(network.size)]
    for ports in there.values():
        for router, shared, cost in ports:
            for neighbor, other, _ in ports:
                if router != neighbor and shared == other:
                    arcs[router][neighbor] = min(cost, arcs[router].get(neighbor, cost))
    return arcs


def best(offers):
    """Of offers (prefix, cost, hops) the least cost of each prefix, with the hops of all that have it."""
    found = {}
    for prefix, cost, hops in offers:
        if prefix not in found or cost < found[prefix][0]:
            found[prefix] = (cost, hops)
        elif cost == found[prefix][0]:
            found[prefix] = (cost, found[prefix][1] | hops)
    return found


def best_behind(walk, announcements, root):
    """The best of what other routers announce, each as {prefix: cost}, over the walks of a root."""
    costs, hops = walk
    return best((prefix, costs[router] + cost, hops[router]) for router, announced in announcements.items()
                if router != root and router in costs for prefix, cost in announced.items())


def add_least(announced, prefix, cost):
    announced[prefix] = min(cost, announced.get(prefix, cost))


def ospf_tables(network):
    return Ospf(network).tables()


class Ospf:
    """What OSPF calculates, in the order of section 16: routes within areas, summaries, routes between areas."""

    def __init__(self, network):
        self.network = network
        self.areas = sorted(set().union(*network.areas))
        self.walks = {area: self.walks_in(area) for area in self.areas}
        self.within = self.routes_within_areas()
        self.borders = [router for router in range(network.size) if network.is_border(router)]
        self.components = {border: self.components_of(border) for border in self.borders}
        self.active = {border: self.active_ranges(border) for border in self.borders}
        into_backbone = {border: self.summaries_of(border, 0) for border in self.borders}
        self.between = {border: self.routes_between(border, 0, into_backbone) for border in self.borders}
        self.summaries = {area: self.summaries_into(area) for area in self.areas if area != 0} | {0: into_backbone}

    def walks_in(self, area):
        def runs(_, interface):
            return (area, interface.cost) if interface.area == area and not interface.is_ospf_passive else None
        return walks(self.network.size, adjacencies(self.network, runs))

    def routes_within_areas(self):
        """For each router and each of its areas the intra-area routes (16.1)."""
        found = [{} for _ in range(self.network.size)]
        for area in self.areas:
            offers = [(interface.subnet, router, interface.cost) for router, each in enumerate(self.network.configurations)
                      for interface in up(each) if interface.area == area]
            for root in range(self.network.size):
                if area in self.network.areas[root]:
                    costs, hops = self.walks[area][root]
                    found[root][area] = best((prefix, costs[router] + cost, hops[router])
                                             for prefix, router, cost in offers if router in costs)
        return found

    def components_of(self, border):
        """For each area its prefixes that a range holds, with the longest such range (12.4.3)."""
        found = {}
        for area, routes in self.within[border].items():
            ranges = [(base, length) for place, base, length, _, _ in self.network.configurations[border].ranges if place == area]
            found[area] = {}
            for base, length in routes:
                holding = [held for held in ranges if length >= held[1] and base_of(base, held[1]) == held[0]]
                if holding:
                    found[area][base, length] = max(holding, key=lambda held: held[1])
        return found

    def active_ranges(self, border):
        """The ranges with components, each with whether it is advertised and its cost."""
        found, configuration = {}, self.network.configurations[border]
        for area, base, length, is_advertised, cost in configuration.ranges:
            costs = [self.within[border][area][prefix][0] for prefix, held in self.components[border].get(area, {}).items()
                     if held == (base, length)]
            if costs:
                of_components = min(costs) if configuration.rfc1583 else max(costs)
                found[area, (base, length)] = (is_advertised, cost if cost is not None else of_components)
        return found

    def summaries_of(self, border, into):
        """What a border router announces of its intra-area routes into an area: ranges in place of their components."""
        announced = {}
        for area, routes in self.within[border].items():
            if area != into:
                for prefix, (cost, _) in routes.items():
                    if prefix not in self.components[border][area]:
                        add_least(announced, prefix, cost)
        for (area, prefix), (is_advertised, cost) in self.active[border].items():
            if area != into and is_advertised:
                add_least(announced, prefix, cost)
        return announced

    def routes_between(self, router, area, summaries):
        """The inter-area routes over summaries in an area (16.2): not for what has an intra-area route or is an active range."""
        found = best_behind(self.walks[area][router], summaries, router)
        own = set().union(*self.within[router].values(), (prefix for _, prefix in self.active.get(router, {})))
        return {prefix: route for prefix, route in found.items() if prefix not in own}

    def summaries_into(self, area):
        """What each border router of an area other than the backbone announces into it; into a stub the default too."""
        found = {}
        for border in self.borders:
            if area not in self.network.areas[border]:
                continue
            announced = self.summaries_of(border, area)
            for prefix, (cost, _) in self.between[border].items():
                add_least(announced, prefix, cost)
            stubs = self.network.configurations[border].stubs
            if area in stubs:
                has_no_summary, cost = stubs[area]
                announced = {} if has_no_summary else announced
                add_least(announced, DEFAULT, cost)
            found[border] = announced
        return found

    def tables(self):
        """The intra-area route of a prefix, else its active range, else its inter-area route."""
        found = []
        for router, areas in enumerate(self.network.areas):
            between = self.between.get(router, {})
            if len(areas) == 1:
                between = self.routes_between(router, areas[0], self.summaries[areas[0]])
            table = {prefix: hops for prefix, (_, hops) in between.items()}
            table |= {prefix: DISCARD for _, prefix in self.active.get(router, {})}
            for routes in self.within[router].values():
                table |= {prefix: hops for prefix, (_, hops) in routes.items()}
            found.append(without_connected(table, self.network.configurations[router]))
        return found


def without_connected(table, configuration):
    own = connected(configuration)
    return {prefix: hops for prefix, hops in table.items() if prefix not in own}


def isis_tables(network):
    return Isis(network).tables()


class Isis:
    """What IS-IS calculates: level 1 routes, level 2 routes, attached routers, and what is leaked into level 1."""

    def __init__(self, network):
        self.network, self.configurations = network, network.configurations
        self.levels = [each.levels if each.has_isis else set() for each in self.configurations]
        self.walks = {1: self.walks_at(1), 2: self.walks_at(2)}
        self.level_1 = self.level_1_routes()
        announced = {router: self.level_2_announcements(router) for router in self.routers_at(2)}
        self.level_2 = {router: best_behind(self.walks[2][router], announced, router) for router in announced}
        both = [router for router in range(network.size) if self.levels[router] == {1, 2}]
        self.attached = [router for router in both if self.reaches_other_area(router)]
        self.leaked = {router: self.leaked_by(router) for router in both if self.configurations[router].leaks}

    def routers_at(self, level):
        return [router for router, levels in enumerate(self.levels) if level in levels]

    def walks_at(self, level):
        """Walks over the adjacencies of a level; those of level 1 are within an area."""
        def runs(configuration, interface):
            if level not in interface.levels or interface.is_isis_passive:
                return None
            return (configuration.isis_area if level == 1 else None, interface.metrics[level])
        return walks(self.network.size, adjacencies(self.network, runs))

    def level_1_routes(self):
        offers = [(interface.subnet, router, interface.metrics[1]) for router, each in enumerate(self.configurations)
                  for interface in up(each) if 1 in interface.levels]
        found = {}
        for root in self.routers_at(1):
            costs, hops = self.walks[1][root]
            found[root] = best((prefix, costs[router] + metric, hops[router]) for prefix, router, metric in offers
                               if router in costs)
        return found

    def level_2_announcements(self, router):
        """Its prefixes of level 2, and its level 1 routes."""
        announced = {}
        for interface in up(self.configurations[router]):
            if 2 in interface.levels:
                add_least(announced, interface.subnet, interface.metrics[2])
        for prefix, (cost, _) in self.level_1.get(router, {}).items():
            add_least(announced, prefix, cost)
        return announced

    def reaches_other_area(self, router):
        return any(self.configurations[other].isis_area != self.configurations[router].isis_area
                   for other in self.walks[2][router][0])

    def leaked_by(self, router):
        """Its level 2 routes that are neither connected nor of level 1 (RFC 5302)."""
        own = connected(self.configurations[router]) | self.level_1[router].keys()
        return {prefix: cost for prefix, (cost, _) in self.level_2[router].items() if prefix not in own}

    def default_of(self, router):
        """The hops to the nearest attached routers, None where there is none."""
        costs, hops = self.walks[1][router]
        near = [other for other in self.attached if other in costs and other != router]
        least = min((costs[other] for other in near), default=None)
        return frozenset().union(*(hops[other] for other in near if costs[other] == least)) if near else None

    def tables(self):
        """The level 1 route of a prefix, else its level 2 route, else a leaked one; the default for routers of level 1 alone."""
        found = []
        for router, levels in enumerate(self.levels):
            table = {}
            default = self.default_of(router) if levels == {1} else None
            if default is not None:
                table[DEFAULT] = default
            leaked = best_behind(self.walks[1][router], self.leaked, router) if 1 in levels else {}
            for routes in (leaked, self.level_2.get(router, {}), self.level_1.get(router, {})):
                table |= {prefix: hops for prefix, (_, hops) in routes.items()}
            found.append(without_connected(table, self.configurations[router]))
        return found

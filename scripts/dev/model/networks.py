"""Networks: the configurations of one in the order of their names, what is refused of it, and two OSPF networks as a pair."""

from configurations import read_configurations
from words import Refused, address_text

ROUTERS_MOST, INTERFACES_MOST, PREFIXES_MOST = 200, 2000, 4096
OSPF_COSTS_BELOW, ISIS_METRICS_MOST = 16777215, 4261412864


def up(configuration):
    """The interfaces of a router that have an address and aren't shut down."""
    return [interface for interface in configuration.interfaces if interface.is_up]


def connected(configuration):
    """The prefixes of its up interfaces."""
    return {interface.subnet for interface in up(configuration)}


def range_prefixes(configuration):
    return {(base, length) for _, base, length, _, _ in configuration.ranges}


class Network:
    """A network: routers by number, in the order of their names, with the OSPF areas of each."""

    def __init__(self, configurations):
        self.configurations = sorted(configurations, key=lambda each: each.name)
        self.names = [each.name for each in self.configurations]
        self.size = len(configurations)
        self.number = {name: router for router, name in enumerate(self.names)}
        self.areas = [sorted({each.area for each in up(configuration) if each.area is not None})
                      for configuration in self.configurations]

    def is_border(self, router):
        return len(self.areas[router]) >= 2


def network_of(files):
    """The network of the configurations of files, each as (name, text)."""
    return build([configuration for file in files for configuration in read_configurations(*file)])


def build(configurations):
    """The network of configurations, or what is refused of it first."""
    for look in LOOKS_BEFORE:
        look(configurations)
    network = Network(configurations)
    for look in LOOKS:
        look(network)
    return network


def build_or_all(configurations):
    """The network of configurations, or None, and all that is refused: each by its own condition, in their order.

    Where there are too many, or two have one name, there is no network to look at.
    """
    refused = all_refused(LOOKS_BEFORE, configurations)
    if refused:
        return None, refused
    network = Network(configurations)
    refused = all_refused(LOOKS, network)
    return (None if refused else network), refused


def all_refused(looks, what):
    texts = []
    for look in looks:
        try:
            look(what)
        except Refused as refused:
            texts.append(refused.text)
    return texts


def refuse(what):
    raise Refused(f"refused network {what}\n")


def refuse_above(what, count, most):
    if count > most:
        raise Refused(f"limit {what} {count}\n", 6)


def look_at_routers(configurations):
    refuse_above("routers", len(configurations), ROUTERS_MOST)


def look_at_interfaces(configurations):
    refuse_above("interfaces", sum(len(up(each)) for each in configurations), INTERFACES_MOST)


def look_at_prefix_count(configurations):
    prefixes = set().union(*map(connected, configurations), *map(range_prefixes, configurations))
    refuse_above("prefixes", len(prefixes), PREFIXES_MOST)


def look_at_names(configurations):
    names = [each.name for each in configurations]
    twice = [name for name in names if names.count(name) > 1]
    if twice:
        refuse(f"TwoNames {min(twice)}")


def least_pair(network, key_of, may_not_be):
    """The least (router, router, key) of two up interfaces with one key that may not be so beside each other."""
    places = {}
    for router, configuration in enumerate(network.configurations):
        for interface in up(configuration):
            places.setdefault(key_of(interface), []).append((router, interface))
    found = [(*sorted((first[0], second[0])), key)
             for key, there in places.items() for place, first in enumerate(there) for second in there[place + 1:]
             if may_not_be(first, second)]
    return min(found, default=None)


def look_at_addresses(network):
    """An address stands at one interface, or at loopbacks of several routers."""
    pair = least_pair(network, lambda interface: interface.address,
                      lambda first, second: first[0] == second[0] or not (first[1].is_loopback and second[1].is_loopback))
    if pair:
        first, second, address = pair
        refuse(f"AddressTwice {network.names[first]} {network.names[second]} {address_text(address)}")


def look_at_prefixes(network):
    """A prefix with OSPF lies in one area."""
    pair = least_pair(network, lambda interface: interface.subnet,
                      lambda first, second: None not in (first[1].area, second[1].area) and first[1].area != second[1].area)
    if pair:
        first, second, (base, length) = pair
        refuse(f"PrefixInTwoAreas {network.names[first]} {network.names[second]} {address_text(base)}/{length}")


def look_at_borders(network):
    for router in range(network.size):
        if network.is_border(router) and 0 not in network.areas[router]:
            refuse(f"BorderWithoutBackbone {network.names[router]}")


def look_at_ospf_costs(network):
    """The sum of all costs, so that no cost of a walk is beyond what a summary can say."""
    configurations = network.configurations
    total = sum(interface.cost for each in configurations for interface in up(each) if interface.area is not None)
    total += sum(cost for each in configurations for *_, cost in each.ranges if cost is not None)
    total += sum(cost for each in configurations for _, cost in each.stubs.values())
    if total >= OSPF_COSTS_BELOW:
        refuse(f"OspfCostSum {total}")


def look_at_isis_metrics(network):
    """The sum of all metrics, so that none of a walk is beyond what a link-state packet can say."""
    total = sum(interface.metrics[level] for each in network.configurations for interface in up(each)
                for level in interface.levels)
    if total > ISIS_METRICS_MOST:
        refuse(f"IsisMetricSum {total}")


def look_at_systems(network):
    routers_of = {}
    for router, configuration in enumerate(network.configurations):
        if configuration.has_isis:
            routers_of.setdefault(configuration.system, []).append(router)
    pairs = [routers[:2] for routers in routers_of.values() if len(routers) > 1]
    if pairs:
        first, second = min(pairs)
        refuse(f"SystemIdTwice {network.names[first]} {network.names[second]}")


def look_at_stubs(network):
    """All routers of an area say whether it is a stub."""
    stubs = [each.stubs for each in network.configurations]
    pairs = [(first, second, area) for first in range(network.size) for second in range(first + 1, network.size)
             for area in network.areas[first]
             if area in network.areas[second] and (area in stubs[first]) != (area in stubs[second])]
    if pairs:
        first, second, area = min(pairs)
        refuse(f"StubMismatch {network.names[first]} {network.names[second]} {area}")


# What is refused of configurations, and of a network, in the order in which it is told.
LOOKS_BEFORE = (look_at_routers, look_at_interfaces, look_at_prefix_count, look_at_names)
LOOKS = (look_at_addresses, look_at_prefixes, look_at_borders, look_at_ospf_costs, look_at_isis_metrics, look_at_systems,
         look_at_stubs)


def is_off_start(configuration):
    """A migration begins where OSPF is in use, and IS-IS has the distance that no route is used with."""
    return (configuration.process is not None and configuration.ospf_distance == 255
            or configuration.has_isis and configuration.isis_distance != 255)


def look_at_start(network):
    for name, each in zip(network.names, network.configurations):
        if is_off_start(each):
            refuse(f"NotAtStart {name}")


def look_at_pair(old, new):
    """Two networks are one beside the other: the same routers and interfaces, and a second OSPF process that isn't in use."""
    olds, news = ({each.name: each for each in network.configurations} for network in (old, new))

    def interfaces(configuration):
        return sorted((each.name, each.address, each.subnet, each.area is not None) for each in up(configuration))

    def has_clash(first, second):
        return second.process is not None if first.process is None else second.process in (None, first.process)

    refuse_pair("RouterMissing", set(olds) ^ set(news))
    refuse_pair("InterfacesDiffer", [name for name in olds if interfaces(olds[name]) != interfaces(news[name])])
    refuse_pair("HasIsis", [name for name in olds if olds[name].has_isis or news[name].has_isis])
    refuse_pair("ProcessClash", [name for name in olds if has_clash(olds[name], news[name])])
    refuse_pair("NotIdle", [name for name in olds if news[name].process is not None and news[name].ospf_distance != 255])


def refuse_pair(kind, names):
    if names:
        raise Refused(f"refused pair {kind} {min(names)}\n")

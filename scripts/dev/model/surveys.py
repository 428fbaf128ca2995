"""The survey of configurations: all faulty lines, else all that is refused of the network, else the network and what is odd."""

from acting_forms import acts
from configurations import Gathered, counted_lines, faults_of, sections_of, split_at_ends
from interface_lines import Interface
from networks import build_or_all, is_off_start, up
from process_lines import interface_name
from shown import prefix_text
from words import address_text, base_of, lines_of


def survey(files):
    read = [(name, text, *faults_of(text)) for name, text in files]
    faulty = [(name, text, faults) for name, text, faults, _ in read if faults]
    if faulty:
        return told(line for each in faulty for line in fault_lines(*each)) + told([counted_faults(faulty)]), 1
    network, refused = build_or_all([each for _, _, _, configurations in read for each in configurations])
    if refused:
        return "".join(refused), 1
    odd = odd_lines(network) + odd_texts(files)
    return told(network_lines(network) + odd), 1 if any(not line.startswith("uneven ") for line in odd) else 0


def told(lines):
    return "".join(line + "\n" for line in lines)


# ---- lines of the texts ----


def as_words(words):
    """The words of a line as they are printed: control bytes can't be seen, and may do harm."""
    return "".join("?" if byte < " " or byte == "\x7f" else byte for byte in " ".join(words))


class Places:
    """The lines of a text that count: what is printed of each, and where it stands."""

    def __init__(self, text):
        parts, _ = split_at_ends(lines_of(text))
        self.shown, self.place = {end: "end" for _, end in parts}, {}
        for part, _ in parts:
            self.note(sections_of(part))

    def note(self, sections):
        """A line of an interface in a VRF, and of a process in one, stands nowhere."""
        interfaces = {}
        for section in sections:
            if section.words[0] == "interface":
                name = interface_name(section.words[1:])
                interfaces.setdefault(name, Gathered(section.line)).lines.extend(section.inner)
        for section in sections:
            kind = {("interface",): "interface", ("router", "ospf"): "ospf", ("router", "isis"): "isis"}.get(
                tuple(section.words[:1 if section.words[0] == "interface" else 2]))
            is_in_vrf = (kind == "interface" and interfaces[interface_name(section.words[1:])].is_in_vrf()
                         or kind == "ospf" and section.words[3:4] == ["vrf"] and len(section.words) > 4)
            self.shown[section.line], self.place[section.line] = as_words(section.words), ("top", section.words)
            for line, words in section.inner:
                self.shown[line] = f"{as_words(section.words)}: {as_words(words)}"
                if kind and not is_in_vrf:
                    self.place[line] = (kind, words)


def fault_lines(name, text, faults):
    """The text of a line is told; a text that lacks its end has none."""
    shown = Places(text).shown
    return [f"fault {name} {line} {kind}" + (f" {shown[line]}" if line in shown else "") for line, kind in faults]


def counted_faults(faulty):
    return f"faults {sum(len(faults) for *_, faults in faulty)} in {len(faulty)} files"


def odd_texts(files):
    """What is odd about the texts, each kind by itself."""
    odd, flat, acting = [], [], []
    for name, text in files:
        lines = lines_of(text)
        counted = counted_lines(lines)
        odd += [f"odd {name} {number}" for number, _, _ in counted if is_odd(lines[number - 1])]
        if any(words[0] in ("interface", "router") for _, indent, words in counted) and not any(each[1] for each in counted):
            flat.append(f"flat {name}")
        places = Places(text)
        acting += [f"acts {name} {number} {places.shown[number]}" for number, place in sorted(places.place.items())
                   if acts(*place)]
    return odd + flat + acting


def is_odd(line):
    """A control byte, but for tabs at the front."""
    return any(byte < " " or byte == "\x7f" for byte in line.lstrip(" \t"))


# ---- the network ----


def ports_of(network):
    """The up interfaces, router by router, as (router, interface)."""
    return [(router, each) for router, configuration in enumerate(network.configurations) for each in up(configuration)]


def network_lines(network):
    """What was read."""
    ports = ports_of(network)
    subnets = {each.subnet for _, each in ports}
    links = [subnet for subnet in subnets if len({router for router, each in ports if each.subnet == subnet}) > 1]
    lines = [f"survey {network.size} routers {len(ports)} interfaces {len(links)} links {len(subnets)} prefixes"]
    for name, areas, configuration in zip(network.names, network.areas, network.configurations):
        there = up(configuration)
        ospf, isis = sum(each.area is not None for each in there), sum(bool(each.levels) for each in there)
        lines.append(" ".join(["router", name, f"up {len(there)} ospf {ospf} isis {isis} areas", *map(str, areas)]))
    return lines


def zones(interface: Interface):
    """Where an interface may be adjacent with others, each zone with its cost: an area as ("ospf", area), a level as its word."""
    found = {}
    if not interface.is_loopback:
        if interface.area is not None and not interface.is_ospf_passive:
            found["ospf", interface.area] = interface.cost
        if not interface.is_isis_passive:
            found |= {(f"level-{level}",): interface.metrics[level] for level in sorted(interface.levels)}
    return found


def odd_lines(network):
    """What is odd about a network, kind by kind."""
    ports, names = ports_of(network), network.names
    lines = [f"silent {name}" for name, areas in zip(names, network.areas) if not areas]
    for router, each in ports:
        if any(zone[0] == "ospf" for zone in zones(each)) and not others_of(ports, router, each):
            lines.append(f"half {prefix_text(each.subnet)} {names[router]} {each.name}")
    lines += mask_lines(ports, names)
    for word in ("ospf", "level-1", "level-2"):
        for router, each in ports:
            others = others_of(ports, router, each)
            zone = next((zone for zone in zones(each) if zone[0] == word), None)
            if zone and others and not any(zone in zones(other) for other in others):
                lines.append(f"oneside {word} {prefix_text(each.subnet)} {names[router]} {each.name}")
    lines += apart_lines(network, ports) + uneven_lines(ports, names)
    return lines + [f"start {name}" for name, each in zip(names, network.configurations) if is_off_start(each)]


def others_of(ports, router, interface):
    """The interfaces of its subnet that other routers have."""
    return [each for other, each in ports if other != router and each.subnet == interface.subnet]


def mask_lines(ports, names):
    """Two interfaces of two routers, of which one is in the other's subnet, and that isn't its own."""
    return [f"masks {with_mask(one)} {names[first]} {with_mask(other)} {names[second]}"
            for first, one in ports for second, other in ports
            if first < second and not one.is_loopback and not other.is_loopback and one.subnet != other.subnet
            and (holds(one.subnet, other.address) or holds(other.subnet, one.address))]


def with_mask(interface):
    return f"{address_text(interface.address)}/{interface.subnet[1]}"


def holds(subnet, address):
    return base_of(address, subnet[1]) == subnet[0]


def apart_lines(network, ports):
    """The first router, and the first one that it doesn't reach over shared subnets."""
    reached, subnets = {0}, set()
    while True:
        subnets |= {each.subnet for router, each in ports if router in reached}
        more = reached | {router for router, each in ports if each.subnet in subnets}
        if more == reached:
            break
        reached = more
    left = sorted(set(range(network.size)) - reached)
    return [f"apart {network.names[0]} {network.names[left[0]]}"] if left else []


def uneven_lines(ports, names):
    """The two ends of a link of two routers that cost differently."""
    lines = []
    for word in ("ospf", "level-1", "level-2"):
        for first, one in ports:
            for second, other in ports:
                zone = next((zone for zone in zones(one) if zone[0] == word), None)
                if first < second and one.subnet == other.subnet and zone in zones(other) \
                        and zones(one)[zone] != zones(other)[zone] \
                        and {router for router, each in ports if each.subnet == one.subnet} == {first, second}:
                    lines.append(f"uneven {prefix_text(one.subnet)} {word} {names[first]} {zones(one)[zone]}"
                                 f" {names[second]} {zones(other)[zone]}")
    return lines

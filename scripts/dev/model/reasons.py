"""Why a list of waves is as it is: of a safe one what keeps routers from an earlier wave, of an unsafe one the packet's way."""

from forwarding import CONNECTED_DISTANCE, MIDDLE, NEW, NEW_DISTANCE, OLD, UNUSED_DISTANCE, Missing, change_times, flat_phases
from forwarding import phase_before, router_times
from order_files import flat_run
from search import Changes
from shown import hops_text, prefix_text
from words import address_text, base_of

PHASE_WORDS = {OLD: "old", MIDDLE: "middle", NEW: "new"}


def reasons(mixed, ranks):
    """A line for each router behind the first wave, wave by wave, of a list that is safe.

    The reason is the fault that is told of the list in which it stands one wave earlier: it is of the least address, and its loop
    is the one that a check tells. Of that wave it names the lowest router that is tagged O.
    """
    names, lines = mixed.network.names, []
    for router in flat_run(ranks):
        rank = ranks[router]
        if rank == 0:
            continue
        earlier = [*ranks[:router], rank - 1, *ranks[router + 1:]]
        found = mixed.times_fault(None, router_times([OLD] * mixed.size, earlier))
        if found is None:
            lines.append(f"{names[router]} wave {rank + 1} may be earlier")
            continue
        wave, loop = found
        before = [other for other, tag in loop.turns if tag == "O" and ranks[other] == rank - 1]
        # The law of reasons: the wave before its own is the first one with a fault, a loop that makes it wait for another router.
        assert wave == rank and (router, "N") in loop.turns and before
        assert all(ranks[other] >= rank - 1 for other, tag in loop.turns if tag == "O")
        ring = " ".join(f"{names[other]}:{tag}" for other, tag in loop.turns)
        lines.append(f"{names[router]} wave {rank + 1} after {names[min(before)]} {address_text(loop.address)} {ring}")
    return lines


def change_reasons(mixed, ranks):
    """The same of each single change behind the first wave, told by the changes at which the routers of the loop switch.

    A second change in the wave behind its router's first comes after that: a wave has one change of a router.
    """
    names, items, lines = mixed.network.names, Changes(mixed), []
    for item in flat_run(ranks):
        rank = ranks[item]
        if rank == 0:
            continue
        first_words = f"{items.word(item)} wave {rank + 1}"
        if item % 2 == 1 and ranks[item - 1] == rank - 1:
            lines.append(f"{first_words} after {items.word(item - 1)}")
            continue
        earlier = [*ranks[:item], rank - 1, *ranks[item + 1:]]
        found = mixed.times_fault(None, change_times(earlier))
        if found is None:
            lines.append(f"{first_words} may be earlier")
            continue
        wave, loop = found
        column = mixed.column(loop.address)
        turns = [(column.switch(router), tag) for router, tag in loop.turns]
        before = [other for other, tag in turns if tag == "O" and ranks[other] == rank - 1]
        # The law of reasons, as of routers: the change is the one at which its router switches for the address of the loop.
        assert wave == rank and (item, "N") in turns and before
        assert all(ranks[other] >= rank - 1 for other, tag in turns if tag == "O")
        ring = " ".join(f"{names[router]}:{tag}" for router, tag in loop.turns)
        lines.append(f"{first_words} after {items.word(min(before))} {address_text(loop.address)} {ring}")
    return lines


def packet_way(mixed, fault, spans):
    """The target, its originators, and what the routers of a fault use, in one state of those in which it stands.

    In a ring a router that is tagged N has the last phase of its span, another one the first; a router that lacks a step has the
    first one in which it does.
    """
    network = mixed.network
    target = target_of(mixed, fault.address)
    originators = [name for name, own in zip(network.names, mixed.connected) if target in own]
    if isinstance(fault, Missing):
        phase = next(phase for phase in spans[fault.router] if not leads_on(used(mixed, fault.router, phase, fault.address)))
        at = [(fault.router, phase)]
    else:
        at = [(router, spans[router][-1 if tag == "N" else 0]) for router, tag in fault.turns]
        for (router, phase), (following, _) in zip(at, at[1:] + at[:1]):
            assert following in used(mixed, router, phase, fault.address)[3]
    return [f"target {prefix_text(target)} at {' '.join(originators)}"] + [
        f"at {network.names[router]} {PHASE_WORDS[phase]} {used_text(network, used(mixed, router, phase, fault.address))}"
        for router, phase in at]


def target_of(mixed, address):
    """The longest prefix with OSPF or IS-IS that holds an address."""
    prefixes = [(base_of(address, length), length) for length in mixed.lengths]
    return next(prefix for prefix in prefixes if prefix in mixed.targets)


def leads_on(entry):
    return entry is not None and isinstance(entry[3], frozenset)


def used(mixed, router, phase, address):
    """The entry that a router uses, as (prefix, protocol, distance, hops), of all that count and hold the address; None without.

    The longest match, then the least distance.
    """
    entries = [(prefix, "connected", CONNECTED_DISTANCE, None) for prefix in mixed.connected[router]]
    if phase != NEW and mixed.distances[router] != UNUSED_DISTANCE:
        entries += [(prefix, "ospf", mixed.distances[router], hops) for prefix, hops in mixed.old[router].items()]
    if phase != OLD:
        entries += [(prefix, "isis", NEW_DISTANCE, hops) for prefix, hops in mixed.new[router].items()]
    holding = [entry for entry in entries if base_of(address, entry[0][1]) == entry[0][0]]
    return min(holding, key=lambda entry: (-entry[0][1], entry[2]), default=None)


def used_text(network, entry):
    if entry is None:
        return "none"
    prefix, protocol, distance, hops = entry
    does = "" if hops is None else " " + hops_text(network, hops).replace("via", "to")
    return f"{prefix_text(prefix)} {protocol} {distance}{does}"


def spans_of(version, ranks, number):
    """The phases of the routers in a state of an order, or in a wave of a list, each by its number."""
    if version == 1:
        return [(phase,) for phase in flat_phases(flat_run(ranks), number)]
    return times_spans(router_times([OLD] * len(ranks), ranks), number)


def times_spans(times, number):
    """The phases of the routers in a wave, by the waves of their changes."""
    return [tuple(range(phase_before(number, both), phase_before(number + 1, both) + 1)) for both in times]

"""What was done of a running migration, by the configurations of before and those of now."""

from forwarding import UNUSED_DISTANCE
from networks import look_at_start, network_of
from order_files import flat_run, read_order


def observe(order, before_file, now_files):
    """The journal of what was done, or where the configurations differ in more than that, and the code.

    BEFORE is a network at its start, then the configurations of now are one, then the order is read.
    """
    before = network_of([before_file])
    look_at_start(before)
    now = network_of(now_files)
    _, ranks = read_order(order, before)
    olds, news = ({each.name: each for each in network.configurations} for network in (before, now))
    for name in sorted(olds.keys() | news.keys()):
        what = difference(olds.get(name), news.get(name))
        if what is not None:
            return f"differs {name} {what}\n", 1
    counts = [counts_of(*both) for both in zip(before.configurations, now.configurations)]
    return told_of_counts(before, ranks, counts)


def difference(old, new):
    """What of a router is another than before, besides the distances of its processes."""
    if old is None or new is None:
        return "name"
    pairs = zip(parts(old), parts(new))
    return next((what for (what, first), (_, second) in pairs if first != second), None)


def parts(configuration):
    """What a configuration says, each with the word for a difference, in the order in which they are told."""
    each = configuration
    return (("interface", sorted(each.interfaces, key=lambda interface: interface.name)), ("process", each.process),
            ("isis", each.has_isis), ("tag", each.tag), ("area", each.isis_area), ("system", each.system), ("level", each.levels),
            ("leak", each.leaks), ("range", sorted(each.ranges, key=repr)), ("stub", each.stubs), ("rfc1583", each.rfc1583))


def counts_of(old, new):
    """How many of its two changes a router may have made, by the distances of its processes."""
    return [count for count in (0, 1, 2)
            if (not new.has_isis or new.isis_distance == (115 if count >= 1 else UNUSED_DISTANCE))
            and (new.process is None or new.ospf_distance == (UNUSED_DISTANCE if count == 2 else old.ospf_distance))]


def told_of_counts(network, ranks, counts):
    """The journal, where waves before the first one that isn't done are done and those behind it aren't begun.

    A router whose distances tell no count departs, and so does one that has begun too early; the least is told. One without a
    process has made as few changes as its distances allow in the wave that isn't done.
    """
    wave = min((rank for rank, made in zip(ranks, counts) if made and max(made) < 2), default=max(ranks))
    early = [router for router, made in enumerate(counts) if not made or ranks[router] > wave and min(made) > 0]
    if early:
        return f"departs {network.names[min(early)]}\n", 1
    lines = ["journal 1"]
    for router in flat_run(ranks):
        made = max(counts[router]) if ranks[router] < wave else min(counts[router])
        lines += [f"{network.names[router]} {change}" for change in range(1, made + 1)]
    return "".join(line + "\n" for line in lines), 0

"""What is believed of a network, shown: the tables of its routers."""

from tables import DISCARD
from words import address_text


def prefix_text(prefix):
    return f"{address_text(prefix[0])}/{prefix[1]}"


def hops_text(network, entry):
    """What an entry does with packets."""
    return "discard" if entry == DISCARD else "via " + " ".join(network.names[hop] for hop in sorted(entry))


def tables_text(network, ospf, isis):
    """A line for each entry: routers ascending, OSPF before IS-IS, prefixes ascending, a shorter one first."""
    return "".join(f"{name} {word} {prefix_text(prefix)} {hops_text(network, entry)}\n"
                   for router, name in enumerate(network.names) for word, tables in (("ospf", ospf), ("isis", isis))
                   for prefix, entry in sorted(tables[router].items()))

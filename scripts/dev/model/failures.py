"""One link down: what a list of waves is in the network without it, for each link."""

from dataclasses import replace

from networks import build, up
from shown import prefix_text
from words import Refused


def links(network):
    """The subnets that interfaces of two or more routers share, none a loopback, by prefix."""
    routers = {}
    for router, configuration in enumerate(network.configurations):
        for each in up(configuration):
            if not each.is_loopback:
                routers.setdefault(each.subnet, set()).add(router)
    return sorted(subnet for subnet, there in routers.items() if len(there) > 1)


def without(network, link):
    """The network in which the interfaces of a link aren't up, or what is refused of it."""
    return build([replace(configuration, interfaces=[
        replace(each, is_up=each.is_up and (each.is_loopback or each.subnet != link)) for each in configuration.interfaces])
        for configuration in network.configurations])


def told_of_link(network, link, judge):
    """What a link down does, None where the list withstands it. `judge` says it of a network, 7 being that an end is unsound."""
    try:
        text, code = judge(without(network, link))
    except Refused as refused:
        text, code = refused.text, refused.code
    word = {0: None, 1: "breaks", 5: "ends", 7: "ends"}[code]
    return word and f"{word} {prefix_text(link)} {text}"


def failures(network, judge):
    """The lines of all links that the list doesn't withstand, and their counts; 1 where one breaks it."""
    found = [told_of_link(network, link, judge) for link in links(network)]
    broken, ended = (sum(line is not None and line.startswith(word) for line in found) for word in ("breaks ", "ends "))
    counts = f"failures {len(found)} links {found.count(None)} withstood {broken} break {ended} ends\n"
    return "".join(line for line in found if line) + counts, 1 if broken else 0

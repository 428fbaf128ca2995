#!/usr/bin/env python3
"""Compares what routers say of their routes with what `migrate tables` says of them.

    scripts/compare_routes.py [--isis] TABLES ROUTES CONFIG...

TABLES has what `migrate tables CONFIG...` printed, ROUTES is a folder with a file NAME.txt for each router that was asked, which
has its `show ip route`, and the configurations tell whose an address of a hop is. The routes of OSPF are compared, and with
`--isis` those of IS-IS: before the first change of a router it has those of OSPF, behind its second one those of IS-IS.

Each difference is a line, and so is each route of another protocol, of which the tables know nothing. The status is 1 where
there is one. Nothing here is proved.
"""

import argparse
import pathlib
import re
import sys

ADDRESS = r"\d+\.\d+\.\d+\.\d+"
# The letters of a route, as `O`, `O IA`, `i L2`, `i*L1`, and `B*`.
CODE = r"[A-Za-z%+][A-Za-z0-9*%+ ]{0,7}"
CONNECTED = ("C", "L")


def prefix_of(address, length):
    """A prefix as text, by any address in it."""
    value = int.from_bytes(map(int, address.split(".")), "big") >> (32 - length) << (32 - length)
    return f"{'.'.join(map(str, value.to_bytes(4, 'big')))}/{length}"


def tables_of(text, protocol):
    """For each router what it does with each prefix: the names of its hops, or `discard`."""
    found = {}
    for line in text.splitlines():
        router, word, prefix, does, *hops = line.split(" ")
        routes = found.setdefault(router, {})
        if word == protocol:
            routes[prefix] = frozenset(hops) if does == "via" else "discard"
    return found


def addresses_in(text):
    """The addresses of the interfaces of configurations, each with its router."""
    found, waiting, router = {}, [], None
    for line in text.splitlines():
        words = line.split()
        if words[:1] == ["hostname"]:
            router = words[1]
        elif words[:2] == ["ip", "address"] and len(words) > 3:
            waiting.append(words[2])
        elif words == ["end"]:
            found |= {address: router for address in waiting}
            waiting, router = [], None
    return found


def lines_of(text):
    """The lines of a capture; one that begins with blanks and has no code goes on from the one before it."""
    lines = []
    for line in text.splitlines():
        if re.match(r"\s+\[|\s+via ", line) and lines:
            lines[-1] += " " + line.strip()
        elif line.strip():
            lines.append(line.rstrip())
    return lines


def routes_in(text):
    """The routes of a capture: for each prefix the letters of its code, and the addresses of its hops or `discard`."""
    found, length = {}, None
    for line in lines_of(text):
        head = re.match(rf"\s+{ADDRESS}/(\d+) is (variably )?subnetted", line)
        route = re.match(rf"({CODE}?)\s+({ADDRESS})(/\d+)?\s+(.*)", line)
        if head:
            # Routes below may be without a length, which is that of all then.
            length = None if head[2] else int(head[1])
        elif route and (route[3] or length is not None):
            does = "discard" if "Null0" in route[4] else frozenset(re.findall(rf"via ({ADDRESS})", route[4]))
            own = int(route[3][1:]) if route[3] else length
            found[prefix_of(route[2], own)] = (re.match("[A-Za-z]*", route[1])[0], does)
    return found


def told(does):
    return "nothing" if does is None else does if does == "discard" else "via " + " ".join(sorted(does))


def differences(router, told_by_tables, capture, owners, letter):
    """The lines about a router: its routes that differ, and those of other protocols."""
    routes, lines = routes_in(capture), []
    there = {prefix: does if does == "discard" else frozenset(owners.get(hop, hop) for hop in does)
             for prefix, (code, does) in routes.items() if code == letter}
    for prefix in sorted(told_by_tables.keys() | there.keys(), key=lambda text: [int(part) for part in re.split("[./]", text)]):
        by_tables, by_router = told_by_tables.get(prefix), there.get(prefix)
        if by_tables != by_router:
            lines.append(f"{router} {prefix}: tables {told(by_tables)}, router {told(by_router)}")
    lines += [f"{router} {prefix}: of another protocol, {code}" for prefix, (code, _) in routes.items()
              if code not in ("O", "i", *CONNECTED)]
    return lines


def main():
    parser = argparse.ArgumentParser(description=__doc__.split("\n")[0])
    parser.add_argument("--isis", action="store_true", help="compare the routes of IS-IS")
    parser.add_argument("tables", type=pathlib.Path, metavar="TABLES")
    parser.add_argument("routes", type=pathlib.Path, metavar="ROUTES")
    parser.add_argument("configs", type=pathlib.Path, nargs="+", metavar="CONFIG")
    options = parser.parse_args()
    tables = tables_of(options.tables.read_text(), "isis" if options.isis else "ospf")
    owners, names = {}, set()
    for config in options.configs:
        text = config.read_text(encoding="latin-1")
        owners |= addresses_in(text)
        names |= set(re.findall(r"^hostname[ \t]+(\S+)", text, re.MULTILINE))
    lines, asked = [], sorted(options.routes.glob("*.txt"))
    for path in asked:
        if path.stem in names:
            capture = path.read_text(encoding="latin-1")
            lines += differences(path.stem, tables.get(path.stem, {}), capture, owners, "i" if options.isis else "O")
        else:
            lines.append(f"{path.stem}: no router of the configurations has this name")
    print("".join(line + "\n" for line in lines) + f"{len(asked)} routers, {len(lines)} differences")
    return 1 if lines else 0


if __name__ == "__main__":
    sys.exit(main())

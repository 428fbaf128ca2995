#!/usr/bin/env python3
"""Makes configurations to measure and to try with: whole networks, and copies of those that there are.

    scripts/dev/make_network.py grid ROWS COLUMNS > all.cfg
    scripts/dev/make_network.py ring N, lan N, areas N > all.cfg
    scripts/dev/make_network.py hostile KIND FILE [--bytes N] [--lines N]
    scripts/dev/make_network.py faulty OUT [--right] [--bytes N] [--files N]
    scripts/dev/make_network.py levels FOLDER OUT
    scripts/dev/make_network.py fill FOLDER OUT SIZE
    scripts/dev/make_network.py without-isis FOLDER OUT

`SUBCOMMAND --help` says what each makes. A call with the same words always makes the same bytes. It isn't part of the gate.
"""

import argparse
import itertools
import pathlib
import re
import shutil
import sys

LINK_MASK = "255.255.255.252"
DEAR = 1000


# ---- whole networks ----


def router(name, number, interfaces, area_of):
    """The configuration of a router: a loopback, and interfaces as (address, mask, cost, metric, area)."""
    lines = [f"hostname {name}", "interface Loopback0", f" ip address 10.255.{number // 256}.{number % 256} 255.255.255.255",
             f" ip ospf 1 area {area_of}", " ip router isis"]
    for place, (address, mask, cost, metric, area) in enumerate(interfaces):
        lines += [f"interface GigabitEthernet0/{place}", f" ip address {address} {mask}", f" ip ospf 1 area {area}",
                  f" ip ospf cost {cost}", " ip router isis", f" isis metric {metric}"]
    lines += ["router ospf 1", "router isis", f" net 49.0001.0000.0000.{number:04d}.00", " is-type level-2-only",
              " metric-style wide", " distance 255", "end"]
    return "\n".join(lines) + "\n"


def ring(count):
    """A ring of routers; its last link is dear in OSPF, and all links cost the same in IS-IS."""
    links = [[] for _ in range(count)]
    for place in range(count):
        base = f"10.1.{place}."
        cost = DEAR if place == count - 1 else 1
        links[place].append((base + "1", LINK_MASK, cost, 10, 0))
        links[(place + 1) % count].append((base + "2", LINK_MASK, cost, 10, 0))
    return [router(f"R{place:03d}", place + 1, links[place], 0) for place in range(count)]


def lan(count):
    """Routers on one LAN."""
    return [router(f"R{place:03d}", place + 1, [(f"10.1.0.{place + 1}", "255.255.255.0", 1 + place % 7, 10 + place % 5, 0)], 0)
            for place in range(count)]


def areas(count):
    """Areas of ten routers, each a chain behind a border router; the border routers make a ring in the backbone."""
    links = [[] for _ in range(10 * count)]
    for area in range(count):
        first, after = 10 * area, 10 * ((area + 1) % count)
        links[first].append((f"10.1.{area}.1", LINK_MASK, 1 + area % 3, 10, 0))
        links[after].append((f"10.1.{area}.2", LINK_MASK, 1 + area % 3, 10, 0))
        for place in range(first, first + 9):
            base = f"10.2.{place}."
            links[place].append((base + "1", LINK_MASK, 1, 10, area + 1))
            links[place + 1].append((base + "2", LINK_MASK, 1, 10, area + 1))
    return [router(f"R{place:03d}", place + 1, its, 0 if place % 10 == 0 else place // 10 + 1) for place, its in enumerate(links)]


def grid_links(rows, columns):
    """The links of a grid, as the places of both ends, the subnet's first three numbers, and the OSPF cost."""
    for row in range(rows):
        for column in range(columns):
            place = row * columns + column
            right = row * columns + (column + 1) % columns
            below = (row + 1) % rows * columns + column
            yield place, right, f"10.1.{place}.", DEAR if column == columns - 1 else 1
            yield place, below, f"10.2.{place}.", DEAR if row == rows - 1 else 1


def grid(rows, columns):
    """A grid of routers, all of whose rings of four have two ways of one cost.

    Each row and each column is closed to a ring. A link that closes one is dear in OSPF and as cheap as the others in IS-IS,
    so that between far routers the old network has many equal-cost ways one way round, and the new one many the other way.
    """
    interfaces = [[] for _ in range(rows * columns)]
    for place, other, base, cost in grid_links(rows, columns):
        interfaces[place].append((base + "1", LINK_MASK, cost, 10, 0))
        interfaces[other].append((base + "2", LINK_MASK, cost, 10, 0))
    return [router(f"R{place:03d}", place + 1, its, 0) for place, its in enumerate(interfaces)]


# ---- a file that is dear to read ----


def dotted(address):
    """The four octets of an address."""
    return ".".join(str(address >> shift & 255) for shift in (24, 16, 8, 0))


def blocks(count):
    """Addresses and wildcards of blocks outside 10.0.0.0/8: of each length as many as there are, in turn."""
    begun, made = [0] * 33, 0
    while made < count:
        for length in range(1, 33):
            # in the upper half of all addresses
            if begun[length] < 1 << (length - 1) and made < count:
                yield 1 << 31 | begun[length] << (32 - length), (1 << (32 - length)) - 1
                begun[length] += 1
                made += 1


def holes(count):
    """An address with its first bit set, and wildcards that differ and leave this bit alone."""
    made, wildcard = 0, 1
    while made < count:
        wildcard += 1
        if wildcard & (wildcard + 1):
            made += 1
            yield 1 << 31 | (made & 127) << 24, wildcard


def interfaces_within(size):
    """Interfaces with addresses of 10.0.0.0/8, in at most so many bytes."""
    parts, number = [], 0
    while True:
        part = f"interface x{number}\n ip address {dotted(10 << 24 | number)} 255.0.0.0\n"
        size -= len(part)
        if size < 0:
            return parts
        parts.append(part)
        number += 1


def hostile(kind, size, count):
    """The interfaces, and the text, of a router whose `network` lines take none of their addresses."""
    made = (blocks if kind == "blocks" else holes)(count)
    lines = "".join(f" network {dotted(address)} {dotted(wildcard)} area 0\n" for address, wildcard in made)
    head, tail = "hostname H\n", "router ospf 1\n" + lines + "end\n"
    parts = interfaces_within(size - len(head) - len(tail))
    return len(parts), head + "".join(parts) + tail


# ---- files of faulty lines ----

# A faulty line of nearly each kind, and the right one in its place.
FAULTY_LINES = (
    ("hostname R!{n}", "hostname R-{n}"),
    ("interface GigabitEthernet0/{n}", None),
    (" ip address 10.0.12.256 255.255.255.0", " ip address 10.0.12.1 255.255.255.0"),
    (" ip address 10.0.12.1 255.255.0.255", " ip address 10.0.12.1 255.255.255.0"),
    (" ip ospf cost 0", " ip ospf cost 1"),
    (" ip ospf 1 area x", " ip ospf 1 area 0"),
    (" ip ospf 2 area 0", " ip ospf 1 area 0"),
    (" ip unnumbered Loopback0", " no ip redirects"),
    (" isis metric 0 level-2", " isis metric 1 level-2"),
    (" isis circuit-type level-2", " isis circuit-type level-1"),
    ("interface Loopback{n}", None),
    (" ip address 10.1.0.1 255.255.255.0", " ip address 10.1.0.1 255.255.255.255"),
    ("interface Port-channel{n}", None),
    (" ip address 10.2.0.1 255.255.255.0", None),
    (" bandwidth 0", " bandwidth 1"),
    ("router ospf 1", None),
    (" distance 300", " distance 110"),
    (" distance 115", " distance 110"),
    (" area 1 range 10.1.0.0 255.255.0.0 cost x", " area 1 range 10.1.0.0 255.255.0.0 cost 1"),
    ("router isis", None),
    (" is-type level-2", " is-type level-1"),
    (" metric-style wide", None),
)

# How such a text begins and ends: its processes, with the one `net` line that may be right, and what may stand behind `end`.
FAULTY_ENDS = ("router ospf 1\nrouter isis\n net 49.0001.0000.0000.0009.0\n", "end\nhostname R\n")
RIGHT_ENDS = ("router ospf 1\nrouter isis\n net 49.0001.0000.0000.0009.00\n", "end\n")


def faulty_parts(right):
    """Lines that are faulty, or right, for ever: those of every kind for the first time, for the second one, and so on."""
    for n in itertools.count():
        for faulty, other in FAULTY_LINES:
            yield (other if right and other else faulty).format(n=n) + "\n"


def faulty_text(size, right):
    """The text of a configuration of at most so many bytes whose lines are faulty by each kind, or of the right ones."""
    head, last = RIGHT_ENDS if right else FAULTY_ENDS
    parts = []
    size -= len(head) + len(last)
    for part in faulty_parts(right):
        size -= len(part)
        if size < 0:
            return head + "".join(parts) + last
        parts.append(part)


# ---- copies with level 1 areas ----

NETWORK = re.compile(r"^ network \S+ \S+ area (\d+)[ \t]*$", re.MULTILINE)
NET = re.compile(r"^( net )(\w\w)(?:\.\w{4})*(\.\w{4}\.\w{4}\.\w{4}\.\w\w)[ \t]*$", re.MULTILINE)
IS_TYPE = re.compile(r"^ is-type \S+[ \t]*$", re.MULTILINE)


def place_of(ospf_areas):
    """The area of IS-IS and the levels of a router in these OSPF areas."""
    others = sorted(ospf_areas - {0})
    if not ospf_areas or len(others) > 1:
        raise ValueError(f"no one IS-IS area fits the OSPF areas {sorted(ospf_areas)}")
    if not others:
        return 0, "level-2-only"
    return others[0], "level-1-2" if 0 in ospf_areas else "level-1"


def replaced(pattern, new, text):
    """The text with the one line that fits the pattern replaced."""
    text, count = pattern.subn(new, text)
    if count != 1:
        raise ValueError(f"{count} lines fit {pattern.pattern}, not one")
    return text


def with_levels(text):
    """The text of a configuration, with its levels and its area of IS-IS."""
    area, levels = place_of({int(number) for number in NETWORK.findall(text)})
    if area > 9999:
        raise ValueError(f"the area {area} is above 9999")
    text = replaced(NET, rf"\g<1>\g<2>.{area:04d}\g<3>", text)
    return replaced(IS_TYPE, f" is-type {levels}", text)


# ---- copies that are filled up ----

SECTIONS = (
    ("!",),
    ("! filled for measuring, number {n}",),
    ("snmp-server host 192.0.2.{octet} version 2c public",),
    ("logging host 192.0.2.{octet}",),
    (
        "ip access-list extended FILL-{n}",
        " permit tcp 198.51.100.0 0.0.0.255 host 203.0.113.{octet} eq 443",
        " permit udp any host 203.0.113.{octet} eq domain",
        " deny ip any any",
    ),
    (
        "class-map match-any FILL-{n}",
        " match dscp af41",
        " match dscp ef",
    ),
    (
        "policy-map FILL-{n}",
        " class FILL-{n}",
        "  bandwidth percent 20",
        "  queue-limit 64 packets",
    ),
    ("ntp server 192.0.2.{octet}",),
)


def filler():
    """Sections that the planner skips, without end, each as the text of its lines."""
    for n in itertools.count():
        lines = SECTIONS[n % len(SECTIONS)]
        yield "".join(line.format(n=n, octet=n % 254 + 1) + "\n" for line in lines)


def comment(size):
    """Comment lines that have so many bytes together: none, or at least 2."""
    return "" if size == 0 else "!" + "-" * (size - 2) + "\n"


def filling(size):
    """Lines that have so many bytes together."""
    parts = []
    for part in filler():
        if size < len(part) + 2:
            break
        parts.append(part)
        size -= len(part)
    parts.append(comment(size))
    return "".join(parts)


def filled(text, size):
    """The text of a configuration, filled before its last `end` line."""
    lines = text.splitlines(keepends=True)
    ends = [i for i, line in enumerate(lines) if line.strip() == "end"]
    if not ends:
        raise ValueError("there is no `end` line")
    room = size - len(text)
    if room < 0 or room == 1:
        raise ValueError(f"{len(text)} bytes can't be filled up to {size}")
    return "".join(lines[: ends[-1]]) + filling(room) + "".join(lines[ends[-1] :])


# ---- copies without IS-IS ----

PROCESS = re.compile(r"^router isis\b[^\n]*\n(?:[ \t][^\n]*\n)*", re.MULTILINE)
LINE = re.compile(r"^[ \t]+(?:ip router isis|isis)\b[^\n]*\n", re.MULTILINE)


def without_isis(text):
    """The text of a configuration without its IS-IS lines."""
    return LINE.sub("", PROCESS.sub("", text))


# ---- calls ----


def copy(folder, out, change, others=False):
    """Writes to `out` each FOLDER/*.cfg as changed, and with `others` the other files of the folder as they are."""
    folder, out = pathlib.Path(folder), pathlib.Path(out)
    out.mkdir(parents=True, exist_ok=True)
    for path in sorted(folder.iterdir()):
        if path.suffix == ".cfg":
            try:
                text = change(path.read_bytes().decode("latin-1"))
            except ValueError as error:
                sys.exit(f"{path}: {error}")
            (out / path.name).write_bytes(text.encode("latin-1"))
        elif others:
            shutil.copyfile(path, out / path.name)


def make_grid(given):
    if given.rows < 3 or given.columns < 3 or given.rows * given.columns > 200:
        sys.exit("3 rows and columns at least, and 200 routers at most")
    sys.stdout.write("".join(grid(given.rows, given.columns)))


def make_hostile(given):
    count, text = hostile(given.kind, given.bytes, given.lines)
    pathlib.Path(given.file).write_text(text)
    print(f"{count} interfaces, {given.lines} network lines")


def make_faulty(given):
    out = pathlib.Path(given.out)
    out.mkdir(parents=True, exist_ok=True)
    for place in range(given.files):
        (out / f"f{place:03d}.cfg").write_text(faulty_text(given.bytes // given.files, given.right))


def subcommands():
    """The reader of the words, with a call for each subcommand."""
    parser = argparse.ArgumentParser(description=__doc__, formatter_class=argparse.RawDescriptionHelpFormatter)
    commands = parser.add_subparsers(required=True, metavar="SUBCOMMAND")

    def add(name, call, said):
        words = commands.add_parser(name, help=said.split(":")[0].split(".")[0], description=said)
        words.set_defaults(call=call)
        return words

    words = add("grid", make_grid, "A grid of routers with many equal-cost ways. Each row and column is closed to a ring, by a "
                "link that is dear in OSPF alone. 3 rows and columns at least, and 200 routers at most.")
    words.add_argument("rows", type=int)
    words.add_argument("columns", type=int)
    for name, make, said in (("ring", ring, "A ring of N routers, up to 200, one link of which is dear in OSPF alone."),
                             ("lan", lan, "N routers on one LAN, up to 200."),
                             ("areas", areas, "N areas of ten routers, up to 19, behind a ring of border routers.")):
        words = add(name, lambda given, make=make: sys.stdout.write("".join(make(given.count))), said)
        words.add_argument("count", type=int, metavar="N")
    words = add("hostile", make_hostile, "A file that is dear to read: interfaces, and `network` lines of which none takes their "
                "addresses. With `blocks` the wildcards have no holes and are of all lengths, with `holes` all differ and have "
                "holes. All lines and all addresses differ, and no interface is of a kind that has a bandwidth, so that their "
                "area is looked up for their faults too. `migrate_bench read FILE` tells how long it takes to read.")
    words.add_argument("kind", choices=("blocks", "holes"))
    words.add_argument("file")
    words.add_argument("--bytes", type=int, default=16 << 20, help="of the file, 16 MiB unless given")
    words.add_argument("--lines", type=int, default=100_000, help="how many `network` lines, 100,000 unless given")
    words = add("faulty", make_faulty, "Files of faulty lines of every kind: what `survey` is measured on. With `--right` each has "
                "the right line in its place, so that `check` reads all of them and refuses their network.")
    words.add_argument("out", help="the folder of the files")
    words.add_argument("--right", action="store_true", help="right lines in place of the faulty ones")
    words.add_argument("--bytes", type=int, default=16 << 20, help="of all files together, 16 MiB unless given")
    words.add_argument("--files", type=int, default=200, help="how many files, 200 unless given")
    for name, call, said in (
            ("levels", lambda given: copy(given.folder, given.out, with_levels, others=True),
             "A copy with level 1 areas of a network whose routers all run level 2. A router off the backbone gets `is-type "
             "level-1`, one of the backbone and of another area `level-1-2`, one of the backbone alone `level-2-only`. Each OSPF "
             "area gets an IS-IS area of its own, as 49.0007 for area 7, and a border router is in that of its other area; with "
             "two of these it is an error. Areas are read from `network` lines. Other files are copied as they are."),
            ("fill", lambda given: copy(given.folder, given.out, lambda text: filled(text, given.size)),
             "A copy in which each file has exactly SIZE bytes. Lines that mean nothing to the planner are put before the last "
             "`end` line. A file that is longer already, or has no `end` line, is an error."),
            ("without-isis", lambda given: copy(given.folder, given.out, without_isis),
             "A copy without IS-IS: what `prepare` begins with. The `router isis` sections go, and the lines `ip router isis ..` "
             "and `isis ..` of interfaces.")):
        words = add(name, call, said)
        words.add_argument("folder", help="with a file *.cfg for each router")
        words.add_argument("out", help="the folder of the copies")
        if name == "fill":
            words.add_argument("size", type=int)
    return parser


if __name__ == "__main__":
    options = subcommands().parse_args()
    options.call(options)

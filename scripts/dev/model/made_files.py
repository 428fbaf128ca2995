"""The long files of crates/migrate_rows that its made.rt makes: those that the model has time for."""

import functools

FILE_MOST, DESIGN_MOST = 16777216, 1048576
ALONE = """hostname R1
interface Loopback0
 ip address 10.0.0.1 255.255.255.255
router ospf 1
 network 0.0.0.0 255.255.255.255 area 0
end
"""
LAST = {"both": "router isis\n net 49.0001.0000.0000.{:04}.00\n is-type level-2-only\n metric-style wide\n distance 255\n",
        "old": "", "new": " distance 255\n"}


@functools.cache
def made(name):
    """The text of a file of this name, None where it isn't made here."""
    make = {
        "made/16-mib.cfg": lambda: "!" * FILE_MOST,
        "made/16-mib-and-a-byte.cfg": lambda: "!" * (FILE_MOST + 1),
        "made/alone-up-to-16-mib.cfg": lambda: ALONE.ljust(FILE_MOST, "!"),
        "made/alone-up-to-16-mib-and-a-byte.cfg": lambda: ALONE.ljust(FILE_MOST + 1, "!"),
        "made/1-mib.toml": lambda: "#" * DESIGN_MOST,
        "made/1-mib-and-a-byte.toml": lambda: "#" * (DESIGN_MOST + 1),
        "made/2000-loopbacks.cfg": lambda: loopbacks(2000),
        "made/2001-loopbacks.cfg": lambda: loopbacks(2001),
        "made/4097-ranges.cfg": lambda: ranges(4097),
        "made/ring-of-20.cfg": lambda: ring(20, "both"),
        "made/ring-of-60.cfg": lambda: ring(60, "both"),
        "made/old-ring-of-20.cfg": lambda: ring(20, "old"),
        "made/new-ring-of-20.cfg": lambda: ring(20, "new"),
        "made/old-ring-of-200.cfg": lambda: ring(200, "old"),
        "made/halves-of-20.txt": lambda: halves(20),
    }.get(name)
    return make and make()


def halves(count):
    """An order of the routers of a ring: those before its middle link ascending, then the others descending."""
    routers = list(range(1, count // 2 + 1)) + list(range(count, count // 2, -1))
    return "order 1\n" + "".join(f"S{router:02}\n" for router in routers)


def loopbacks(count):
    lines = [f"interface Loopback{i}\n ip address 10.0.{i // 256}.{i % 256} 255.255.255.255\n" for i in range(count)]
    return f"hostname R1\n{''.join(lines)}end\n"


def ranges(count):
    lines = [f" area 1 range 10.20.{i // 256}.{i % 256} 255.255.255.255\n" for i in range(count)]
    return f"hostname R1\nrouter ospf 1\n{''.join(lines)}end\n"


def ring(count, kind):
    """A ring whose last link is dear for OSPF, and whose middle one is dear for IS-IS, or for the `new` OSPF."""
    return "".join(router(count, kind, number) for number in range(1, count + 1))


def router(count, kind, number):
    isis = " ip router isis\n" if kind == "both" else ""
    ends = end_of_link(count, kind, 0, number, 1) + end_of_link(count, kind, 1, number - 1 or count, 2)
    return (f"hostname S{number:02}\ninterface Loopback0\n ip address 10.0.0.{number} 255.255.255.255\n{isis}{ends}"
            f"router ospf {2 if kind == 'new' else 1}\n network 10.0.0.0 0.255.255.255 area 0\n{LAST[kind].format(number)}end\n")


def end_of_link(count, kind, place, link, end):
    cost, metric = 1000 if link == count else 1, 10000 if link == count // 2 else 10
    isis = f" ip router isis\n isis metric {metric}\n" if kind == "both" else ""
    return (f"interface GigabitEthernet0/{place}\n ip address 10.1.{link}.{end} 255.255.255.252\n"
            f" ip ospf cost {metric if kind == 'new' else cost}\n{isis}")

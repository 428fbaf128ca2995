"""The calls on whole files whose texts docs/operators.md quotes, and the files that they are on.

check_line_forms.py makes them with `--tries`. The files are those of the examples triangle, square and border, and some that
are made of them, or as other systems print theirs.
"""

XR = """!! IOS XR Configuration 7.3.2
hostname PE1
interface Loopback0
 ipv4 address 10.0.0.1 255.255.255.255
!
interface GigabitEthernet0/0/0/0
 ipv4 address 10.0.12.1 255.255.255.252
!
router ospf 1
 area 0
  interface Loopback0
   passive enable
  !
  interface GigabitEthernet0/0/0/0
   cost 10
  !
 !
!
end
"""
XR_ISIS = """router isis core
 net 49.0001.0000.0000.0001.00
 address-family ipv4 unicast
  metric-style wide
 !
"""
EOS = """hostname LEAF1
interface Loopback0
   ip address 10.0.0.1/32
router ospf 1
   router-id 10.0.0.1
end
"""
FRR = """frr version 8.4.4
hostname R1
interface lo
 ip address 10.0.0.1/32
 ip ospf area 0
exit
router ospf
exit
end
"""
NX_OS = """hostname N9K1
interface loopback0
  ip address 10.0.0.1/32
  ip router ospf 1 area 0.0.0.0
router ospf 1
"""
# What a session writes before and behind the configuration.
FRONT = """R1#terminal length 0
R1#show running-config
Building configuration...

Current configuration : 1234 bytes
!
version 15.4
"""
# A router without IS-IS that needs no routes: a change of it has no lines.
LACKING = """hostname R2
interface GigabitEthernet0/0
 ip address 10.0.12.2 255.255.255.252
router ospf 1
 network 10.0.0.0 0.0.255.255 area 0
end
"""
ITS_NEIGHBOR = LACKING.replace("R2", "R1").replace("12.2 ", "12.1 ").replace("252\n", "252\n ip router isis\n").replace("end\n", """\
router isis
 net 49.0001.0000.0000.0001.00
 metric-style wide
 distance 255
end
""")
JUNOS = """system {
    host-name MX1;
}
"""

# The words of a call, its status, and what it prints; what ends with two dots goes on.
CALLS = [
    # Files of other systems, and files that were damaged on their way.
    ("plan xr.cfg", 0, "order 2\nwave PE1\nchain PE1"),
    ("plan xr-isis.cfg", 5, "refused xr-isis.cfg 9 Unsupported"),
    ("plan xr-name.cfg", 5, "refused xr-name.cfg 9 SecondProcess"),
    ("plan eos.cfg", 5, "refused eos.cfg 3 BadAddress"),
    ("plan frr.cfg", 5, "refused frr.cfg 4 BadAddress"),
    ("plan nx-os.cfg", 5, "refused nx-os.cfg 6 NoEnd"),
    ("plan junos.cfg", 5, "refused junos.cfg 4 NoEnd"),
    ("plan flat.cfg", 0, "order 2\nwave R1\nchain R1"),
    ("plan flat-isis.cfg", 5, "refused flat-isis.cfg 17 Unsupported"),
    ("plan mark.cfg r2.cfg r3.cfg", 5, "refused mark.cfg 22 NoHostname"),
    ("plan banner-end.cfg r2.cfg r3.cfg", 5, "refused banner-end.cfg 25 NoHostname"),
    ("plan banner.cfg r2.cfg r3.cfg", 0, "order 2\nwave R3 is\nwave R2\nchain is R2"),
    ("plan cut.cfg r2.cfg r3.cfg", 5, "refused cut.cfg 22 NoEnd"),
    ("plan session.cfg r2.cfg r3.cfg", 5, "refused session.cfg 24 NoEnd"),
    ("plan front.cfg r2.cfg r3.cfg", 0, "order 2\nwave R1 R3\nwave R2\nchain R1 R2"),
    # The way in its order.
    ("plan d1.cfg d2.cfg d3.cfg", 7, "unsound new 10.0.0.1 missing R2"),
    ("plan --budget 1 d1.cfg d2.cfg d3.cfg", 7, "unsound new 10.0.0.1 missing R2"),
    ("plan --budget 1 down.cfg r2.cfg r3.cfg", 7, "unsound old 10.0.0.1 missing R2"),
    ("plan --budget 1 r1.cfg r2.cfg r3.cfg", 0, "order 2\nwave R1 R3\nwave R2\nchain R1 R2"),
    ("plan --budget 1 q1.cfg q2.cfg q3.cfg q4.cfg", 8, "tree 1\nbranch 10.0.0.3 R1:O R2:N\nopen"),
    ("plan q1.cfg q2.cfg q3.cfg q4.cfg", 1, "tree 1\nbranch 10.0.0.3 R1:O R2:N\nbranch 10.0.0.4 R1:N R2:O\nleaf R2 R1"),
    ("prepare design.toml d1.cfg d2.cfg d3.cfg", 0, "hostname R1.."),
    ("check waves.txt r1.cfg r2.cfg r3.cfg", 0, "safe 6 waves 2"),
    ("check unsafe.txt r1.cfg r2.cfg r3.cfg", 1, "unsafe 2 10.0.0.3 loop R1 R2"),
    ("scripts waves.txt r1.cfg r2.cfg r3.cfg", 0,
     "! wave 1\n! 1 R1\nrouter isis\n distance 115\n! 2 R1\nrouter ospf 1\n distance 255\n! 3 R3.."),
    ("scripts unsafe.txt r1.cfg r2.cfg r3.cfg", 0, "! 1 R2\nrouter isis\n distance 115.."),
    ("replay waves.txt journal.txt r1.cfg r2.cfg r3.cfg", 0, "at 2 of 6\nnext R1 2\nnext R3 2"),
    ("replay waves.txt begun.txt r1.cfg r2.cfg r3.cfg", 0, "at 0 of 6\nnext R1 1\nnext R3 1"),
    ("replay waves.txt back.txt r1.cfg r2.cfg r3.cfg", 0, "at 2 of 6\nnext R1 1"),
    ("scripts one-wave.txt neighbor.cfg lacking.cfg", 0,
     "! wave 1\n! 1 R1\nrouter isis\n distance 115\n! 2 R1\nrouter ospf 1\n distance 255\n! 3 R2\n! 4 R2\nrouter ospf 1\n"
     " distance 255\n! end"),
    ("replay one-wave.txt no-line.txt neighbor.cfg lacking.cfg", 1, "departs 4"),
    ("replay one-wave.txt each-line.txt neighbor.cfg lacking.cfg", 0, "at 4 of 4\ndone"),
    # The morning after.
    ("plan new.cfg r2.cfg r3.cfg", 5, "refused network NotAtStart R1"),
    ("check waves.txt new.cfg r2.cfg r3.cfg", 5, "refused network NotAtStart R1"),
    ("scripts waves.txt new.cfg r2.cfg r3.cfg", 5, "refused network NotAtStart R1"),
    ("replay waves.txt journal.txt new.cfg r2.cfg r3.cfg", 5, "refused network NotAtStart R1"),
    ("prepare design.toml new.cfg r2.cfg r3.cfg", 5, "refused design.toml routers.R1 AlreadyIsis"),
    # Too much, and what can't be read.
    ("plan many.cfg", 6, "limit routers 201"),
    ("plan r9.cfg", 3, "read fault r9.cfg"),
    # Lines with an effect that takes more than two routers to see.
    ("check fourth-first.txt b1.cfg b2.cfg b3.cfg b4.cfg", 0, "safe 8"),
    ("check fourth-first.txt b1.cfg b2-greatest.cfg b3.cfg b4-greatest.cfg", 1, "unsafe 2 10.1.2.0 loop R1 R4"),
]


def edited(text, *changes):
    for old, new in changes:
        assert old in text
        text = text.replace(old, new)
    return text


def write_files(examples, folder):
    """Writes all files of the calls into a folder."""
    for example, front in (("triangle", "r"), ("design", "d"), ("square", "q"), ("border", "b")):
        for file in (examples / example).glob("r?.cfg"):
            (folder / f"{front}{file.name[1:]}").write_text(file.read_text())
    for example, name, new in (("triangle", "waves.txt", "waves.txt"), ("triangle", "unsafe.txt", "unsafe.txt"),
                               ("triangle", "journal.txt", "journal.txt"), ("design", "design.toml", "design.toml")):
        (folder / new).write_text((examples / example / name).read_text())
    first, plain = ((folder / name).read_text() for name in ("r1.cfg", "d1.cfg"))
    texts = {
        "xr.cfg": XR, "xr-isis.cfg": edited(XR, ("router ospf 1\n", XR_ISIS + "router ospf 1\n")),
        "xr-name.cfg": edited(XR, ("ospf 1", "ospf CORE")),
        "eos.cfg": EOS, "frr.cfg": FRR, "nx-os.cfg": NX_OS, "junos.cfg": JUNOS,
        "flat.cfg": edited(plain, ("\n ", "\n")), "flat-isis.cfg": edited(first, ("\n ", "\n")),
        "mark.cfg": "\ufeff" + first,
        "banner-end.cfg": edited(first, ("R1\n", "R1\nbanner motd #\nend\n#\n")),
        "banner.cfg": edited(first, ("R1\n", "R1\nbanner motd #\nhostname is R1\n#\n")),
        "cut.cfg": edited(first, ("end\n", "")), "session.cfg": first + "interface Loopback9\n",
        "down.cfg": edited(first, ("252\n", "252\n shutdown\n")),
        "new.cfg": edited(first, ("area 0\n", "area 0\n distance 255\n"), ("wide\n distance 255\n", "wide\n")),
        "front.cfg": FRONT + first + "\nR1#exit\n", "lacking.cfg": LACKING, "neighbor.cfg": ITS_NEIGHBOR,
        "one-wave.txt": "order 2\nwave R1 R2\n", "no-line.txt": "journal 1\nR1 1\nR1 2\nR2 2\n",
        "each-line.txt": "journal 1\nR1 1\nR1 2\nR2 1\nR2 2\n",
        "begun.txt": "journal 1\n", "back.txt": "journal 1\nR3 1\nR3 2\n",
        "fourth-first.txt": "order 1\nR4\nR1\nR2\nR3\n",
        "many.cfg": "".join(f"hostname R{number}\nend\n" for number in range(201)),
    }
    for number in (2, 4):
        before = (folder / f"b{number}.cfg").read_text()
        texts[f"b{number}-greatest.cfg"] = edited(before, ("router ospf 1\n", "router ospf 1\n no compatible rfc1583\n"))
    for name, text in texts.items():
        (folder / name).write_text(text)

"""Configurations as routers print them: what a text says, or its least faulty line with the lowest kind of fault there."""

import re
from dataclasses import dataclass, field

from interface_lines import Interface, InterfaceLines, names_area
from process_lines import IsisLines, OspfLines, interface_name
from words import Refused, area_number, lines_of, number, word_at, words_of

# In the order in which they are told of one line.
KINDS = ("NoHostname", "NoEnd", "BadAddress", "BadMask", "BadCost", "BadArea", "SecondProcess", "Unsupported", "LoopbackMask",
         "BadNet", "BadLevel", "BadMetric", "BadDistance", "DistanceClash", "NoBandwidth")


@dataclass
class Configuration:
    """A router by its text. `process` is that of OSPF, None without it; a range is (area, base, length, advertised, cost)."""

    name: str
    process: int | None
    ospf_distance: int
    rfc1583: bool
    ranges: list
    stubs: dict
    has_isis: bool
    tag: str
    isis_area: str
    system: int
    levels: set[int]
    leaks: bool
    isis_distance: int
    interfaces: list[Interface]


@dataclass
class Section:
    """A line at indent 0, and the lines below it that stand at the indent of its first one."""

    line: int
    words: list[str]
    inner: list = field(default_factory=list)
    indent: int | None = None


@dataclass
class Gathered:
    """The lines of all sections of one interface, and the line of the first one."""

    line: int
    lines: list = field(default_factory=list)

    def is_in_vrf(self):
        return any(words[:2] == ["vrf", "forwarding"] or words[:3] == ["ip", "vrf", "forwarding"] for _, words in self.lines)


def indent_of(line):
    return len(line) - len(line.lstrip(" \t"))


def counted_lines(lines):
    """The lines that count, as (number, indent, words): those outside banners that have a word and don't begin with `!`.

    A line of the word `banner` with one ^C opens a banner, and counts; the next line with ^C ends it.
    """
    found, is_open = [], False
    for place, line in enumerate(lines):
        words = words_of(line)
        if is_open:
            is_open = "^C" not in line
        else:
            is_open = words[:1] == ["banner"] and line.count("^C") == 1
            if words and not words[0].startswith("!"):
                found.append((place + 1, indent_of(line), words))
    return found


def split_at_ends(lines):
    """The lines up to each `end`, each as (number, indent, words), with the number of that end, and the lines behind the last."""
    parts, now = [], []
    for number_of_line, indent, words in counted_lines(lines):
        if words == ["end"] and indent == 0:
            parts.append((now, number_of_line))
            now = []
        else:
            now.append((number_of_line, indent, words))
    return parts, now


def faults_of(text):
    """The faulty lines of a text, each with its least kind, and the configurations, which are of use where there are none."""
    lines, kinds = lines_of(text), {}
    parts, rest = split_at_ends(lines)

    def tell(line, kind):
        kinds[line] = min(KINDS.index(kind), kinds.get(line, len(KINDS)))
    if not parts or any(indent == 0 and words[0] in ("hostname", "interface", "router") for _, indent, words in rest):
        tell(len(lines) + 1, "NoEnd")
    configurations = [Reader(part, end, tell).read() for part, end in parts]
    return [(line, KINDS[kind]) for line, kind in sorted(kinds.items())], configurations


def read_configurations(file, text):
    """The configurations of a text, each of which has its `end`."""
    faults, configurations = faults_of(text)
    if faults:
        line, kind = faults[0]
        raise Refused(f"refused {file} {line} {kind}\n")
    return configurations


def sections_of(part):
    sections = []
    for line, indent, words in part:
        if indent == 0:
            sections.append(Section(line, words))
        elif sections:
            section = sections[-1]
            if section.indent is None:
                section.indent = indent
            if indent == section.indent:
                section.inner.append((line, words))
    return sections


def is_printable(word):
    return all("!" <= letter <= "~" for letter in word)


class Reader:
    """Reads one configuration. All its faulty lines are told; what is read beside one is of no matter."""

    def __init__(self, part, end, tell):
        self.sections, self.end, self.tell = sections_of(part), end, tell
        self.process, self.tag, self.isis_line = None, None, None
        self.interfaces = {}

    def read(self):
        name = self.read_heads()
        isis = self.read_isis()
        ospf = self.read_ospf()
        isis_area, system = isis.area_and_system()
        has_isis = self.tag is not None
        return Configuration(
            name=name, process=self.process, ospf_distance=ospf.distance, rfc1583=ospf.rfc1583,
            ranges=[(*place, *what) for place, what in ospf.ranges.items()],
            stubs={area: (has_no_summary, ospf.default_costs.get(area, 1)) for area, has_no_summary in ospf.stubs.items()},
            has_isis=has_isis, tag=self.tag or "", isis_area=isis_area, system=system, levels=isis.levels,
            leaks=isis.leaks and has_isis, isis_distance=isis.distance,
            interfaces=[self.read_interface(each, ospf, isis) for each in self.interfaces])

    def read_heads(self):
        """Gathers the interfaces, and gives the name of the router: that of the last good line."""
        name = None
        for section in self.sections:
            words, behind = section.words, word_at(section.words, 1)
            if words[0] == "hostname":
                if re.fullmatch("[A-Za-z0-9_.-]{1,63}", behind or ""):
                    name = behind
                else:
                    self.tell(section.line, "NoHostname")
            elif words[0] == "interface":
                self.gather(section)
            elif words[0] == "router" and behind in ("eigrp", "rip"):
                self.tell(section.line, "Unsupported")
            elif words[:2] == ["ip", "route"] and word_at(words, 2) != "vrf":
                self.tell(section.line, "Unsupported")
        if name is None:
            self.tell(self.end, "NoHostname")
        return name

    def gather(self, section):
        """Under a faulty first line nothing is said."""
        name = interface_name(section.words[1:])
        if name is None or name == "default" or not is_printable(name):
            self.tell(section.line, "Unsupported")
        else:
            self.interfaces.setdefault(name, Gathered(section.line)).lines.extend(section.inner)

    def read_isis(self):
        """The lines of `router isis`, whose sections have one tag. Those of a second one, or of a faulty one, say nothing."""
        isis = IsisLines(self.tell)
        for section in self.sections:
            if section.words[:2] != ["router", "isis"]:
                continue
            tag = word_at(section.words, 2) or ""
            if self.tag is None:
                self.tag, self.isis_line = tag, section.line
            if not is_printable(tag):
                self.tell(section.line, "Unsupported")
            if tag != self.tag:
                self.tell(section.line, "SecondProcess")
            for line, words in section.inner if tag == self.tag and is_printable(tag) else []:
                isis.take(line, words)
        if self.tag is not None and not isis.has_net_line:
            self.tell(self.isis_line, "BadNet")
        if self.tag is not None and not isis.has_style_line:
            self.tell(self.isis_line, "Unsupported")
        return isis

    def read_ospf(self):
        """The lines of `router ospf`, and the number of the process, which interfaces may name too: the first in the text."""
        ospf, own = OspfLines(self.tell), []
        for section in self.sections:
            if section.words[:2] == ["router", "ospf"]:
                if word_at(section.words, 3) == "vrf" and len(section.words) > 4:
                    continue
                if self.meet_process(section.line, word_at(section.words, 2)):
                    own += section.inner
            elif section.words[0] == "interface":
                gathered = self.interfaces.get(interface_name(section.words[1:]))
                for line, words in section.inner if gathered and not gathered.is_in_vrf() else []:
                    if names_area(words) and area_number(word_at(words, 4)) is not None:
                        self.meet_process(line, words[2])
        for line, words in own:
            ospf.take(line, words)
        return ospf

    def meet_process(self, line, word):
        """Takes note of a process; whether it is the router's."""
        process = number(word, 65535, 1)
        if process is not None and self.process is None:
            self.process = process
        if process is None or self.process != process:
            self.tell(line, "SecondProcess")
        return process is not None and self.process == process

    def read_interface(self, name, ospf, isis):
        gathered = self.interfaces[name]
        lines = InterfaceLines(self.tell, self.process, self.tag)
        for line, words in gathered.lines if not gathered.is_in_vrf() else []:
            lines.take(line, words)
        return lines.interface(name, gathered.line, ospf, isis if self.tag is not None else None)

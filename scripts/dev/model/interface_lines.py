"""What the lines under `interface` say, and what an interface is by them and by the processes."""

import re
from dataclasses import dataclass, field

from process_lines import COST_MOST, LEVELS
from words import address, area_number, base_of, mask, number, word_at

# In kilobits a second, of interfaces without a line that says it.
BANDWIDTHS = {"TenGigabitEthernet": 10000000, "GigabitEthernet": 1000000, "FastEthernet": 100000, "Ethernet": 10000,
              "Serial": 1544}


@dataclass
class Interface:
    """An interface of a router. Its area is None where it has no OSPF, its levels are none where it has no IS-IS."""

    name: str
    is_loopback: bool
    address: int | None
    subnet: tuple[int, int] | None
    is_up: bool
    area: int | None
    cost: int
    is_ospf_passive: bool
    levels: set[int]
    metrics: dict[int, int]
    is_isis_passive: bool
    # Whether a line says its IS-IS levels or a metric, which an interface without IS-IS may have too.
    has_isis_line: bool = field(compare=False)


def names_area(words):
    """Whether a line is of the form `ip ospf P area N`."""
    return words[:2] == ["ip", "ospf"] and word_at(words, 2) not in ("cost", "network") and word_at(words, 3) == "area"


class InterfaceLines:
    """The lines of an interface, from all its sections. `process` is the OSPF process, `tag` that of IS-IS, None without it."""

    def __init__(self, tell, process, tag):
        self.tell, self.process, self.tag = tell, process, tag
        self.address, self.length, self.address_line = None, None, None
        self.is_shut, self.bandwidth, self.has_bandwidth_line, self.cost = False, None, False, None
        self.has_area_line, self.area = False, None
        self.is_point_to_point, self.runs_isis = None, False
        self.levels, self.metric, self.level_metrics = {1, 2}, None, {}
        self.has_isis_line = False

    def take(self, line, words):
        word, two = words[0], words[:2]
        if two == ["ip", "address"]:
            self.take_address(line, words)
        elif words[:3] == ["no", "ip", "address"]:
            self.set_address(None, None, None)
        elif two == ["ip", "unnumbered"]:
            self.tell(line, "Unsupported")
        elif word == "shutdown":
            self.is_shut = True
        elif two == ["no", "shutdown"]:
            self.is_shut = False
        elif word == "bandwidth" and re.match("[0-9]", word_at(words, 1) or ""):
            self.take_bandwidth(line, words[1])
        elif two == ["ip", "ospf"]:
            self.take_ospf(line, words)
        elif words[:3] == ["ip", "router", "isis"]:
            self.runs_isis = True
            if self.tag is None:
                self.tell(line, "BadNet")
            elif (word_at(words, 3) or "") != self.tag:
                self.tell(line, "SecondProcess")
        elif two == ["isis", "circuit-type"]:
            self.has_isis_line = True
            if word_at(words, 2) in LEVELS:
                self.levels = LEVELS[words[2]]
            else:
                self.tell(line, "BadLevel")
        elif two == ["isis", "metric"]:
            self.take_metric(line, words)

    def set_address(self, value, length, line):
        self.address, self.length, self.address_line = value, length, line

    def take_address(self, line, words):
        self.set_address(None, None, None)
        if word_at(words, 2) in ("dhcp", "negotiated"):
            self.tell(line, "Unsupported")
            return
        value, length = address(word_at(words, 2)), mask(word_at(words, 3))
        is_second = word_at(words, 4) == "secondary"
        if value is None:
            self.tell(line, "BadAddress")
        elif length is None:
            self.tell(line, "BadMask")
        elif not is_second:
            self.set_address(value, length, line)
        if is_second:
            self.tell(line, "Unsupported")

    def take_bandwidth(self, line, word):
        value = number(word, 1000000000, 1)
        if value is None:
            self.tell(line, "NoBandwidth")
        self.bandwidth, self.has_bandwidth_line = value, True

    def take_ospf(self, line, words):
        if word_at(words, 2) == "cost":
            value = number(word_at(words, 3), 65535, 1)
            if value is None:
                self.tell(line, "BadCost")
            self.cost = value or 1
        elif word_at(words, 2) == "network":
            self.is_point_to_point = word_at(words, 3) == "point-to-point"
            if word_at(words, 3) not in ("point-to-point", "broadcast"):
                self.tell(line, "Unsupported")
        elif names_area(words):
            area, process = area_number(word_at(words, 4)), number(words[2], 65535, 1)
            if area is None:
                self.tell(line, "BadArea")
            elif process is None:
                self.tell(line, "SecondProcess")
            self.has_area_line = True
            self.area = area if process is not None and process == self.process else None

    def take_metric(self, line, words):
        self.has_isis_line = True
        value, level = number(word_at(words, 2), COST_MOST, 1), word_at(words, 3)
        if level not in (None, "level-1", "level-2"):
            self.tell(line, "BadLevel")
        if value is None:
            self.tell(line, "BadMetric")
        elif level is None:
            self.metric = value
        else:
            self.level_metrics[level] = value

    def interface(self, name, head_line, ospf, isis):
        """The interface, by its lines and those of the processes; `isis` is None where there is no such process."""
        has_address, is_loopback = self.address is not None, name.startswith("Loopback")
        is_up = has_address and not self.is_shut
        if is_up and is_loopback and self.length != 32 and not self.is_point_to_point:
            self.tell(self.address_line, "LoopbackMask")
        area = (self.area if self.has_area_line else ospf.area_of(self.address)) if has_address else None
        is_isis_passive = isis is not None and isis.passive.get(name, False)
        runs = isis is not None and has_address and (self.runs_isis or is_isis_passive)
        levels = set() if not runs else set(isis.levels) if is_isis_passive else isis.levels & self.levels
        of_all = self.metric if self.metric is not None else isis.metric if runs else 10
        return Interface(
            name=name, is_loopback=is_loopback, address=self.address,
            subnet=(base_of(self.address, self.length), self.length) if has_address else None, is_up=is_up, area=area,
            cost=1 if area is None else self.ospf_cost(name, head_line, is_up, ospf.reference),
            is_ospf_passive=ospf.passive.get(name, ospf.passive_default), levels=levels,
            metrics={level: self.level_metrics.get(f"level-{level}", of_all) if runs else 10 for level in (1, 2)},
            is_isis_passive=is_isis_passive, has_isis_line=self.has_isis_line)

    def ospf_cost(self, name, head_line, is_up, reference):
        """The cost of its line, or the reference bandwidth over its own, from 1 to 65,535."""
        if self.cost is not None or name.startswith("Loopback"):
            return self.cost or 1
        bandwidth = self.bandwidth or BANDWIDTHS.get(re.match("[A-Za-z]*", name).group())
        if bandwidth is None:
            if is_up and not self.has_bandwidth_line:
                self.tell(head_line, "NoBandwidth")
            return 1
        return min(65535, max(1, reference * 1000 // bandwidth))

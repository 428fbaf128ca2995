"""What the lines under `router ospf` and `router isis` say of a router.

`tell(line, kind)` takes the number of a faulty line and the kind of its fault; a line that has one sets nothing, or what keeps
other lines from being told beside it.
"""

import re

from words import address, area_number, base_of, mask, number, word_at

LEVELS = {"level-1": {1}, "level-1-2": {1, 2}, "level-2-only": {2}}
COST_MOST = 16777214
NOT_UNDER_OSPF = ("redistribute", "default-information", "distribute-list", "max-metric", "summary-address", "shutdown")
NOT_UNDER_ISIS = ("default-information", "summary-address", "set-overload-bit", "max-metric", "advertise", "distribute-list")
NOT_OF_AN_AREA = ("nssa", "virtual-link", "sham-link", "filter-list")


def interface_name(words):
    """The name of an interface behind the word `interface`: its kind may stand apart from its number."""
    if not words:
        return None
    if not re.search("[0-9]", words[0]) and len(words) > 1:
        return words[0] + words[1]
    return words[0]


class OspfLines:
    """The lines of an OSPF process."""

    def __init__(self, tell):
        self.tell = tell
        self.networks = []
        self.passive_default, self.passive = False, {}
        self.reference = 100
        self.stubs, self.default_costs, self.ranges = {}, {}, {}
        self.rfc1583, self.distance = True, 110

    def take(self, line, words):
        word, behind = words[0], word_at(words, 1)
        if word == "network":
            self.take_network(line, words)
        elif "passive-interface" in (word, behind if word == "no" else None):
            self.take_passive(words[2:] if word == "no" else words[1:], word != "no")
        elif word == "auto-cost" and behind == "reference-bandwidth":
            value = number(word_at(words, 2), 4294967, 1)
            if value is None:
                self.tell(line, "BadCost")
            else:
                self.reference = value
        elif word == "area":
            self.take_area(line, words)
        elif word == "distance":
            self.take_distance(line, words)
        elif word == "compatible" and behind == "rfc1583":
            self.rfc1583 = True
        elif words[:3] == ["no", "compatible", "rfc1583"]:
            self.rfc1583 = False
        elif word in NOT_UNDER_OSPF:
            self.tell(line, "Unsupported")

    def take_network(self, line, words):
        base, wildcard, area = address(word_at(words, 1)), address(word_at(words, 2)), area_number(word_at(words, 4))
        if base is None or wildcard is None or word_at(words, 3) != "area":
            self.tell(line, "BadAddress")
        elif area is None:
            self.tell(line, "BadArea")
        else:
            self.networks.append((base, wildcard, area))

    def take_passive(self, words, is_on):
        if words and words[0] == "default":
            self.passive_default = is_on
        elif words:
            self.passive[words[0]] = is_on

    def take_area(self, line, words):
        area, form = area_number(word_at(words, 1)), word_at(words, 2)
        if form == "stub":
            if not area:
                self.tell(line, "BadArea")
            else:
                self.stubs[area] = word_at(words, 3) == "no-summary"
        elif form == "default-cost":
            cost = number(word_at(words, 3), COST_MOST)
            if area is None:
                self.tell(line, "BadArea")
            if cost is None:
                self.tell(line, "BadCost")
            self.default_costs[area] = cost
        elif form == "range":
            self.take_range(line, area, words)
        elif form in NOT_OF_AN_AREA:
            self.tell(line, "Unsupported")

    def take_range(self, line, area, words):
        base, length, rest = address(word_at(words, 3)), mask(word_at(words, 4)), words[5:]
        is_advertised, cost = True, None
        for value, kind in ((area, "BadArea"), (base, "BadAddress"), (length, "BadMask")):
            if value is None:
                self.tell(line, kind)
        if rest and rest[0] in ("advertise", "not-advertise"):
            is_advertised = rest[0] == "advertise"
            rest = rest[1:]
        if rest and rest[0] == "cost":
            cost = number(word_at(rest, 1), COST_MOST)
            if cost is None:
                self.tell(line, "BadCost")
            rest = rest[2:]
        if rest:
            self.tell(line, "Unsupported")
        if None not in (area, base, length):
            self.ranges[area, base_of(base, length), length] = (is_advertised, cost)

    def take_distance(self, line, words):
        value = number(word_at(words, 1), 255, 1)
        if word_at(words, 1) == "ospf" or len(words) > 2:
            if word_at(words, 1) != "ospf" and value is None:
                self.tell(line, "BadDistance")
            self.tell(line, "Unsupported")
        elif value is None:
            self.tell(line, "BadDistance")
        elif value == 115:
            self.tell(line, "DistanceClash")
        else:
            self.distance = value

    def area_of(self, value):
        """The area of an address by the first `network` line that holds it."""
        return next((area for base, wildcard, area in self.networks if (value ^ base) & ~wildcard & 0xFFFFFFFF == 0), None)


class IsisLines:
    """The lines of an IS-IS process."""

    def __init__(self, tell):
        self.tell = tell
        self.net, self.has_net_line, self.has_style_line = None, False, False
        self.levels, self.metric, self.distance = {1, 2}, 10, 115
        self.passive, self.leaks = {}, False

    def take(self, line, words):
        word, behind = words[0], word_at(words, 1)
        if word == "net":
            self.take_net(line, behind)
        elif word == "is-type":
            if behind in LEVELS:
                self.levels = LEVELS[behind]
            else:
                self.tell(line, "BadLevel")
        elif word == "metric-style":
            self.has_style_line = True
            if words[1:] != ["wide"]:
                self.tell(line, "Unsupported")
        elif word == "metric":
            value = number(behind, COST_MOST, 1)
            if value is None:
                self.tell(line, "BadMetric")
            else:
                self.metric = value
        elif word == "distance":
            value = number(behind, 255)
            if value not in (115, 255):
                self.tell(line, "BadDistance")
            else:
                self.distance = value
        elif "passive-interface" in (word, behind if word == "no" else None):
            self.take_passive(line, words[2:] if word == "no" else words[1:], word != "no")
        elif words == "redistribute isis ip level-2 into level-1".split():
            self.leaks = True
        elif word == "redistribute" or word in NOT_UNDER_ISIS:
            self.tell(line, "Unsupported")

    def take_net(self, line, word):
        if re.fullmatch(r"[0-9A-Fa-f]{2}(\.[0-9A-Fa-f]{4}){3,9}\.00", word or ""):
            self.net = word
        else:
            self.tell(line, "BadNet")
        if self.has_net_line:
            self.tell(line, "Unsupported")
        self.has_net_line = True

    def take_passive(self, line, words, is_on):
        if words and words[0] == "default":
            self.tell(line, "Unsupported")
        elif words:
            self.passive[words[0]] = is_on

    def area_and_system(self):
        """The area of the network entity title, as its groups, and its system identifier."""
        if self.net is None:
            return "", 0
        groups = self.net.split(".")
        return ".".join(groups[:-4]), int("".join(groups[-4:-1]), 16)

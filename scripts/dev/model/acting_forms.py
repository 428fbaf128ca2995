"""Lines that the planner skips though a router acts on them: the forms of docs/profile.md, "Lines that have no meaning here".

A form is its first words, of which `*` is any word; other words may stand behind. Authentication, timers, MTU and network types,
which act where they differ at two ends, have no form of one line.
"""

FORMS = {
    "interface": ("ip policy route-map", "ip ospf prefix-suppression", "ip ospf database-filter", "ip ospf multi-area",
                  "ip ospf shutdown", "isis protocol shutdown", "no isis advertise prefix",
                  "tunnel mpls traffic-eng autoroute announce", "ip access-group", "ip verify unicast", "ip nat"),
    "ospf": ("prefix-suppression", "no discard-route", "discard-route * *", "neighbor * database-filter", "mpls ldp sync",
             "table-map", "neighbor * cost"),
    "isis": ("protocol shutdown", "mpls ldp sync", "set-attached-bit route-map", "distance * * *", "table-map"),
    "top": ("ip local policy route-map", "router *", "ip default-network"),
}
# Words that make any line of a process one that acts, unless it takes something back.
POLICIES = ("route-map", "prefix-list")


def is_of(form, words):
    parts = form.split(" ")
    return len(words) >= len(parts) and all(part in ("*", word) for part, word in zip(parts, words))


def acts(place, words):
    """Whether a line acts; `place` is what section it stands in, or `top` for the first line of one."""
    if place in ("ospf", "isis") and words[0] != "no" and any(word in POLICIES for word in words):
        return True
    # OSPF and IS-IS are what is read, and those two that are refused stand in no network.
    is_read = place == "top" and words[:2] in (["router", "ospf"], ["router", "isis"])
    return not is_read and any(is_of(form, words) for form in FORMS.get(place, ()))

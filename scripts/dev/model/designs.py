"""Designs, the IS-IS that a network is to have: what a design file says, what it settles for a network, the lines that come of
it, and the design that a network makes of its OSPF costs.
"""

import re
import tomllib
from dataclasses import dataclass

from configurations import split_at_ends
from process_lines import COST_MOST
from words import Refused, lines_of

DESIGN_MOST = 1048576
# In the order in which they are told, whatever the path.
KINDS = ("NotToml", "UnknownKey", "WrongKind", "BadArea", "BadLevel", "BadMetric", "UnknownRouter", "UnknownInterface",
         "AlreadyIsis")
LEVEL_WORDS = {"1": "level-1", "1-2": "level-1-2", "2": "level-2-only"}
TABLES = {"top": {"area": "area", "level": "level", "metric": "metric", "routers": "routers"},
          "router": {"area": "area", "level": "level", "metric": "metric", "leak": "flag", "interfaces": "interfaces"},
          "interface": {"metric": "metric", "level": "level", "passive": "flag"}}


def is_area(word):
    """Two hexadecimal digits, then at most six groups of a dot and four."""
    return re.fullmatch(r"[0-9A-Fa-f]{2}(\.[0-9A-Fa-f]{4}){0,6}", word) is not None


def value_fault(kind, value):
    """The kind of fault of a value of this kind of key."""
    if kind in ("area", "level"):
        if not isinstance(value, str):
            return "WrongKind"
        is_good = is_area(value) if kind == "area" else value in LEVEL_WORDS
        return None if is_good else "BadArea" if kind == "area" else "BadLevel"
    if kind == "metric":
        if not isinstance(value, int) or isinstance(value, bool):
            return "WrongKind"
        return None if 1 <= value <= COST_MOST else "BadMetric"
    wanted = bool if kind == "flag" else dict
    return None if isinstance(value, wanted) else "WrongKind"


def faults_in(table, place, path):
    """All faults of a table at a place and a path, as (kind, path)."""
    found = []
    for key, value in table.items():
        below = f"{path}.{key}" if path else key
        kind = {"routers": "router", "interfaces": "interface"}.get(place) or TABLES[place].get(key)
        fault = "UnknownKey" if kind is None else value_fault(kind, value)
        if fault:
            found.append((fault, below))
        elif isinstance(value, dict):
            found += faults_in(value, kind, below)
    return found


def refuse_least(file, faults):
    """The fault of the lowest kind is told, and of that kind the one at the least path in byte order."""
    if faults:
        kind, path = min(faults, key=lambda fault: (KINDS.index(fault[0]), fault[1].encode()))
        raise Refused(f"refused {file} {path.encode().decode('latin-1')} {kind}\n")


def read_design(file, text):
    """The tables of a design file, with no fault in them by themselves."""
    try:
        design = tomllib.loads(text.encode("latin-1").decode("utf-8"))
    except (tomllib.TOMLDecodeError, UnicodeDecodeError):
        refuse_least(file, [("NotToml", "-")])
    refuse_least(file, faults_in(design, "top", "") + ([] if "area" in design else [("BadArea", "area")]))
    return design


@dataclass
class Settled:
    """What is settled for a router; `interfaces` has (name, metric, passive, level or None)."""

    area: str
    level: str
    leaks: bool
    interfaces: list


def settle(file, design, network):
    """What a design settles for each router of a network."""
    faults, routers = [], design.get("routers", {})
    for name, table in routers.items():
        if name not in network.number:
            faults.append(("UnknownRouter", f"routers.{name}"))
            continue
        there = {each.name for each in network.configurations[network.number[name]].interfaces if each.address is not None}
        faults += [("UnknownInterface", f"routers.{name}.interfaces.{interface}")
                   for interface in table.get("interfaces", {}) if interface not in there]
    faults += [("AlreadyIsis", f"routers.{each.name}") for each in network.configurations if each.has_isis]
    refuse_least(file, faults)
    return [settled_router(design, routers.get(each.name, {}), each) for each in network.configurations]


def settled_router(design, own, configuration):
    metric = own.get("metric", design.get("metric", 10))
    named, interfaces = own.get("interfaces", {}), []
    for each in configuration.interfaces:
        if each.address is not None and (each.area is not None or each.name in named):
            said = named.get(each.name, {})
            interfaces.append((each, said.get("metric", metric),
                               said.get("passive", each.is_loopback or each.is_ospf_passive), said.get("level")))
    area, level = own.get("area", design["area"]), own.get("level", design.get("level", "2"))
    return Settled(area, level, own.get("leak", False), interfaces)


# ---- the lines of a router ----


def router_lines(number, settled):
    """The lines that a router of this number gets before its `end` line."""
    lines = ["router isis", f" net {settled.area}.0000.0000.{number + 1:04}.00", f" is-type {LEVEL_WORDS[settled.level]}",
             " metric-style wide", " distance 255"]
    if settled.leaks:
        lines.append(" redistribute isis ip level-2 into level-1")
    lines += [f" passive-interface {each.name}" for each, _, is_passive, _ in settled.interfaces if is_passive]
    for each, metric, is_passive, level in settled.interfaces:
        lines.append(f"interface {each.name}")
        if not is_passive:
            lines.append(" ip router isis")
            if level is not None or each.has_isis_line:
                lines.append(f" isis circuit-type {LEVEL_WORDS[level or '1-2']}")
        lines.append(f" isis metric {metric}")
        if each.has_isis_line:
            lines += [f" isis metric {metric} level-1", f" isis metric {metric} level-2"]
    return lines


def blocks_of(design_file, network):
    """For each router by name the lines that a design gives it."""
    settled = settle(design_file[0], read_design(*design_file), network)
    return {name: router_lines(number, settled[number]) for number, name in enumerate(network.names)}


def prepare(design_file, files, names, network):
    """The files with the new lines before each `end` line, each to its last `end` line; `names` has the routers of each file."""
    blocks, text = blocks_of(design_file, network), ""
    for (_, old), routers in zip(files, names):
        pieces, begin = old.split("\n"), 0
        pieces = [piece + "\n" for piece in pieces[:-1]] + [pieces[-1]]
        ends = [end for _, end in split_at_ends(lines_of(old))[0]]
        new = ""
        for name, end in zip(routers, ends):
            new += "".join(pieces[begin:end - 1]) + "".join(line + "\n" for line in blocks[name]) + pieces[end - 1]
            begin = end
        text += new if new.endswith("\n") else new + "\n"
    return text, 0


def delta(design_file, names, network):
    """The new lines alone, router by router as the files have them."""
    blocks = blocks_of(design_file, network)
    return "".join(line + "\n" for routers in names for name in routers for line in [f"! router {name}", *blocks[name]]), 0


# ---- a design of OSPF costs ----


def key_text(key):
    """A key as TOML writes it: bare where it can be, literal where that needs no escape, else basic."""
    if re.fullmatch("[A-Za-z0-9_-]+", key):
        return key
    if ("\\" in key or '"' in key) and "'" not in key:
        return f"'{key}'"
    return '"' + key.replace("\\", "\\\\").replace('"', '\\"') + '"'


def design(area, level, network):
    """A design in which each interface with an address and an OSPF area has its OSPF cost as its metric."""
    text = f'area = "{area}"\nlevel = "{level}"\n'
    for each in network.configurations:
        path = f"routers.{key_text(each.name)}.interfaces"
        costs = {interface.name: interface.cost for interface in each.interfaces
                 if interface.address is not None and interface.area is not None}
        # A header stands before lines or before an empty table.
        text += "" if costs else f"\n[{path}]\n"
        text += "".join(f"\n[{path}.{key_text(name)}]\nmetric = {costs[name]}\n" for name in sorted(costs))
    return text, 0

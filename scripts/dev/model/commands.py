"""The commands: what each answers, as a text and a code, from the words of a call and the files that it names.

`sample` isn't modelled. Of refused words the first line alone is.
"""

from configurations import read_configurations
from designs import DESIGN_MOST, LEVEL_WORDS, delta, design, is_area, prepare
from failures import failures
from forwarding import NEW, NEW_DISTANCE, OLD, UNUSED_DISTANCE, Missing, Mixed, change_times, router_times
from networks import build, look_at_pair, look_at_start
from order_files import Departs, Journal, flat_run, is_of_changes, read_changes, read_order
from pictures import picture
from reasons import change_reasons, packet_way, reasons, spans_of, times_spans
from running_night import observe
from search import Changes, Routers, Search
from shown import tables_text
from tables import isis_tables, ospf_tables
from surveys import survey
from trees import tree_text, verdict
from words import Refused, address_text, number, word_at

FILE_MOST, TOTAL_MOST, FILES_MOST = 16777216, 67108864, 200
WAVE_MOST = 4294967295
# What an option says, None where it is off its range, and what holds where it isn't given.
BUDGET = {"--budget": (lambda word: number(word, 100000, 1), 10000)}
COSTS = {"--area": (lambda word: word if is_area(word) else None, "49.0001"),
         "--level": (lambda word: word if word in LEVEL_WORDS else None, "2")}
# For each command how many files of its own it takes, how many networks in one file each (None: any number of files), its
# options, and the range of the number that stands before the files.
COMMANDS = {
    "check": (1, None, {}, None), "plan": (0, None, BUDGET, None), "refute": (1, None, {}, None), "scripts": (1, None, {}, None),
    "replay": (2, None, {}, None), "twopass": (0, None, BUDGET, None), "replan": (2, None, BUDGET, None),
    "rollback": (2, None, {}, None), "observe": (2, None, {}, None), "pair": (0, 2, BUDGET, None),
    "pairscripts": (1, 2, {}, None), "paircheck": (1, 2, {}, None), "pairrefute": (1, 2, {}, None),
    "prepare": (1, None, {}, None), "delta": (1, None, {}, None), "design": (0, None, COSTS, None),
    "split": (1, None, {}, (1, WAVE_MOST)), "tables": (0, None, {}, None),
    "survey": (0, None, {}, None), "why": (1, None, {}, None), "picture": (1, None, {}, None),
    "failures": (1, None, {}, None),
}
# Those that ask of no network that a migration begins there.
WITHOUT_START = ("prepare", "delta", "design", "tables")


def answer(words, read):
    """The answer of a call. `read` gives the text of a file by its name, None where it can't be read."""
    try:
        command, own, networks, said = call_of(words)
        files = read_files(command, own, networks, read)
        return decide(command, files[:len(own)], files[len(own):], said)
    except Refused as refused:
        return refused.text, refused.code
    except Departs as departs:
        return f"departs {departs.line}\n", 1


def call_of(words):
    """The command of a call, its own files, those of its networks, and what its options and its number say."""
    if not words or words[0] not in COMMANDS:
        refuse_words()
    own, networks, options, limits = COMMANDS[words[0]]
    said, names = options_of(options, words[1:])
    plain = names[:names.index("--")] if "--" in names else names
    files = plain + names[len(plain) + 1:]
    if limits:
        said["N"] = number(word_at(files, 0), limits[1], limits[0])
        files = files[1:]
    is_count = len(files) > own if networks is None else len(files) == own + networks
    if not is_count or None in said.values() or any(word.startswith("-") for word in plain):
        refuse_words()
    return words[0], files[:own], files[own:], said


def refuse_words():
    raise Refused("words refused\n", 2)


def options_of(options, words):
    """What the options of a call say, each at most once and anywhere before `--`, and the other words."""
    said, others, left = {}, [], list(words)
    while left and left[0] != "--":
        name, sign, value = left.pop(0).partition("=")
        if name in options and (sign or left):
            if name in said or not sign and left[0].startswith("-"):
                refuse_words()
            said[name] = options[name][0](value if sign else left.pop(0))
        else:
            others.append(name + sign + value)
    return {name: default for name, (_, default) in options.items()} | said, others + left


def read_files(command, own, networks, read):
    """All files as (name, text), before one is looked at."""
    if len(networks) > FILES_MOST:
        raise Refused(f"limit files {len(networks)}\n", 6)
    files, total = [], 0
    for place, name in enumerate(own + networks):
        text = read(name)
        if text is None:
            raise Refused(f"read fault {name}\n", 3)
        if len(text) > (DESIGN_MOST if place < len(own) and command in ("prepare", "delta") else FILE_MOST):
            raise Refused(f"limit bytes {name}\n", 6)
        total += len(text) if place >= len(own) else 0
        if total > TOTAL_MOST:
            raise Refused(f"limit total {total}\n", 6)
        files.append((name, text))
    return files


def decide(command, own, files, said):
    """What a command decides of its own files and those of its networks."""
    if command.startswith("pair"):
        return decide_pair(command, own, files, said)
    if command == "observe":
        return observe(*own, files)
    if command == "survey":
        return survey(files)
    configurations = [read_configurations(*file) for file in files]
    network = build([each for there in configurations for each in there])
    if command in WITHOUT_START:
        return decide_anywhere(command, own, files, [[each.name for each in there] for there in configurations], network, said)
    look_at_start(network)
    if command in ("plan", "twopass", "refute"):
        mixed = mixed_of(network)
        if command == "refute":
            return verdict(mixed, own[0][1])
        return plan(mixed, said["--budget"], Changes(mixed) if command == "twopass" else Routers(mixed))
    if command in ("check", "why") and is_of_changes(own[0][1]):
        return (check_changes if command == "check" else why_changes)(network, own[0])
    version, ranks = read_order(own[0], network)
    if command == "check":
        return check(mixed_of(network), version, ranks)
    if command == "failures":
        return failures_of(network, version, ranks)
    if command in ("why", "picture"):
        return (why if command == "why" else draw)(mixed_of(network), version, ranks)
    if command == "split":
        return split(mixed_of(network), version, ranks, said["N"])
    if command == "scripts":
        return scripts(version, ranks, network.names, [isis_lines(each, NEW_DISTANCE) for each in network.configurations],
                       [ospf_lines(each, UNUSED_DISTANCE) for each in network.configurations])
    journal = Journal(network, ranks, own[1][1])
    if command == "replay":
        return replay(network, journal)
    return rollback(network, journal) if command == "rollback" else plan_rest(mixed_of(network), said["--budget"], journal.made)


def decide_anywhere(command, own, files, names, network, said):
    """The same of the commands that ask no start. `names` has the routers of each file."""
    if command == "tables":
        return tables_text(network, ospf_tables(network), isis_tables(network)), 0
    if command == "design":
        return design(said["--area"], said["--level"], network)
    return prepare(own[0], files, names, network) if command == "prepare" else delta(own[0], names, network)


def decide_pair(command, own, files, said):
    """The same of two OSPF networks: the tables of the second one are the new ones."""
    configurations = [read_configurations(*file) for file in files]
    old, new = map(build, configurations)
    look_at_start(old)
    look_at_pair(old, new)
    if command in ("paircheck", "pairscripts"):
        version, ranks = read_order(own[0], old)
        if command == "pairscripts":
            return scripts(version, ranks, old.names, [ospf_lines(each, NEW_DISTANCE) for each in new.configurations],
                           [ospf_lines(each, UNUSED_DISTANCE) for each in old.configurations])
    mixed = Mixed(old, ospf_tables(old), ospf_tables(new))
    if command == "paircheck":
        return check(mixed, version, ranks)
    return plan(mixed, said["--budget"], Routers(mixed)) if command == "pair" else verdict(mixed, own[0][1], versions=(1,))


def mixed_of(network):
    return Mixed(network, ospf_tables(network), isis_tables(network))


# ---- orders are judged ----


def fault_text(network, fault):
    if isinstance(fault, Missing):
        return f"{address_text(fault.address)} missing {network.names[fault.router]}"
    return f"{address_text(fault.address)} loop " + " ".join(network.names[router] for router, _ in fault.turns)


def check(mixed, version, ranks):
    return told_of_list(mixed, version, ranks, fault_of_list(mixed, version, ranks))


def fault_of_list(mixed, version, ranks):
    """The first fault with its number: of version 1 of the states in the order of the file, of version 2 of the waves."""
    if version == 2:
        return mixed.times_fault(None, router_times([OLD] * mixed.size, ranks))
    return mixed.order_fault(flat_run(ranks))


def told_of_list(mixed, version, ranks, found):
    if found is None:
        return f"safe {2 * mixed.size}" + (f" waves {max(ranks) + 1}" if version == 2 else "") + "\n", 0
    return f"unsafe {'wave ' if version == 2 else ''}{found[0]} {fault_text(mixed.network, found[1])}\n", 1


def why(mixed, version, ranks):
    """What `check` says, and why it is so."""
    found = fault_of_list(mixed, version, ranks)
    text, code = told_of_list(mixed, version, ranks, found)
    lines = reasons(mixed, ranks) if found is None else packet_way(mixed, found[1], spans_of(version, ranks, found[0]))
    return text + "".join(line + "\n" for line in lines), code


def why_changes(network, order):
    """The same of a list of single changes."""
    ranks, mixed = read_changes(order, network), mixed_of(network)
    found = mixed.times_fault(None, change_times(ranks))
    text, code = told_of_waves(mixed, 2 * network.size, ranks, change_times(ranks))
    if found is None:
        lines = change_reasons(mixed, ranks)
    else:
        lines = packet_way(mixed, found[1], times_spans(change_times(ranks), found[0]))
    return text + "".join(line + "\n" for line in lines), code


def draw(mixed, version, ranks):
    """What `check` says, as a picture."""
    found = fault_of_list(mixed, version, ranks)
    text, code = told_of_list(mixed, version, ranks, found)
    return picture(mixed, ranks, text.rstrip("\n"), found[1] if found else None), code


def failures_of(network, version, ranks):
    """What `check` says, and where that is safe what it says of each network with a link down whose ends are sound."""
    text, code = check(mixed_of(network), version, ranks)
    if code:
        return text, code

    def judge(failed):
        mixed = mixed_of(failed)
        return unsound_end(mixed) or check(mixed, version, ranks)
    more, code = failures(network, judge)
    return text + more, code


def check_changes(network, order):
    """Of version 3 all states of each wave of changes."""
    ranks = read_changes(order, network)
    return told_of_waves(mixed_of(network), 2 * network.size, ranks, change_times(ranks))


def split(mixed, version, ranks, most):
    """The waves of at most so many routers, each wave cut in the order of the names; what `check` says where they aren't safe."""
    text, code = check(mixed, version, ranks)
    if code:
        return text, code
    lines = ["order 2"]
    for wave in range(max(ranks) + 1):
        names = [name for name, rank in zip(mixed.network.names, ranks) if rank == wave]
        lines += ["wave " + " ".join(names[first:first + most]) for first in range(0, len(names), most)]
    return "".join(line + "\n" for line in lines), 0


def told_of_waves(mixed, changes, ranks, times):
    found = mixed.times_fault(None, times)
    if found is None:
        return f"safe {changes} waves {max(ranks) + 1}\n", 0
    return f"unsafe wave {found[0]} {fault_text(mixed.network, found[1])}\n", 1


# ---- plans ----


def unsound_end(mixed, start=None):
    """The first state or the last one, where it has a fault."""
    for word, phases in (("start" if start else "old", start or [OLD] * mixed.size), ("new", [NEW] * mixed.size)):
        fault = mixed.state_fault(phases, start)
        if fault:
            return f"unsound {word} {fault_text(mixed.network, fault)}\n", 7
    return None


def plan(mixed, budget, oracle):
    """Waves, or a tree that says that there are none or where the budget was spent."""
    unsound = unsound_end(mixed)
    if unsound:
        return unsound
    search = Search(oracle, budget)
    found = search.find()
    if not found:
        return tree_of(search, oracle.tree)
    ranks, chain = found
    return waves_text(oracle.order, ranks, oracle.word, chain, range(oracle.size)), 0


def plan_rest(mixed, budget, start):
    """Waves of the routers that aren't new yet, from the phases of a running state."""
    unsound = unsound_end(mixed, start)
    if unsound:
        return unsound
    left = [router for router in range(mixed.size) if start[router] != NEW]
    if not left:
        return "rest 1\ndone\n", 0
    oracle = Routers(mixed, start)
    search = Search(oracle, budget)
    found = search.find()
    if not found:
        begun = "".join(f" {name}:{phase}" for name, phase in zip(mixed.network.names, start) if phase)
        return tree_of(search, f"tree 3\nstart{begun}")
    ranks, chain = found
    # A router that is new stands in no wave.
    if len(chain) == 1 and chain[0] not in left:
        chain = left[:1]
    return waves_text("rest 1", ranks, oracle.word, chain, left), 0


def tree_of(search, head):
    return tree_text(head, search.nodes, search.oracle.mixed.network, search.oracle.word), 8 if search.is_spent else 1


def waves_text(head, ranks, word, chain, items):
    """A wave a line, of these items, and the chain that shows that fewer waves are too few."""
    lines = [head]
    for wave in range(max(ranks) + 1):
        lines.append("wave " + " ".join(word(item) for item in items if ranks[item] == wave))
    lines.append("chain " + " ".join(map(word, chain)))
    return "".join(line + "\n" for line in lines)


# ---- lines for routers, and what was done ----


def isis_lines(configuration, distance):
    """The lines that give the IS-IS of a router a distance, none where it has no IS-IS."""
    tag = f" {configuration.tag}" if configuration.tag else ""
    return f"router isis{tag}\n distance {distance}\n" if configuration.has_isis else ""


def ospf_lines(configuration, distance):
    return f"router ospf {configuration.process}\n distance {distance}\n" if configuration.process is not None else ""


def scripts(version, ranks, names, first, second):
    """The lines of each change in the order of the flat run; `! end` behind all where a change has none."""
    text, change, wave = "", 0, None
    for router in flat_run(ranks):
        if version == 2 and ranks[router] != wave:
            wave = ranks[router]
            text += f"! wave {wave + 1}\n"
        for lines in (first[router], second[router]):
            change += 1
            text += f"! {change} {names[router]}\n{lines}"
    return text if all(first + second) else text + "! end\n", 0


def replay(network, journal):
    """How many changes were made, and those that may be next."""
    lines = [f"at {len(journal.told)} of {2 * network.size}"]
    for router, made in enumerate(journal.made):
        if made == 1 or made == 0 and journal.may_be_next(router, 0):
            lines.append(f"next {network.names[router]} {made + 1}")
    return "".join(line + "\n" for line in (lines if len(lines) > 1 else lines + ["done"])), 0


def rollback(network, journal):
    """The lines that undo what was done, from the last change to the first."""
    text = ""
    for change, (router, half) in reversed(list(enumerate(journal.told, 1))):
        each = network.configurations[router]
        text += f"! undo {change} {network.names[router]}\n"
        text += ospf_lines(each, each.ospf_distance) if half else isis_lines(each, UNUSED_DISTANCE)
    return text, 0

"""A picture of a network and of a list of waves, in the DOT of Graphviz.

It is drawn by `dot`, which reads in it that `neato` is to place the routers. These are its lines: the head; the legend; the
routers wave by wave, behind a comment each; the subnets that are nodes, the links, in the order of their first ends; the arcs of
the ring. A link is a subnet that up interfaces of two or more routers share, none a loopback; where more interfaces than two
have it, it is a node. Its ends come in the order of the routers, and those of one in the order of its configuration.

Nothing breaks out of its quotes: names of routers have letters, digits, `-`, `_` and `.` alone, and all else that is printed of
the configurations is numbers and addresses. The node of a subnet has a slash in its name, so that no router has it.
"""

from forwarding import Missing
from networks import up
from reasons import target_of
from shown import prefix_text

COLORS = ("#9ecae1", "#a1d99b", "#fdd0a2", "#dadaeb", "#fcc5c0", "#fee391", "#c7e9c0", "#decbe4", "#ccebc5", "#d9d9d9", "#fed9a6",
          "#b3cde3")
# How the lines of an area are drawn, and the line below its cell of the legend.
STYLES = (("solid", 'border="1"'), ("dashed", 'border="1" style="dashed"'), ("dotted", 'border="1" style="dotted"'),
          ("bold", 'border="3"'))
LEGEND_COLUMNS = 8
RED, GRAY = "#d62728", "#bbbbbb"
HEAD = """digraph network {
  graph [layout=neato, start=1, normalize=true, overlap=false, overlap_shrink=false, splines=true];
  graph [fontname="Helvetica", labelloc=t];
  node [shape=box, style="rounded,filled", fillcolor=white, fontname="Helvetica", fontsize=12, height=0.3, margin="0.12,0.06"];
  edge [dir=none, color="#555555", fontname="Helvetica", fontsize=10, labeldistance=1.8, labelangle=-35, len=1.7];
"""


def picture(mixed, ranks, verdict, fault):
    """The picture; `verdict` is what a check says, and `fault` is what is wrong, or None."""
    network = mixed.network
    links = links_of(network)
    areas = sorted({each.area for _, ports in links for _, each in ports if each.area is not None})
    lines = [f"  label=<{legend(verdict, ranks, areas, links)}>;"] + router_lines(mixed, ranks, fault)
    lines += [f'  "{prefix_text(subnet)}" [shape=plaintext, style="", fontsize=10];' for subnet, ports in links if is_node(ports)]
    for subnet, ports in links:
        lines += link_lines(network, areas, subnet, ports)
    lines += ring_lines(network, fault)
    return HEAD + "".join(line + "\n" for line in lines) + "}\n"


def links_of(network):
    """The subnets that interfaces of two routers share, none a loopback, in the order of their first ends, each with its ends
    (router, interface)."""
    found = {}
    for router, configuration in enumerate(network.configurations):
        for each in up(configuration):
            if not each.is_loopback:
                found.setdefault(each.subnet, []).append((router, each))
    return [(subnet, ports) for subnet, ports in found.items() if len({router for router, _ in ports}) > 1]


def is_node(ports):
    return len(ports) > 2


def router_lines(mixed, ranks, fault):
    """The routers wave by wave, each with the number of its wave. A double line says who has the target of a fault."""
    lines, names = [], mixed.network.names
    target = target_of(mixed, fault.address) if fault else None
    for wave in range(max(ranks) + 1):
        lines.append(f"  // wave {wave + 1}")
        for router in range(mixed.size):
            if ranks[router] == wave:
                label, more = f"{names[router]}\\n{wave + 1}", ""
                if isinstance(fault, Missing) and fault.router == router:
                    label, more = f"{label}\\nno step", f', color="{RED}", penwidth=3'
                if target in mixed.connected[router]:
                    more += ", peripheries=2"
                lines.append(f'  "{names[router]}" [label="{label}", fillcolor="{COLORS[wave % len(COLORS)]}"{more}];')
    return lines


def line_of(areas, interfaces):
    """How a line is drawn: by the area of the first interface that has one, grey where none has."""
    area = next((each.area for each in interfaces if each.area is not None), None)
    return f'color="{GRAY}"' if area is None else f"style={STYLES[areas.index(area) % len(STYLES)][0]}"


def end_text(interface):
    """The OSPF cost and the IS-IS metric of an interface, a dash for one that it hasn't; both levels where they differ."""
    metrics = sorted({interface.metrics[level] for level in interface.levels})
    if len(metrics) == 2:
        metrics = [interface.metrics[1], interface.metrics[2]]
    return f"{'-' if interface.area is None else interface.cost}/{','.join(map(str, metrics)) or '-'}"


def link_lines(network, areas, subnet, ports):
    """A line between two routers, or from each to the subnet that more interfaces share."""
    if not is_node(ports):
        (first, one), (second, other) = ports
        return [f'  "{network.names[first]}" -> "{network.names[second]}" [taillabel="{end_text(one)}", '
                f'headlabel="{end_text(other)}", {line_of(areas, [one, other])}];']
    return [f'  "{network.names[router]}" -> "{prefix_text(subnet)}" [taillabel="{end_text(each)}", {line_of(areas, [each])}, '
            f'len=1.4];' for router, each in ports]


def ring_lines(network, fault):
    if fault is None or isinstance(fault, Missing):
        return []
    return [f'  "{network.names[router]}" -> "{network.names[following]}" [dir=forward, color="{RED}", penwidth=2.5, '
            f'label="{tag}", fontcolor="{RED}", fontsize=14];'
            for (router, tag), (following, _) in zip(fault.turns, fault.turns[1:] + fault.turns[:1])]


def legend(verdict, ranks, areas, links):
    """A table: the verdict, the colours of the waves, the styles of the areas, so many in a row, and what stands at the ends."""
    waves = [f'<td bgcolor="{COLORS[wave % len(COLORS)]}">wave {wave + 1}</td>' for wave in range(max(ranks) + 1)]
    styles = [f'<td sides="b" {STYLES[place % len(STYLES)][1]}>area {area}</td>' for place, area in enumerate(areas)]
    columns = min(max(len(waves), len(areas)), LEGEND_COLUMNS)
    rows = [wide(columns, f'<font point-size="16">{verdict}</font>')]
    for cells in (waves, styles):
        rows += ["".join(cells[first:first + columns]) for first in range(0, len(cells), columns)]
    if links:
        rows.append(wide(columns, "OSPF cost / IS-IS metric"))
    return f'<table border="0" cellspacing="3">{"".join(f"<tr>{row}</tr>" for row in rows)}</table>'


def wide(columns, text):
    return f'<td colspan="{columns}">{text}</td>'

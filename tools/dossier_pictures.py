"""The pictures of tools/dossier: a network with its routers in ranks, and a cycle of channels, drawn by Graphviz for the
width of a page.

Each picture is laid out in several ways, and the one is taken whose letters are the largest on the page: where they are
large enough, the lowest.
"""
import collections
import concurrent.futures
import html
import os
import re
import shutil
import subprocess

# What a picture may take of an A4 page, in points, and how many seconds one layout of it.
WIDTH, HEIGHT = 504, 590
MOST_SECONDS = 60
# In how many columns the nodes of a router may stand, and over how many ranks its neighbours may be spread.
COLUMNS, SPREADS = (1, 2, 3, 4, 6), (1, 2, 3, 4)
# The letters of a picture, in points. From ENOUGH of that on they are large enough, and the lowest picture is taken; below
# LEAST_SCALE the nodes are left out, and below LEAST_OF_ROWS the channels' names in a cycle.
LETTERS, ENOUGH, LEAST_SCALE, LEAST_OF_ROWS = 10, 0.8, 0.5, 0.7
HEAD = f'fontname="Helvetica" fontsize={LETTERS}'
# How what belongs to a cycle is marked.
MARK, THICK = ' BGCOLOR="#ffd9d0"', ' color="#c02000" penwidth=2.5'


def version():
    """What Graphviz says of itself, or None where there is none."""
    if shutil.which("dot") is None:
        return None
    return subprocess.run(["dot", "-V"], capture_output=True, text=True).stderr.strip()


def laid_out(text):
    """The picture of a graph as SVG, or None where it took too long or Graphviz gave up."""
    try:
        done = subprocess.run(["dot", "-Tsvg"], input=text, capture_output=True, text=True, timeout=MOST_SECONDS)
    except subprocess.TimeoutExpired:
        return None
    return done.stdout if done.returncode == 0 and "<svg" in done.stdout else None


def size_of(svg):
    return [float(it) for it in re.search(r'<svg width="([\d.]+)pt" height="([\d.]+)pt"', svg).groups()]


def scale_of(svg):
    width, height = size_of(svg)
    return min(1.0, WIDTH / width, HEIGHT / height)


def best(texts):
    """The layout of the graphs whose letters are the largest on the page, and by how much they are scaled; None where
    there is no layout."""
    with concurrent.futures.ThreadPoolExecutor(os.cpu_count()) as pool:
        drawn = [it for it in pool.map(laid_out, texts) if it]
    if not drawn:
        return None
    sizes = {it: size_of(it) for it in drawn}
    taken = max(drawn, key=lambda it: (min(round(scale_of(it), 2), ENOUGH), -sizes[it][1] * scale_of(it)))
    return taken, scale_of(taken)


def inline(svg, scale, words):
    """The picture as an element of a page: without names of its own, which other pictures of the page have too, and
    without a word of what drew it."""
    width, height = size_of(svg)
    body = svg[svg.index("<svg") : svg.index("</svg>")]
    body = re.sub(r"<!--.*?-->\s*|<title>.*?</title>\s*", "", body, flags=re.S)
    body = re.sub(r' (?:id|xmlns|xmlns:xlink)="[^"]*"', "", body)
    view = re.search(r'viewBox="([^"]*)"', body)[1]
    size = f'width="{width * scale:.0f}pt" height="{height * scale:.0f}pt"'
    head = f'<svg role="img" aria-label="{html.escape(words)}" {size} viewBox="{view}">'
    return head + body[body.index(">") + 1 :].rstrip() + "\n</svg>"


class Wires:
    """The routers of a network, what is linked to each, and how far each is from the one in the middle."""

    def __init__(self, network):
        self.names = {place: name for name, place in network.names.items()}
        self.is_target, self.starts = network.is_target, network.starts
        self.routers = range(len(network.routes))
        # of each router its nodes, and of each pair of routers, or of nodes, the links
        self.nodes, self.between, self.pairs = {it: [] for it in self.routers}, [], []
        for channel in range(0, len(self.starts), 2):
            a, b = self.starts[channel], self.starts[channel + 1]
            if a[0] == b[0]:
                (self.between if a[0] == "switch" else self.pairs).append((channel, a, b))
            else:
                node, switch = (a, b) if a[0] == "node" else (b, a)
                self.nodes[switch[1]].append((switch[2], node[1], channel))
        for it in self.nodes.values():
            it.sort()
        self.depths = self.find_depths()

    def told(self, node):
        """The name of a node, with a star where it is a target."""
        return self.names["node", node] + "*" * self.is_target[node]

    def neighbours(self):
        found = {it: set() for it in self.routers}
        for _, a, b in self.between:
            found[a[1]].add(b[1])
            found[b[1]].add(a[1])
        return found

    def find_depths(self):
        """Of each router its distance from the one with the most routers beside it, in each part of the network that
        hangs together."""
        neighbours, depths = self.neighbours(), {}
        for first in sorted(self.routers, key=lambda it: (-len(neighbours[it]), it)):
            if first in depths:
                continue
            depths[first], left = 0, collections.deque([first])
            while left:
                router = left.popleft()
                for it in sorted(neighbours[router] - depths.keys()):
                    depths[it] = depths[router] + 1
                    left.append(it)
        return depths

    def ranks(self, spread):
        """The rank of each router: those of one distance are spread over so many ranks, one after another."""
        counts = collections.Counter()
        ranks = {}
        for router in self.routers:
            depth = self.depths[router]
            ranks[router] = depth and (depth - 1) * spread + 1 + counts[depth] % spread
            counts[depth] += 1
        return ranks


def cell(text, is_marked=False):
    words = f"<B>{html.escape(text)}</B>" if is_marked else html.escape(text)
    return f'<TD ALIGN="LEFT"{MARK if is_marked else ""}>{words}</TD>'


def table(rows, border=1, padding=3):
    return f'<TABLE BORDER="0" CELLBORDER="{border}" CELLSPACING="0" CELLPADDING="{padding}">{"".join(rows)}</TABLE>'


def strip(ports, is_row):
    """The cells of ports, side by side or below one another."""
    cells = [f'<TD PORT="p{it}">{it}</TD>' for it in ports]
    return table([f"<TR>{''.join(cells)}</TR>"] if is_row else [f"<TR>{it}</TR>" for it in cells], 1, 2)


def node_cells(wires, router, marked, with_nodes):
    nodes = wires.nodes[router]
    if not with_nodes:
        return [cell(f"{len(nodes)} node{'s' * (len(nodes) != 1)}")] if nodes else []
    return [cell(f"{port}  {wires.told(node)}", bool(marked & {channel, channel + 1})) for port, node, channel in nodes]


def router_text(wires, router, layout, marked, with_nodes):
    """The label of a router: its name and its nodes in columns, with the ports to other routers on the side where these
    stand."""
    told = node_cells(wires, router, marked, with_nodes)
    width = max(1, min(layout.columns, len(told)))
    name = html.escape(wires.names["switch", router])
    rows = [f'<TR><TD COLSPAN="{width}" BGCOLOR="#e4e9ef"><B>{name}</B></TD></TR>']
    # (column by column, so that the ports rise downwards)
    height = -(-len(told) // width)
    for at in range(height):
        line = told[at::height]
        rows.append(f"<TR>{''.join(line)}{'<TD></TD>' * (width - len(line))}</TR>")
    before, after = (sorted(it) for it in layout.sides[router])
    is_row = layout.direction == "TB"
    parts = [strip(before, is_row)] * bool(before) + [table(rows)] + [strip(after, is_row)] * bool(after)
    cells = [f"<TD>{it}</TD>" for it in parts]
    return f"<{table([f'<TR>{it}</TR>' for it in cells] if is_row else ['<TR>' + ''.join(cells) + '</TR>'], 0, 0)}>"


class Layout:
    """How a network is drawn: from above or from the left, the nodes of a router in so many columns, the routers of one
    distance over so many ranks."""

    def __init__(self, wires, direction, columns, spread):
        self.direction, self.columns, self.ranks = direction, columns, wires.ranks(spread)
        # of each router the ports of the links to routers of a lower rank, and of the others
        self.sides = {it: (set(), set()) for it in wires.routers}
        for _, a, b in wires.between:
            for end, other in ((a, b), (b, a)):
                self.sides[end[1]][self.ranks[other[1]] >= self.ranks[end[1]]].add(end[2])

    def end(self, end):
        before, _ = self.sides[end[1]]
        sides = "ns" if self.direction == "TB" else "we"
        return f"r{end[1]}:p{end[2]}:{sides[end[2] not in before]}"


def network_text(wires, layout, marked, with_nodes):
    """The graph of a network: each router with its nodes, each link between routers once, at its ports; red and thick
    where a channel of it is marked."""
    ranks = layout.ranks
    lines = ["graph network {", f"  graph [rankdir={layout.direction} nodesep=0.2 ranksep=0.5 margin=0];"]
    lines += [f"  node [shape=plain {HEAD}];", '  edge [color="#444444"];']
    lines += [f"  r{it} [label={router_text(wires, it, layout, marked, with_nodes)}];" for it in wires.routers]
    for rank in sorted({*ranks.values()}):
        lines.append(f"  {{ rank=same; {' '.join(f'r{it};' for it in wires.routers if ranks[it] == rank)} }}")
    for channel, a, b in wires.between:
        a, b = (a, b) if ranks[a[1]] <= ranks[b[1]] else (b, a)
        how = f"minlen={ranks[b[1]] - ranks[a[1]]}{THICK if marked & {channel, channel + 1} else ''}"
        lines.append(f"  {layout.end(a)} -- {layout.end(b)} [{how}];")
    for channel, a, b in wires.pairs:
        for _, it in (a, b):
            lines.append(f'  n{it} [shape=box margin="0.06,0.03" height=0 width=0 label="{wires.told(it)}"];')
        lines.append(f"  n{a[1]} -- n{b[1]} [{THICK if marked & {channel, channel + 1} else ''}];")
    return "\n".join([*lines, "}"])


def network_picture(network, marked):
    """The picture of a network, and what there is to say of it; None where there is none. Channels that are marked are
    red."""
    wires = Wires(network)
    if not wires.names:
        return None
    most = max([len(it) for it in wires.nodes.values()], default=1)
    widest = max(collections.Counter(wires.depths.values()).values(), default=1)
    columns = [it for it in COLUMNS if it == 1 or it <= most]
    spreads = [it for it in SPREADS if it == 1 or 3 * it <= widest]
    found, words = None, ""
    for with_nodes in (True, False):
        layouts = [Layout(wires, *it) for it in ways(columns if with_nodes else (1,), spreads)]
        texts = [network_text(wires, it, marked, with_nodes) for it in layouts]
        found = best(texts) or found
        if found and found[1] >= LEAST_SCALE:
            break
        words = "Routers alone: with the nodes it would be too small for a page. "
    if not found:
        return None
    return inline(*found, "the network: routers with their nodes, and the links between routers"), words


def ways(columns, spreads):
    return [(direction, column, spread) for direction in ("TB", "LR") for column in columns for spread in spreads]


def cycle_picture(ways, cycle):
    """The picture of a cycle, and what there is to say of it; None where Graphviz gives none. A long one is drawn in
    rows, as it goes on."""
    found = best([ring_text(ways, cycle)])
    words = "Each arrow is a channel, with its number in the list below."
    if found is None or found[1] < ENOUGH:
        rows = best([rows_text(ways, cycle, width, True) for width in (3, 4, 5, 6)])
        if rows is None or rows[1] < LEAST_OF_ROWS:
            rows = best([rows_text(ways, cycle, width, False) for width in (6, 8, 10, 12)])
        if rows:
            found = rows
            words += " The first row goes to the right, the next to the left, and so on; the last part is the first one again."
    return (inline(*found, "the channels of the cycle, numbered in their order"), words) if found else None


def part_text(ways, end, name):
    """A part of a cycle: a router or a node, with a star where it is a target."""
    star = "*" * (end[0] == "node" and ways.network.is_target[end[1]])
    look = 'style="filled,bold" fillcolor="#e4e9ef"' if end[0] == "switch" else 'margin="0.1,0.05"'
    return f'  {name} [label="{ways.name(end)}{star}" shape=box {look}];'


def step_text(ways, number, channel, has_name, space=""):
    """The label of a step: its number, and its channel."""
    told = html.escape(ways.told_channel(channel))
    name = f'<BR/><FONT POINT-SIZE="{LETTERS - 2}">{space}{told}</FONT>' if has_name else ""
    return f"label=<{space}<B>{number}</B>{name}>"


def ring_text(ways, cycle):
    """The graph of a cycle: each part that it touches once."""
    ends = [(ways.starts[channel], ways.starts[channel ^ 1]) for channel in cycle]
    lines = ["digraph cycle {", "  graph [rankdir=LR margin=0 nodesep=0.4 ranksep=0.5];"]
    lines += [f"  node [{HEAD}];", f"  edge [{HEAD}{THICK}];"]
    lines += [part_text(ways, it, it[0] + str(it[1])) for it in sorted({end[:2] for pair in ends for end in pair})]
    for number, (channel, (start, end)) in enumerate(zip(cycle, ends), 1):
        lines.append(f"  {start[0]}{start[1]} -> {end[0]}{end[1]} [{step_text(ways, number, channel, True)}];")
    return "\n".join([*lines, "}"])


def rows_text(ways, cycle, width, has_names):
    """The graph of a cycle in rows of so many parts, to the right and to the left by turns: each part as often as the
    cycle comes to it."""
    ends = [*(ways.starts[channel] for channel in cycle), ways.starts[cycle[0]]]
    lines = ["digraph cycle {", '  graph [rankdir=TB margin=0 pad="0.1,0.35" nodesep=0.25 ranksep=0.3];']
    lines += [f"  node [{HEAD} height=0.3 width=0.5];", f"  edge [{HEAD}{THICK}];"]
    lines += [part_text(ways, end, f"s{at}") for at, end in enumerate(ends)]
    rows = [[*range(at, min(at + width, len(ends)))] for at in range(0, len(ends), width)]
    # from left to right, each row; the places that the last one does not fill are left empty
    across = [(row + [None] * (width - len(row)))[:: -1 if at % 2 else 1] for at, row in enumerate(rows)]
    names = [[f"s{it}" if it is not None else f"e{at}" for at, it in enumerate(row)] for row in across]
    lines += [f"  {it} [style=invis shape=box];" for it in names[-1] if it.startswith("e")]
    for row, named in zip(across, names):
        lines.append(f"  {{ rank=same; {' '.join(f'{it};' for it in named)} }}")
        for (left, one), (right, other) in zip(zip(row, named), zip(row[1:], named[1:])):
            if left is None or right is None:
                lines.append(f"  {one} -> {other} [style=invis];")
            else:
                number = min(left, right)
                back = " dir=back" if left > right else ""
                lines.append(f"  {one} -> {other} [{step_text(ways, number + 1, cycle[number], has_names)}{back}];")
    for above, below in zip(across, across[1:]):
        for up, down in zip(above, below):
            if down is not None and down == up + 1:
                step = step_text(ways, up + 1, cycle[up], has_names, "&#160;&#160;")
                lines.append(f"  s{up} -> s{down} [{step} weight=50];")
            elif down is not None:
                lines.append(f"  s{up} -> s{down} [style=invis weight=50];")
    return "\n".join([*lines, "}"])

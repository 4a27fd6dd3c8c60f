"""The part of a page of tools/dossier that tells of one network file."""
import collections
import shlex

import dossier_pictures
from dossier_html import VERDICTS, code, count, digits, facts, figure, listed, mark, names_in, table, text, warning

# Of the flows that a link's loss takes away so many are named.
MOST_NAMES = 16
REPLY = "+reply"
WAITING = (
    "What holds a channel waits for the next one, and on the last for the first. Of each tangle, channels that can each "
    "wait for each other, the shortest cycle is told."
)
BENDING = (
    "Each line is of one thing by itself; the rest stays as the file says. Not free says that no numbers rise along the "
    "dependencies, and not that the network locks up. Nothing is said of several nodes at once, nor of replies over "
    "other links."
)
LOST = (
    "Without a link these flows are lost: their packets begin on it, or come to a place from which they go on over it "
    "alone."
)
LINKS = (
    "At each port (bold) the node that is linked there, or the other router and its port. * : an RMAP target; slots, "
    "where they are more than one: how many replies it may owe."
)
ENTRIES = (
    "Logical addresses, and the ports to which the table leads; several ports are a group, of which a packet takes any. "
    "✂ : the address is deleted there."
)
WAYS = (
    "Address bytes in hexadecimal, as packets begin with them; left: how many of them are still there at the end. "
    "Unanswered: how many commands of the flow may be unanswered at once, where its packets may be commands that are "
    "answered; the replies are the row below. A way goes from left to right: 2·R1·5 is in by port 2 of the router R1, "
    "and out by its port 5; 5|6: by any of the group. Ways are those that the program tells."
)


def counts(it):
    """How many nodes, routers, links and flows a file declares, or dashes."""
    if not hasattr(it, "network"):
        return ["–"] * 4
    replies = len(it.network.commands)
    flows = f"{len(it.network.flows) - replies}{f' + {replies}' if replies else ''}"
    return [len(it.network.is_target), len(it.network.routes), len(it.network.starts) // 2, flows]


def verdict(it):
    """The verdict, what it means, and what may make it worth less."""
    words = VERDICTS[it.kind][2]
    if it.kind == "misrouted":
        words = words.replace("a declared flow", f"the flow {it.verdict['flow']}")
    asked = " and <code>decide</code>" if "decide" in it.statuses else ""
    asked += ", and 0 of <code>check</code>" if it.kind == "free" else ""
    told = f"<p>{mark(it.kind)} exit status {it.status} of <code>audit</code>{asked}</p>\n<p>{text(words)}</p>\n"
    if it.kind == "fault":
        told += fault(it)
    if not it.program.is_proved:
        told += warning("Unproved:", "told by a program without any proof, so it guarantees nothing.")
    if it.kind == "free" and not it.network.flows:
        told += warning(
            "The network has no flows.", "Then nothing is on its way, and this says nothing of the traffic that flies."
        )
    return f'<div class="box {it.kind}">\n{told}</div>\n'


def fault(it):
    """The first fault of a file, where it is, and what the program says of it."""
    line, column = it.verdict["line"], it.verdict["column"]
    where = (f", line {line}" if line else "") + (f", column {column}" if column else "")
    told = f"<p>{code(it.verdict['text'])}{where}.</p>\n"
    return told + (f"<p>The program's words on it:</p>\n<pre>{text(it.hint)}</pre>\n" if it.hint else "")


def identity(it):
    """The file, its hashes, and how large it is."""
    size = f"{it.bytes:,}" if it.bytes is not None else "not read"
    rows = [("File", code(it.path)), ("Bytes", size), ("SHA-256", digits(it.sha256))]
    if it.kind == "free":
        rows.append(("SHA-256 of the certificate", digits(it.verdict["certificate_sha256"])))
    if hasattr(it, "report") and it.report["kind"] == "report":
        of = it.report
        parts = (("node", "nodes"), ("router", "switches"), ("link", "links"), ("channel", "channels"))
        replies = count(of["replies"], "flow of replies", "flows of replies")
        height = f"; the certificate's numbers rise to {it.verdict['height']}" if it.kind == "free" else ""
        rows += [
            ("Parts", ", ".join(count(of[key], word) for word, key in parts)),
            ("Flows", f"{count(of['flows'], 'declared flow')}, {replies}, {count(of['places'], 'place')} that they reach"),
            ("Dependencies", f"{count(of['dependencies'], 'pair')} of channels{height}"),
        ]
    return facts(rows)


def notes(it):
    if not it.notes:
        return ""
    told = listed(map(text, it.notes), "ul")
    words = "Each may be a slip. It changes no verdict."
    return f'<h3>What the program notes of the file</h3>\n<p>{words}</p>\n<div class="notes">{told}</div>\n'


def no_picture(graphviz):
    why = "Graphviz gave none" if graphviz else "Graphviz (dot) was not there when this page was made"
    return f'<p class="note">No picture: {why}.</p>\n'


def picture(it, graphviz):
    tangles = it.explain.get("tangles", [])
    marked = {step["channel"] for tangle in tangles for step in tangle["cycle"]}
    drawn = dossier_pictures.network_picture(it.network, marked) if graphviz else None
    if not drawn:
        return no_picture(graphviz)
    svg, words = drawn
    words += "Routers with their ports, and at each port the node that is linked there. * : the node is an RMAP target."
    return figure(svg, words + (" Red: what belongs to a cycle." if marked else ""))


def explained(it, graphviz):
    """Cycles, or the way astray, in the program's words."""
    if it.kind == "cyclic" and it.explain["kind"] == "cyclic":
        return cycles(it, graphviz)
    if it.kind == "misrouted" and it.explain["kind"] == "misrouted":
        told = listed(text(line.partition(". ")[2]) for line in it.explained[1:-1])
        head = f"<h3>How packets of {text(it.explain['flow'])} go astray</h3>\n"
        return f"{head}{told}<p><b>{text(it.explained[-1])}</b></p>\n"
    return ""


def steps_of_cycles(lines):
    """The steps of each cycle, in the lines of `explain`."""
    steps = []
    for line in lines:
        number, _, words = line.partition(". ")
        if line.startswith("shortest cycle"):
            steps.append([])
        elif steps and number.isdigit():
            steps[-1].append(words)
    return steps


def cycles(it, graphviz):
    """Each tangle's shortest cycle, in words and as a picture."""
    told, tangles = [], it.explain["tangles"]
    for number, (tangle, lines) in enumerate(zip(tangles, steps_of_cycles(it.explained)), 1):
        cycle = [step["channel"] for step in tangle["cycle"]]
        of = f"Cycle {number} of {len(tangles)}: " if len(tangles) > 1 else ""
        size = f"{count(len(cycle), 'channel')}, of a tangle of {count(tangle['channels'], 'channel')}"
        drawn = dossier_pictures.cycle_picture(it.ways, cycle) if graphviz else None
        told += [f"<h4>{of}{size}</h4>\n", figure(*drawn) if drawn else no_picture(graphviz), listed(map(text, lines))]
    more = (
        "<code>swcheck mend</code> tells which changes free the network, <code>swcheck witness</code> looks for an order "
        "of events that locks it up."
    )
    last = f"<p>{text(it.explained[-1])}.</p>\n<p>{more}</p>\n"
    return f"<h3>What may wait for what</h3>\n<p>{WAITING}</p>\n{''.join(told)}{last}"


def checking(it, is_kept):
    """How to check the certificate, with the program and without it."""
    file, cert = text(shlex.quote(it.path)), it.certificate
    kept = "The first command writes it. Keep it with this page."
    if is_kept:
        kept = "It was kept when this page was made, by the name that it has here."
    status, said = it.checked_again
    again = "which accepted it when this page was made"
    if status:
        again = "which reads TOML 1.0 only, and this file is TOML 1.1"
    lines = [
        f"swcheck decide {file} &gt; {cert}",
        f"sha256sum {file} {cert}",
        f"    {it.sha256}  {text(it.path)}",
        f"    {it.verdict['certificate_sha256']}  {cert}",
        f"swcheck check {file} {cert}",
        f"    {text(it.checked)}",
        f"tools/check_certificate.py {file} {cert}",
        f"    {text(said)}",
    ]
    words = (
        f"The certificate is a text: a number for each channel, and the places of each flow. {kept} The last command does "
        f"not need the program: it is a second checker, in plain Python, without proof, {again}."
    )
    commands = "\n".join(lines)
    return f"<h3>The certificate, and how to check it</h3>\n<p>{words}</p>\n<pre>{commands}</pre>\n"


def margins(it):
    """How far the premises of a free network bend."""
    head = "<h3>How far the premises bend</h3>\n"
    if it.margin["kind"] != "margins":
        return f"{head}<p>{text(it.margin['kind'])}: the program tells nothing more.</p>\n"
    rows = [*bends(it.margin), *limits(it.margin)]
    told = table(["What bends", "Of which"], rows, "margins", (40, 60)) if rows else "<p>The program has no line.</p>\n"
    return f"{head}<p>{BENDING}</p>\n{told}{losses(it)}"


def bends(margin):
    stalling = "takes a character only while it has nothing to send there"
    answered = "is answered, by replies that go back over the links of its way"
    for key, name, words in (("stalls", "node", stalling), ("answers", "flow", answered)):
        for is_free, says in ((True, "It is free also if"), (False, "It is not free any more if")):
            names = [of[name] for of in margin[key] if of["free"] == is_free]
            which = f"the {name}" if len(names) == 1 else f"one of these {name}s"
            if names:
                yield [f"{says} {which} {words}", names_in(names)]


def limits(margin):
    found = collections.defaultdict(list)
    for limit in margin["limits"]:
        found[limit["outstanding"]].append(limit["flow"])
    for most, names in found.items():
        upto = "any number of unanswered commands"
        if most is not None:
            upto = f"up to {count(most, 'unanswered command')}, and not with one more,"
        which = "one of these flows" if len(names) > 1 else "the flow"
        yield [f"It is free with {upto} of {which}, in place of its limit", names_in(names)]


def losses(it):
    """Which flows each link carries alone."""
    rows, is_cut = [], False
    for loss in it.margin["losses"]:
        names = {*loss["flows"]}
        # a flow and its replies in one
        told = [
            f"{name}, {name}{REPLY}" if name + REPLY in names else name
            for name in loss["flows"]
            if name.removesuffix(REPLY) == name or name.removesuffix(REPLY) not in names
        ]
        more = f" and {len(told) - MOST_NAMES:,} more" if len(told) > MOST_NAMES else ""
        is_cut = is_cut or bool(more)
        link = text(f"{loss['start']} – {loss['end']}")
        rows.append([link, len(names) or "none", names_in(told[:MOST_NAMES]) + more])
    if not rows:
        return ""
    words = LOST + (f" {code('swcheck margin ' + shlex.quote(it.path))} names all." if is_cut else "")
    told = table(["Link", "Flows", "Which"], rows, "losses", (25, 8, 67))
    return f"<h4>If a link is lost</h4>\n<p>{words}</p>\n{told}"


def told_node(it, end):
    """A node, with what of it matters for limits."""
    node, network = end[1], it.network
    slots, outstanding = network.slots.get(node, 1), network.outstanding.get(node)
    told = text(it.ways.name(end)) + "*" * network.is_target[node]
    told += f" (slots {slots})" if slots > 1 else ""
    return told + (f" (at most {outstanding} commands unanswered)" if outstanding else "")


def wiring(it):
    """What is linked to each port of each router, to compare with the drawing; and links between nodes."""
    network, ways = it.network, it.ways
    linked = collections.defaultdict(list)
    for channel, start in enumerate(network.starts):
        if start[0] == "switch":
            end = network.starts[channel ^ 1]
            linked[start[1]].append((start[2], told_node(it, end) if end[0] == "node" else text(ways.told_end(end))))
    rows = []
    for router in range(len(network.routes)):
        ends = [f'<span class="hop"><b>{port}</b> {told}</span>' for port, told in sorted(linked[router])]
        rows.append([f"<b>{text(ways.names['switch', router])}</b>", len(ends), ", ".join(ends)])
    pairs = [(a, b) for a, b in zip(network.starts[::2], network.starts[1::2]) if a[0] == b[0] == "node"]
    if pairs:
        told = ", ".join(f"{told_node(it, a)} – {told_node(it, b)}" for a, b in pairs)
        rows.append(["(no router)", len(pairs), told])
    told = table(["Router", "Links", "Ports"], rows, "wiring", (18, 7, 75))
    return f"<h3>Routers and links</h3>\n<p>{LINKS}</p>\n{told}{entries(it)}"


def ranges(routes):
    """A routing table: neighbouring addresses with equal entries together, as first, last, ports and whether it is
    deleted."""
    found = []
    for address in sorted(routes):
        entry = (tuple(sorted({*routes[address][0]})), routes[address][1])
        if found and found[-1][1] == address - 1 and found[-1][2:] == entry:
            found[-1] = (found[-1][0], address, *entry)
        else:
            found.append((address, address, *entry))
    return found


def told_entry(first, last, ports, is_deleted):
    addresses = f"0x{first:02X}" + (f"–0x{last:02X}" if last > first else "")
    return f'<span class="hop">{addresses}→<b>{"|".join(map(str, ports))}</b>{" ✂" if is_deleted else ""}</span>'


def entries(it):
    """The routing tables."""
    rows = []
    for router, routes in enumerate(it.network.routes):
        if routes:
            told = ", ".join(told_entry(*of) for of in ranges(routes))
            rows.append([f"<b>{text(it.ways.names['switch', router])}</b>", told])
    if not rows:
        return "<p>No router has a routing table.</p>\n" if it.network.routes else ""
    told = table(["Router", "Addresses and ports"], rows, "wiring", (18, 82))
    return f"<h3>Routing tables</h3>\n<p>{ENTRIES}</p>\n{told}"


def flows(it):
    """Each flow with its ends, bytes, limit and way; the replies to a flow in the row below it."""
    network = it.network
    declared = network.flows[: len(network.flows) - len(network.commands)]
    replies = {flow[0]: flow for flow in network.flows[len(declared) :]}
    limited = {name: limit for name, (_, _, limit) in zip(replies, network.commands)}
    rows = []
    for flow in declared:
        reply = replies.get(flow[0] + REPLY)
        rows.append(flow_row(it, flow, limit_of(network, flow, limited[reply[0]]) if reply else "–"))
        if reply:
            rows.append(("reply", flow_row(it, reply, "")))
    if not rows:
        return "<h3>Flows and their ways</h3>\n<p>The network has no flows.</p>\n"
    heads = ["Flow", "From → to", "Address bytes", "Left", "Unan\u00adswered", "Way"]
    told = table(heads, rows, "flows", (15, 16, 16, 5, 10, 38))
    return f"<h3>Flows and their ways</h3>\n<p>{WAYS}</p>\n{told}"


def limit_of(network, flow, own):
    """How many commands of a flow may be unanswered, by itself and by its node."""
    of_node = network.outstanding.get(flow[1])
    told = [str(own)] * (own is not None) + [f"{of_node} of the node"] * (of_node is not None)
    return ", ".join(told) or "any number"


def flow_row(it, flow, limit):
    name, source, target, address, left = flow
    names, route = it.ways.names, it.routes[name]
    ends = " → ".join(f'<span class="hop">{text(names["node", it])}</span>' for it in (source, target))
    told = " ".join(f"0x{byte:02X}" for byte in address) or "none"
    way = it.ways.way(route) if route["kind"] != "memory" else "no memory to tell it"
    return [text(name), ends, f'<span class="bytes">{told}</span>', left, text(limit), way]


def section(it, number, graphviz, is_kept):
    """All of one file."""
    told = [f'<section class="network" id="n{it.number}">\n<h2>{number}. {text(it.path)}</h2>\n', verdict(it), identity(it)]
    if hasattr(it, "network"):
        told += [explained(it, graphviz), f"<h3>The network</h3>\n{picture(it, graphviz)}"]
        told += [checking(it, is_kept), margins(it)] if it.kind == "free" else []
        told += [wiring(it), flows(it), notes(it)]
    return "".join([*told, "</section>\n"])

"""Descriptions that the Python module has to refuse, each with words that its error has to have."""
from random_description import MODES
from swcheck import Network, Reply, Target


def small():
    """A network of two routers with two links between them, and of units at both, one of which is no target."""
    net = Network()
    net.unit("A", logical=40)
    net.unit("T", logical=50, target=Target(size=64))
    net.unit("B", logical=41)
    net.router("R", ports={"a": 1, "up": 2})
    net.router("S", ports={"down": 2, "t": 3})
    net.link("A", "R:a")
    net.link("R:up", "S:down")
    net.link("R:5", "S:5")
    net.link("T", "S:t")
    net.link("B", "S:6")
    return net


def moded():
    net = Network(modes=MODES)
    net.unit("A", logical=40)
    net.unit("T", logical=50, target=Target(size=64))
    net.unit("N", logical=41, modes="nominal")
    net.router("R")
    net.router("Q", modes="redundant")
    net.link("A", "R:1")
    net.link("T", "R:2")
    net.link("N", "R:3")
    net.link("R:4", "Q:4")
    return net


def apart(way, **words):
    """What wants a flow from A to a unit with no link to a router, or at a router that has no link to another one; R and S are linked."""

    def flow(_):
        net = small()
        net.router("Q")
        net.link(net.unit("Q1", logical=60), "Q:1")
        net.link(net.unit("U1", logical=70), net.unit("U2", logical=71))
        net.flow("f", *way, **words)
        net.text()

    return flow


def clash(net):
    net.flow("one", "A", "T", logical=True)
    net.flow("two", "A", "T", logical=True, via=["R:5"])
    net.text()


def flowing(**words):
    """What makes a flow from A to T of the small network, and its text."""

    def flow(net):
        net.flow("f", "A", "T", **words)
        net.text()

    return flow


def led(router, ports, via=None, **words):
    """What declares an entry for T, and then wants a flow to T by it."""

    def flow(net):
        net.route(router, 50, ports, **words)
        net.flow("f", "A", "T", logical=True, via=via)
        net.text()

    return flow


def long_line(routers, **words):
    """What wants a flow over so many routers."""

    def flow(_):
        net = Network()
        net.unit("A", logical=40)
        net.unit("T", logical=50, target=Target(size=64))
        names = [net.router(f"R{it}").name for it in range(routers)]
        for one, other in zip(names, names[1:]):
            net.link(f"{one}:1", f"{other}:2")
        net.link("A", "R0:3")
        net.link("T", f"R{routers - 1}:3")
        net.flow("far", "A", "T", **words)
        net.text()

    return flow


def chain(routers, links=1):
    """A chain of routers with so many links between neighbours, and a unit at the first."""
    net = Network()
    for it in range(routers):
        net.router(f"R{it}")
        for port in range(links if it else 0):
            net.link(f"R{it - 1}:{port}", f"R{it}:{10 + port}")
    net.link(net.unit("U", logical=40), "R0:31")
    return net


def many_units(_):
    net = chain(40)
    for it in range(1024):
        net.link(net.unit(f"U{it}"), f"R{it // 26}:{(*range(1, 10), *range(11, 28))[it % 26]}")
    net.text()


def many_flows(_):
    net = chain(1)
    for it in range(4097):
        net.flow(f"f{it}", "U", "U")
    net.text()


# What is wrong, on the small network or the one with modes, and what its error has to name.
REFUSED = [
    (small, lambda net: net.unit("A"), "unit A: there is a unit of this name already"),
    (small, lambda net: net.unit("R"), "unit R: there is a router of this name already"),
    (small, lambda net: net.router("A"), "router A: there is a unit of this name already"),
    (small, lambda net: net.unit("a b"), "unit 'a b': a name is 1 to 32"),
    (small, lambda net: net.unit(""), "unit ''"),
    (small, lambda net: net.unit("x" * 33), "a name is 1 to 32"),
    (small, lambda net: net.unit("é"), "a name is 1 to 32"),
    (small, lambda net: net.unit("x\n"), "a name is 1 to 32"),
    (small, lambda net: net.unit(7), "unit 7: a name is 1 to 32"),
    (small, lambda net: net.unit("U", logical=31), "the logical address of unit U is 31, and has to be a number from 32 to 254"),
    (small, lambda net: net.unit("U", logical=255), "the logical address of unit U is 255"),
    (small, lambda net: net.unit("U", logical="0x40"), "the logical address of unit U is '0x40'"),
    (small, lambda net: net.unit("U", logical=True), "the logical address of unit U is True"),
    (small, lambda net: net.unit("U", outstanding=0), "'outstanding' of unit U is 0"),
    (small, lambda net: net.unit("U", target=Target(size=1)), "unit U is a target, and has no logical address"),
    (small, lambda net: net.unit("U", logical=40, target=Target(size=0)), "the size of the target of unit U is 0"),
    (small, lambda net: net.unit("U", logical=40, target=Target(size=65537)), "the size of the target of unit U is 65537"),
    (small, lambda net: net.unit("U", logical=40, target=Target(size=2, start=2**40 - 1)), "the start of the target of unit U"),
    (small, lambda net: net.unit("U", logical=40, target=Target(size=2, key=256)), "the key of the target of unit U is 256"),
    (small, lambda net: net.unit("U", logical=40, target=Target(size=2, slots=65)), "'slots' of the target of unit U is 65"),
    (small, lambda net: net.unit("U", comment="a\x00b"), "the comment of unit U is no text"),
    (small, lambda net: net.unit("U", comment="\ud800"), "the comment of unit U is no text"),
    (small, lambda net: net.unit("U", modes="nominal"), "unit U: there is no mode 'nominal'; the modes: none"),
    (small, lambda net: net.router("U", ports={"x": 32}), "the number of port x of router U is 32"),
    (small, lambda net: net.router("U", ports={"x": 3, "y": 3}), "router U: port 3 has two names, x and y"),
    (small, lambda net: net.router("U", ports={"3": 3}), "router U: port 3 is named as if that were its number"),
    (small, lambda net: net.router("U", ports={"x y": 3}), "router U: port 'x y'"),
    (small, lambda net: net.router("U", arbiter="fair"), "the arbiter of router U is 'fair'"),
    (small, lambda net: net.link("B", "R:nowhere"), "router R has no port named 'nowhere'; the names of its ports: a, up"),
    (small, lambda net: net.link("B", "R:32"), "a port of router R is 32"),
    (small, lambda net: net.link("B", "Q:1"), "there is no router 'Q' in this network"),
    (small, lambda net: net.link("B", "R"), "a link ends at router R, and no port is said"),
    (small, lambda net: net.link("Z", "R:4"), "there is no unit 'Z' in this network"),
    (small, lambda net: net.link(small().unit("U"), "R:4"), "there is no unit 'U' in this network"),
    (small, lambda net: net.link(net.unit("U"), small().router("Q").port(4)), "there is no router 'Q' in this network"),
    (small, lambda net: net.link(net.unit("U"), "R:a"), "port R:a is taken twice: by link A to R:a and by link U to R:a"),
    (small, lambda net: net.link("A", "R:7"), "unit A is taken twice: by link A to R:a and by link A to R:7"),
    (small, lambda net: net.link("R:7", "R:7"), "link R:7 to R:7 has both its ends at one place"),
    (small, lambda net: net.link("R:7", "S:7", buffer=7), "'buffer' of link R:7 to S:7 is 7"),
    (small, lambda net: net.link("R:7", "S:7", buffer_b=5000), "'buffer_b' of link R:7 to S:7 is 5000"),
    (small, lambda net: net.route("Q", 40, [1]), "there is no router 'Q' in this network"),
    (small, lambda net: net.route("R", 31, [1]), "the address of an entry of router R is 31"),
    (small, lambda net: net.route("R", 40, [1], last=39), "'last' of the entry of router R for 0x28 is 39"),
    (small, lambda net: net.route("R", 40, []), "the entry of router R for 0x28 has to have a list of 1 to 32 ports"),
    (small, lambda net: net.route("R", 40, "12"), "the entry of router R for 0x28 has to have a list of 1 to 32 ports"),
    (small, lambda net: net.route("R", 40, ["x"]), "router R has no port named 'x'"),
    (small, lambda net: net.route("R", 40, [1, "a"]), "the entry of router R for 0x28 names port R:a twice"),
    (small, lambda net: (net.route("R", 40, [1], last=50), net.route("R", 45, [1])), "router R has two entries for 0x2D: those for 0x28 to 0x32 and for 0x2D"),
    (small, lambda net: net.flow("f", "A", "Z"), "there is no unit 'Z' in this network"),
    (small, lambda net: net.flow("f", "R", "A"), "there is no unit 'R' in this network"),
    (small, lambda net: net.flow("f+", "A", "T"), "flow 'f+': a name is 1 to 32"),
    (small, lambda net: (net.flow("f", "A", "T"), net.flow("f", "A", "B")), "there are two flows named f"),
    (small, flowing(via="R"), "'via' of flow f has to be a list"),
    (small, flowing(via=["Q"]), "there is no router 'Q' in this network"),
    (small, flowing(via=["A"]), "there is no router 'A' in this network"),
    (small, flowing(via=["S", "R"]), "flow f: its way would go over router"),
    (small, flowing(via=["R:9"]), "flow f: port R:9 has no link to a router"),
    (small, flowing(via=["S:6", "R"]), "flow f: port S:6 has no link to a router"),
    (small, flowing(left=0), "flow f has 'left', and no 'address'"),
    (small, flowing(address=[2], via=["R"]), "flow f has 'address', and 'via' or 'logical' too"),
    (small, flowing(address=[2, 256]), "a byte of the address of flow f is 256"),
    (small, flowing(address=[1] * 33), "the address of flow f has 33 bytes, and may have 32"),
    (small, flowing(address=[2, 3], left=3), "'left' of flow f is 3"),
    (small, flowing(outstanding=1), "flow f has 'outstanding', and no reply"),
    (small, flowing(reply=True, outstanding=65536), "'outstanding' of flow f is 65536"),
    (small, flowing(reply={}), "'reply' of flow f is {}"),
    (small, flowing(reply=None), "'reply' of flow f is None"),
    (small, flowing(reply=Reply(initiator=31)), "the initiator of flow f is 31"),
    (small, flowing(reply=Reply(path=[1] * 13)), "the reply's path of flow f has 13 bytes, and may have 12"),
    (small, flowing(reply=Reply(path=[0, 1])), "the reply's path of flow f begins with 0"),
    (small, flowing(reply=Reply(path=[1], logical=True)), "the reply of flow f has 'path', and 'via' or 'logical' too"),
    (small, lambda net: net.flow("f", "A", "B", reply=True), "flow f is answered, and unit B is no target"),
    (small, lambda net: net.flow("f", net.unit("U"), "T", reply=True), "flow f is answered, and unit U has no logical address"),
    (small, lambda net: net.flow("f", "A", net.unit("U"), logical=True), "flow f goes by a logical address, and unit U has none"),
    (small, apart(("A", "Q1")), "flow f: there is no way from unit A to unit Q1"),
    (small, apart(("A", "T"), via=["Q"]), "flow f: there is no way from unit A to unit T, since none from router R to router Q"),
    (small, apart(("A", "Q1"), logical=True), "flow f: links and declared entries lead 0x3C from router R on no way to unit Q1"),
    (small, apart(("U1", "A")), "flow f: there is no way from unit U1 to unit A"),
    (small, apart(("A", "U2"), logical=True), "flow f: there is no way from unit A to unit U2"),
    (small, apart(("U1", "U1")), "flow f: there is no way from unit U1 to unit U1"),
    (small, apart(("U1", "U2"), via=["R"]), "flow f: its way is one link, and goes over no router"),
    (small, clash, "flows one and two want different ports for logical address 0x32 at router R: port R:up and port R:5"),
    (small, led("S", [6]), "flow f: links and declared entries lead 0x32 from router R on no way to unit T"),
    (small, led("R", [9]), "flow f: links and declared entries lead 0x32 from router R on no way to unit T"),
    (small, led("R", [1]), "flow f: links and declared entries lead 0x32 from router R on no way to unit T"),
    (small, led("S", [3, 6]), "flow f: port S:6 leads 0x32 to unit B, and not to T"),
    (small, led("R", [2], delete=True), "flow f: router R deletes 0x32 before the last router"),
    (small, led("R", [2], via=["R:5"]), "flow f: the table of router R leads 0x32 to port R:up, and its way goes by port R:5"),
    (small, lambda net: (net.route("R", 40, [1], delete=True), flowing(reply=Reply(logical=True))(net)), "flow f+reply: the last router deletes 0x28"),
    (small, lambda net: (net.unit("U"), net.text()), "unit U has no link"),
    (small, lambda net: (net.router("U"), net.text()), "router U has no link"),
    (small, lambda net: Network().text(), "there is no unit"),
    (small, lambda net: net.text("nominal"), "there is no mode 'nominal'; the modes: none"),
    (small, lambda net: net.write_modes("/nowhere"), "the network has no modes"),
    (small, lambda net: Network(modes=("a", "a")), "there are two modes named a"),
    (small, lambda net: Network(modes=("a b",)), "mode 'a b'"),
    (small, lambda net: Network("\x07"), "the comment of the title"),
    (small, long_line(32), "flow far: its address has 33 bytes, and may have 32"),
    (small, long_line(13, reply=True), "the reply's path of flow far has 13 bytes, and may have 12"),
    (small, many_units, "there are 1025 units, and a network file may have 1024"),
    (small, lambda _: chain(513).text(), "there are 513 routers, and a network file may have 512"),
    (small, lambda _: chain(257, links=4).text(), "there are 1025 links, and a network file may have 1024"),
    (small, many_flows, "there are 4097 flows, and a network file may have 4096"),
    (moded, lambda net: net.unit("U", modes=("nominal", "safe")), "unit U: there is no mode 'safe'; the modes: nominal, redundant"),
    (moded, lambda net: net.unit("U", modes=()), "unit U is on in no mode"),
    (moded, lambda net: net.text("safe"), "there is no mode 'safe'"),
    (moded, lambda net: net.link("N", "Q:1"), "link N to Q:1 is on in no mode: N is on in nominal; Q is on in redundant"),
    (moded, lambda net: net.link("A", "Q:1"), "unit A is taken twice: by link A to R:1 and by link A to Q:1"),
    (moded, lambda net: net.link(net.unit("U"), "Q:1", modes="nominal"), "link U to Q:1 is to be on in mode nominal, in which Q is off"),
    (moded, lambda net: (net.link(net.unit("U"), "R:7", modes="nominal"), net.link(net.unit("V"), "R:7", modes="redundant")), "port R:7 is taken twice"),
    (moded, lambda net: net.flow("f", "N", "T", via=["Q"]), "flow f is on in no mode"),
    (moded, lambda net: net.flow("f", "N", "T", modes=MODES), "flow f is to be on in mode redundant, in which N is off"),
    (moded, lambda net: net.flow("f", "A", "T", reply=Reply(via=["Q"]), modes="nominal"), "flow f is to be on in mode nominal, in which Q is off"),
    (moded, lambda net: (net.unit("U"), net.text("nominal")), "mode nominal: unit U has no link"),
    (moded, lambda net: (net.link(net.unit("U"), "R:7", modes="nominal"), net.text("redundant")), "mode redundant: unit U has no link"),
]

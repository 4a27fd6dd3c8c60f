"""Describes a network in Python, writes its network files for swcheck, runs the program and reads its objects.

SpaceWire is ECSS-E-ST-50-12C, RMAP is ECSS-E-ST-50-52C. docs/FORMATS.md has the keys of the network file, and
docs/OBJECTS.md the objects that the program writes.

    from swcheck import Network, Target, run

    net = Network("camera bus")
    obc = net.unit("OBC", logical=0x40)
    cam = net.unit("CAM", logical=0x61, target=Target(size=4096))
    r1 = net.router("R1", ports={"obc": 1, "cam": 2})
    net.link(obc, r1.port("obc"))
    net.link(cam, r1.port("cam"))
    net.flow("hk", obc, cam, reply=True, outstanding=1)
    net.write("camera-bus.toml")
    print(run("decide", "camera-bus.toml").kind)

A unit is a `node` of the file, a router a `switch`. Units and routers may be given as objects or by their names, ports
as objects or as "R1:cam" and "R1:2". Ways are found when a file is written, over all links that are declared by then.
The same description gives the same bytes: all stands in the order in which it was declared, and routing tables by
their addresses.

A network may have modes, as nominal and redundant. What names no modes is on wherever its parts are: a link where its
two ends are, a flow where its units are and the routers that it names. A unit has one link in each mode, so it may have
a nominal link and a redundant one. The file of a mode has what is on in it, and names at its end what is not.

What can't be done is a `SwcheckError` that names the unit, router, port, flow, mode, or file and line. Nothing is
proved here: what the program tells is told of the files that are written.
"""
from __future__ import annotations

import csv
import json
import os
import re
import subprocess
import textwrap
from collections import deque
from collections.abc import Callable, Iterable, Iterator, Mapping, Sequence
from dataclasses import dataclass
from types import MappingProxyType
from typing import Any, TypeAlias

# The commands of the program that answer as JSON.
COMMANDS = ("audit", "check", "decide", "explain", "margin", "mend", "replay", "report", "route", "run")
ARBITERS = ("fixed", "round-robin", "least-recent")
NAME = re.compile(r"[A-Za-z0-9_.-]{1,32}")
NUMBER = re.compile(r"0[xX][0-9A-Fa-f]+|[0-9]+")
# What a comment of TOML or a file in UTF-8 can't have.
CONTROL = re.compile(r"[\x00-\x08\x0b-\x1f\x7f\ud800-\udfff]")
# The most of each that a network file may have.
MOST = {"units": 1024, "routers": 512, "links": 1024, "flows": 4096}
# The most bytes of an address in a network file, and of a reply address of RMAP (ECSS-E-ST-50-52C).
MOST_BYTES, MOST_REPLY_BYTES = 32, 12
# Where the addresses end that RMAP has, of 40 bits (ECSS-E-ST-50-52C).
END_OF_MEMORY = 1 << 40
# How long a line of a comment is made.
WIDTH = 118


class SwcheckError(Exception):
    """What is wrong with a description, a table or a call. Its text names what it is about."""


# What a network is of.


@dataclass(frozen=True)
class Target:
    """The RMAP target of a unit, with one window of memory (ECSS-E-ST-50-52C).

    size: bytes of the window, 1 to 65,536.
    start: its first address, from 0; `start + size` is at most 2^40.
    key: the key that commands have to have, 0 to 255.
    slots: how many replies it may owe at once, 1 to 64; while it owes so many it takes nothing.
    """

    size: int
    start: int = 0
    key: int = 0
    slots: int = 1


@dataclass(frozen=True, eq=False)
class Unit:
    """A unit, made by `Network.unit`."""

    name: str
    logical: int | None
    target: Target | None
    outstanding: int | None
    modes: tuple[str, ...]
    comment: str

    def __str__(self) -> str:
        return self.name


@dataclass(frozen=True, eq=False)
class Router:
    """A routing switch (ECSS-E-ST-50-12C, network layer: wormhole routing), made by `Network.router`."""

    name: str
    ports: Mapping[str, int]
    arbiter: str | None
    modes: tuple[str, ...]
    comment: str

    def port(self, port: int | str) -> Port:
        """The port of that number, 0 to 31, or of that name. Raises SwcheckError where there is none."""
        if not isinstance(port, str):
            return Port(self, _number(f"a port of router {self}", port, 0, 31))
        if port in self.ports:
            return Port(self, self.ports[port])
        if not NUMBER.fullmatch(port):
            names = ", ".join(self.ports) or "none"
            raise SwcheckError(f"router {self} has no port named '{port}'; the names of its ports: {names}")
        return self.port(_parsed(f"a port of router {self}", port))

    def __str__(self) -> str:
        return self.name


@dataclass(frozen=True)
class Port:
    """A port of a router. Its number is the path address that leads out by it (ECSS-E-ST-50-12C, network layer)."""

    router: Router
    number: int

    def __str__(self) -> str:
        names = (name for name, number in self.router.ports.items() if number == self.number)
        return f"{self.router}:{next(names, self.number)}"


# What a link has at its ends, what a flow goes over, and how these may be given.
End: TypeAlias = Unit | Port
Stop: TypeAlias = Router | Port
AnyUnit: TypeAlias = Unit | str
AnyRouter: TypeAlias = Router | str
AnyEnd: TypeAlias = Unit | Port | str
AnyStop: TypeAlias = Router | Port | str
Modes: TypeAlias = str | Iterable[str] | None
Path: TypeAlias = str | os.PathLike[str]


@dataclass(frozen=True, eq=False)
class Link:
    """A link, made by `Network.link`. The buffers are numbers of characters."""

    a: End
    b: End
    buffer: int | None
    buffer_a: int | None
    buffer_b: int | None
    modes: tuple[str, ...]
    comment: str

    def __str__(self) -> str:
        return f"{self.a} to {self.b}"


@dataclass(frozen=True)
class Entry:
    """An entry of a router's table, for the logical addresses from `address` to `last`: declared, or found for a flow.

    ports: their numbers; of several a packet takes any (ECSS-E-ST-50-12C, network layer: group adaptive routing).
    delete: whether the router deletes the address (regional addressing).
    flow: the flow, or `FLOW+reply`, for which it was found; empty where it was declared.
    """

    router: Router
    address: int
    last: int
    ports: tuple[int, ...]
    delete: bool = False
    modes: tuple[str, ...] = ()
    comment: str = ""
    flow: str = ""

    def __str__(self) -> str:
        return _hex(self.address) + ("" if self.last == self.address else f" to {_hex(self.last)}")


@dataclass(frozen=True)
class Reply:
    """How the replies to a flow go, for `Network.flow`.

    via: routers, or ports by which they leave routers, in this order. Where it is left out they go the way of the
    commands back if that is known, as of commands by a path or with `via`, and else the shortest.
    logical: whether they go by the initiator logical address alone, and not by a path; as the commands where it is left
    out. Then they go the shortest way, unless the reply or the flow has `via`.
    path: in place of both the path address as it is, at most 12 bytes, the first not 0 (ECSS-E-ST-50-52C, reply
    address).
    initiator: the initiator logical address, 32 to 254; the logical address of the unit where it is left out.
    """

    via: Sequence[AnyStop] | None = None
    logical: bool | None = None
    path: Sequence[int] | None = None
    initiator: int | None = None


@dataclass(frozen=True)
class _Answered:
    """A `Reply` whose names are looked up, and its numbers checked."""

    via: tuple[Stop, ...] | None
    logical: bool
    path: tuple[int, ...] | None
    initiator: int


@dataclass(frozen=True, eq=False)
class Flow:
    """A flow as it was declared by `Network.flow`."""

    name: str
    from_: Unit
    to: Unit
    via: tuple[Stop, ...]
    logical: bool
    address: tuple[int, ...] | None
    left: int
    reply: _Answered | None
    outstanding: int | None
    modes: tuple[str, ...]
    comment: str

    def __str__(self) -> str:
        return self.name


# What a network file has.


@dataclass(frozen=True)
class PlannedReply:
    """The `reply` of a flow in the file. `way`: the ports by which replies leave routers, where a path was found."""

    path: tuple[int, ...]
    initiator: int
    outstanding: int | None
    way: tuple[Port, ...]


@dataclass(frozen=True)
class PlannedFlow:
    """A flow in the file. `way`: the ports by which its packets leave routers, where a path was found."""

    name: str
    from_: Unit
    to: Unit
    address: tuple[int, ...]
    left: int
    reply: PlannedReply | None
    way: tuple[Port, ...]
    comment: str


@dataclass(frozen=True)
class Plan:
    """What the file of a mode has; of all modes together, or of a network without modes, where `mode` is None.

    entries: those of the routing tables, declared and found: router by router, by their addresses.
    off: the names of what is off in the mode, by its kind.
    """

    mode: str | None
    units: tuple[Unit, ...]
    routers: tuple[Router, ...]
    links: tuple[Link, ...]
    entries: tuple[Entry, ...]
    flows: tuple[PlannedFlow, ...]
    off: Mapping[str, tuple[str, ...]]


class Network:
    """A description of a network.

    title: a comment for the head of its files.
    modes: the names of its modes, of which it is in one at a time; none where it is always the same.
    """

    def __init__(self, title: str = "", modes: str | Iterable[str] = ()) -> None:
        self.title = _comment("the title", title)
        self.modes: tuple[str, ...] = (modes,) if isinstance(modes, str) else tuple(modes)
        self._units: dict[str, Unit] = {}
        self._routers: dict[str, Router] = {}
        self._links: list[Link] = []
        self._entries: list[Entry] = []
        self._flows: dict[str, Flow] = {}
        for at, mode in enumerate(self.modes):
            if _name("mode", mode) in self.modes[:at]:
                raise SwcheckError(f"there are two modes named {mode}")

    def unit(
        self,
        name: str,
        *,
        logical: int | None = None,
        target: Target | None = None,
        outstanding: int | None = None,
        modes: Modes = None,
        comment: str = "",
    ) -> Unit:
        """Declares a unit: a `node`.

        logical: its logical address, 32 to 254, in routing tables (ECSS-E-ST-50-12C, network layer), as the target
        logical address of commands to it and the initiator logical address of its own (ECSS-E-ST-50-52C).
        target: where it answers RMAP commands; then it has to have a logical address.
        outstanding: how many of its commands, of all flows together, may be unanswered at once, 1 to 65,535; any number
        where it is left out.
        Raises SwcheckError for a name that is taken or not allowed, and what is out of range.
        """
        what = self._new_name("unit", name)
        _may_be(f"the logical address of {what}", logical, 32, 254)
        _may_be(f"'outstanding' of {what}", outstanding, 1, 65535)
        if target is not None:
            if logical is None:
                raise SwcheckError(f"{what} is a target, and has no logical address")
            _number(f"the size of the target of {what}", target.size, 1, 65536)
            _number(f"the start of the target of {what}", target.start, 0, END_OF_MEMORY - target.size)
            _number(f"the key of the target of {what}", target.key, 0, 255)
            _number(f"'slots' of the target of {what}", target.slots, 1, 64)
        made = Unit(name, logical, target, outstanding, self._modes_of(what, modes, ()), _comment(what, comment))
        self._units[name] = made
        return made

    def router(
        self,
        name: str,
        *,
        ports: Mapping[str, int] | None = None,
        arbiter: str | None = None,
        modes: Modes = None,
        comment: str = "",
    ) -> Router:
        """Declares a router: a `switch`.

        ports: the numbers of ports, 0 to 31, by their names; a port without a name is used by its number.
        arbiter: "fixed", "round-robin" or "least-recent", round-robin where it is left out; no verdict hangs on it.
        Raises SwcheckError for a name that is taken or not allowed, two names of one port, and what is out of range.
        """
        what = self._new_name("router", name)
        names: dict[int, str] = {}
        for port, number in (ports or {}).items():
            if _name(f"{what}: port", port).isdigit():
                raise SwcheckError(f"{what}: port {port} is named as if that were its number")
            other = names.setdefault(_number(f"the number of port {port} of {what}", number, 0, 31), port)
            if other != port:
                raise SwcheckError(f"{what}: port {number} has two names, {other} and {port}")
        if arbiter is not None and arbiter not in ARBITERS:
            raise SwcheckError(f"the arbiter of {what} is {arbiter!r}, and none of {', '.join(ARBITERS)}")
        numbers = MappingProxyType(dict(ports or {}))
        made = Router(name, numbers, arbiter, self._modes_of(what, modes, ()), _comment(what, comment))
        self._routers[name] = made
        return made

    def link(
        self,
        a: AnyEnd,
        b: AnyEnd,
        *,
        buffer: int | None = None,
        buffer_a: int | None = None,
        buffer_b: int | None = None,
        modes: Modes = None,
        comment: str = "",
    ) -> Link:
        """Declares a link between two ends, each a unit or a port of a router.

        buffer: how many characters the receive buffers hold, 8 to 4,096; `buffer_a` and `buffer_b`: the one at an end.
        Raises SwcheckError for what is not in the network, a port that is taken, a unit that has a link in the same
        mode already, and what is out of range.
        """
        ends = (self._end(a), self._end(b))
        what = f"link {ends[0]} to {ends[1]}"
        for key, value in (("buffer", buffer), ("buffer_a", buffer_a), ("buffer_b", buffer_b)):
            _may_be(f"'{key}' of {what}", value, 8, 4096)
        parts: list[Unit | Router] = [it.router if isinstance(it, Port) else it for it in ends]
        here = self._modes_of(what, modes, parts)
        made = Link(*ends, buffer, buffer_a, buffer_b, here, _comment(what, comment))
        if ends[0] == ends[1]:
            raise SwcheckError(f"{what} has both its ends at one place")
        for other in self._links:
            for end in ends:
                # a port has one plug, whatever the mode; a unit may have a link for each mode
                if end in (other.a, other.b) and (isinstance(end, Port) or self._meet(here, other.modes)):
                    kind = "port" if isinstance(end, Port) else "unit"
                    raise SwcheckError(f"{kind} {end} is taken twice: by link {other} and by {what}")
        self._links.append(made)
        return made

    def route(
        self,
        router: AnyRouter,
        address: int,
        ports: Sequence[int | str],
        *,
        last: int | None = None,
        delete: bool = False,
        modes: Modes = None,
        comment: str = "",
    ) -> Entry:
        """Declares an entry of a router's table, by which flows with a logical address go; entries that lack are found.

        address, last: the logical addresses that it is for, 32 to 254; `address` alone where `last` is left out.
        ports: 1 to 32 ports of the router, by numbers or names; of several a packet takes any (group adaptive routing).
        delete: whether the router deletes the address (regional addressing).
        Raises SwcheckError for a router and ports that are not there, a port that is named twice, an address that has
        an entry in the same mode already, and what is out of range.
        """
        at = self._router(router)
        _number(f"the address of an entry of router {at}", address, 32, 254)
        what = f"the entry of router {at} for {_hex(address)}"
        end = address if last is None else _number(f"'last' of {what}", last, address, 254)
        if isinstance(ports, (str, int)) or not ports:
            raise SwcheckError(f"{what} has to have a list of 1 to 32 ports")
        numbers = tuple(at.port(it).number for it in ports)
        for it in numbers:
            if numbers.count(it) > 1:
                raise SwcheckError(f"{what} names port {Port(at, it)} twice")
        here = self._modes_of(what, modes, [at])
        made = Entry(at, address, end, numbers, bool(delete), here, _comment(what, comment))
        for other in self._entries:
            if _overlap(made, other) and self._meet(here, other.modes):
                twice = _hex(max(address, other.address))
                raise SwcheckError(f"router {at} has two entries for {twice}: those for {other} and for {made}")
        self._entries.append(made)
        return made

    def flow(
        self,
        name: str,
        from_: AnyUnit,
        to: AnyUnit,
        *,
        via: Sequence[AnyStop] | None = None,
        logical: bool = False,
        address: Sequence[int] | None = None,
        left: int | None = None,
        reply: bool | Reply = False,
        outstanding: int | None = None,
        modes: Modes = None,
        comment: str = "",
    ) -> Flow:
        """Declares a flow: all packets that go from one unit to another and begin with one address.

        Where no more is said they go by path addresses, the shortest way; of several that way whose links were declared
        first, from the beginning on. The logical address of `to`, if it has one, stands behind the path, and is left.

        via: routers, or ports by which they leave routers, in this order; between these the way is the shortest.
        logical: they go by the logical address of `to` alone, and routers on the way get the entries that lack.
        address, left: the address bytes as they are, at most 32, and how many of them are left at the end, else 0.
        reply: they may be RMAP commands that `to` answers; replies go the same way back, unless a `Reply` says more.
        outstanding: how many of these commands may be unanswered at once, 1 to 65,535; any number where it is left out.
        Raises SwcheckError for a name that is taken or not allowed, units and routers that are not in the network, what
        is out of range, and words that do not fit each other.
        """
        what = f"flow {_name('flow', name)}"
        if name in self._flows:
            raise SwcheckError(f"there are two flows named {name}")
        start, end, stops = self._unit(from_), self._unit(to), self._stops(what, via)
        if address is None and left is not None:
            raise SwcheckError(f"{what} has 'left', and no 'address'")
        if address is not None and (via is not None or logical):
            raise SwcheckError(f"{what} has 'address', and 'via' or 'logical' too")
        if logical and end.logical is None:
            raise SwcheckError(f"{what} goes by a logical address, and unit {end} has none")
        exact = None if address is None else _bytes(f"the address of {what}", address, MOST_BYTES)
        _may_be(f"'left' of {what}", left, 0, len(exact or ()))
        answered = self._answered(what, start, end, bool(logical), reply)
        _may_be(f"'outstanding' of {what}", outstanding, 1, 65535)
        if outstanding is not None and answered is None:
            raise SwcheckError(f"{what} has 'outstanding', and no reply")
        over = [it.router if isinstance(it, Port) else it for it in (*stops, *(answered and answered.via or ()))]
        parts: list[Unit | Router] = [start, end, *over]
        here = self._modes_of(what, modes, parts)
        told = _comment(what, comment)
        made = Flow(name, start, end, stops, bool(logical), exact, left or 0, answered, outstanding, here, told)
        self._flows[name] = made
        return made

    def read_links(self, path: Path, delimiter: str = ",") -> list[Link]:
        """Declares the links of a table in CSV (UTF-8). Their units and routers have to be declared already.

        Its first row names the columns: `a`, `a_port`, `b`, `b_port`, and as need be `buffer`, `buffer_a`, `buffer_b`,
        `modes` (names with spaces between them) and `comment`. A port is a number or a name, and empty beside a unit.
        Empty rows, and rows that begin with `#`, are skipped.
        Raises SwcheckError, with file and line, and then declares no link; OSError where the file can't be read.
        """
        buffers = ("buffer", "buffer_a", "buffer_b")

        def declare(row: dict[str, str]) -> Link:
            both, at_a, at_b = (_parsed(key, row[key]) if row[key] else None for key in buffers)
            a, b, modes, comment = self._end_of(row, "a"), self._end_of(row, "b"), row["modes"].split(), row["comment"]
            return self.link(a, b, buffer=both, buffer_a=at_a, buffer_b=at_b, modes=modes or None, comment=comment)

        rows = _rows(path, delimiter, ("a", "a_port", "b", "b_port"), (*buffers, "modes", "comment"))
        return _all_or_none(rows, declare, self._links)

    def read_routes(self, path: Path, delimiter: str = ",") -> list[Entry]:
        """Declares the entries of a table in CSV, as `write_routes` writes it. Their routers are declared already.

        Its columns are `router`, `address`, `ports` (numbers or names with spaces between them), and as need be `last`,
        `delete` (`true` or `false`), `modes` and `comment`. Numbers are decimal, or hexadecimal behind `0x`. For the
        rest it is as `read_links`.
        """

        def declare(row: dict[str, str]) -> Entry:
            if row["delete"] not in ("", "true", "false"):
                raise SwcheckError(f"'delete' is '{row['delete']}', and neither true nor false")
            address, last = _parsed("address", row["address"]), _parsed("last", row["last"]) if row["last"] else None
            given, modes, comment = (row["router"], address, row["ports"].split()), row["modes"].split(), row["comment"]
            return self.route(*given, last=last, delete=row["delete"] == "true", modes=modes or None, comment=comment)

        rows = _rows(path, delimiter, ("router", "address", "ports"), ("last", "delete", "modes", "comment"))
        return _all_or_none(rows, declare, self._entries)

    def write_routes(self, path: Path, mode: str | None = None) -> None:
        """Writes the routing tables of a mode as CSV, found entries too, to be compared with the tables that fly."""
        entries = self.plan(mode).entries
        with open(path, "w", encoding="utf-8", newline="") as it:
            table = csv.writer(it, lineterminator="\n")
            table.writerow(("router", "address", "last", "ports", "delete", "comment"))
            for entry in entries:
                numbers = (_hex(entry.address), _hex(entry.last), " ".join(map(str, entry.ports)))
                table.writerow((entry.router, *numbers, "true" if entry.delete else "false", entry.comment))

    def plan(self, mode: str | None = None) -> Plan:
        """What the file of a mode has. None is for a network without modes, or for all modes together.

        All modes together are one network, in which everything is on, and of which each mode is a part.
        Raises SwcheckError for an unknown mode, a unit or a router that is on and has no link, a flow for which there
        is no way, two flows that want different ports for one logical address at one router, an address that gets too
        long, and more parts than a file may have. Of all modes together it is also raised for a unit that has several
        links, and for a flow or an entry that is not the same in each mode.
        """
        if mode is None and self.modes:
            return self._together()
        if mode is not None and mode not in self.modes:
            raise self._no_mode("the network", mode)
        try:
            return self._plan_of(mode)
        except SwcheckError as why:
            raise SwcheckError(f"mode {mode}: {why}" if mode else str(why)) from None

    def text(self, mode: str | None = None) -> str:
        """The network file, of version 3, of a mode: see `plan`."""
        return _text(self.title, self.plan(mode))

    def write(self, path: Path, mode: str | None = None) -> None:
        """Writes the network file of a mode: see `plan`. Where it can't be made, nothing at that path is touched."""
        _write({os.fspath(path): self.text(mode)})

    def write_modes(self, folder: Path) -> dict[str, str]:
        """Writes the file of each mode, MODE.toml, to a folder, made if need be. Returns the paths by the modes."""
        if not self.modes:
            raise SwcheckError("the network has no modes, of which each would have a file: see 'write'")
        paths = {mode: os.path.join(folder, f"{mode}.toml") for mode in self.modes}
        texts = {paths[mode]: self.text(mode) for mode in self.modes}
        os.makedirs(folder, exist_ok=True)
        _write(texts)
        return paths

    # What names and objects stand for.

    def _new_name(self, kind: str, name: str) -> str:
        """The kind and the name of a part, if no other one has that name."""
        _name(kind, name)
        if name in self._units or name in self._routers:
            other = "unit" if name in self._units else "router"
            raise SwcheckError(f"{kind} {name}: there is a {other} of this name already")
        return f"{kind} {name}"

    def _unit(self, given: AnyUnit) -> Unit:
        found = self._units.get(given.name if isinstance(given, Unit) else given if isinstance(given, str) else "")
        if found is None or found is not given and not isinstance(given, str):
            raise SwcheckError(f"there is no unit '{given}' in this network")
        return found

    def _router(self, given: AnyRouter) -> Router:
        found = self._routers.get(given.name if isinstance(given, Router) else given if isinstance(given, str) else "")
        if found is None or found is not given and not isinstance(given, str):
            raise SwcheckError(f"there is no router '{given}' in this network")
        return found

    def _port(self, given: Port | str) -> Port:
        """A port, which may be given as ROUTER:PORT."""
        if isinstance(given, Port):
            return self._router(given.router).port(given.number)
        router, port = given.split(":", 1)
        return self._router(router).port(port)

    def _end(self, given: AnyEnd) -> End:
        if isinstance(given, Port) or isinstance(given, str) and ":" in given:
            return self._port(given)
        if isinstance(given, Router) or isinstance(given, str) and given in self._routers:
            raise SwcheckError(f"a link ends at router {given}, and no port is said: it may be, as {given}:1")
        return self._unit(given)

    def _end_of(self, row: dict[str, str], side: str) -> End:
        """The end of a link in a row of a table."""
        name, port = row[side], row[f"{side}_port"]
        if name in self._routers:
            if not port:
                raise SwcheckError(f"'{side}_port' is empty, beside router {name}")
            return self._routers[name].port(port)
        if name not in self._units:
            raise SwcheckError(f"there is no unit or router '{name}' in this network")
        if port:
            raise SwcheckError(f"'{side}_port' is '{port}', beside unit {name}")
        return self._units[name]

    def _stops(self, what: str, given: Sequence[AnyStop] | None) -> tuple[Stop, ...]:
        if isinstance(given, (str, Router, Port)):
            raise SwcheckError(f"'via' of {what} has to be a list")
        found: list[Stop] = []
        for it in given or ():
            is_port = isinstance(it, Port) or isinstance(it, str) and ":" in it
            found.append(self._port(it) if is_port else self._router(it))  # type: ignore[arg-type]
        return tuple(found)

    def _answered(self, what: str, from_: Unit, to: Unit, is_logical: bool, given: bool | Reply) -> _Answered | None:
        if given is False:
            return None
        reply = Reply() if given is True else given
        if not isinstance(reply, Reply):
            raise SwcheckError(f"'reply' of {what} is {given!r}, and neither true, false nor a Reply")
        if to.target is None:
            raise SwcheckError(f"{what} is answered, and unit {to} is no target")
        initiator = from_.logical if reply.initiator is None else reply.initiator
        if initiator is None:
            raise SwcheckError(f"{what} is answered, and unit {from_} has no logical address, to which replies go")
        _number(f"the initiator of {what}", initiator, 32, 254)
        if reply.path is not None and (reply.via is not None or reply.logical):
            raise SwcheckError(f"the reply of {what} has 'path', and 'via' or 'logical' too")
        path = None if reply.path is None else _reply_path(what, reply.path)
        via = None if reply.via is None else self._stops(f"the reply of {what}", reply.via)
        return _Answered(via, is_logical if reply.logical is None else bool(reply.logical), path, initiator)

    # Modes.

    def _no_mode(self, what: str, mode: str) -> SwcheckError:
        return SwcheckError(f"{what}: there is no mode '{mode}'; the modes: {', '.join(self.modes) or 'none'}")

    def _modes_of(self, what: str, given: Modes, parts: Sequence[Unit | Router]) -> tuple[str, ...]:
        """In which modes something is on: those that are given, or all in which each of its parts is."""
        names = (given,) if isinstance(given, str) else None if given is None else tuple(given)
        for name in names or ():
            if name not in self.modes:
                raise self._no_mode(what, name)
            for part in parts:
                if name not in part.modes:
                    raise SwcheckError(f"{what} is to be on in mode {name}, in which {part} is off")
        shared = [it for it in self.modes if all(it in part.modes for part in parts)]
        found = tuple(it for it in shared if names is None or it in names)
        if not found and (self.modes or names is not None):
            told = "; ".join(f"{it} is on in {', '.join(it.modes)}" for it in parts)
            raise SwcheckError(f"{what} is on in no mode{': ' if told else ''}{told}")
        return found

    def _meet(self, one: Sequence[str], other: Sequence[str]) -> bool:
        """Whether what is on in the ones and what is on in the others are on together in some mode."""
        return not self.modes or any(it in other for it in one)

    # Plans.

    def _plan_of(self, mode: str | None) -> Plan:
        every: dict[str, list[Any]] = {
            "units": [*self._units.values()],
            "routers": [*self._routers.values()],
            "links": self._links,
            "flows": [*self._flows.values()],
        }
        on = {kind: [it for it in of if mode is None or mode in it.modes] for kind, of in every.items()}
        off = {kind: tuple(str(it) for it in of if mode and mode not in it.modes) for kind, of in every.items()}
        entries = [it for it in self._entries if mode is None or mode in it.modes]
        units, routers, links = (tuple(on[kind]) for kind in ("units", "routers", "links"))
        _check_links(units, routers, links)
        wiring = _Wiring(links)
        tables = _Tables(wiring, entries)
        flows = tuple(_planned(it, wiring, tables) for it in on["flows"])
        ordered = _in_order(routers, [*entries, *tables.found.values()])
        return _checked(Plan(mode, units, routers, links, ordered, flows, off))

    def _together(self) -> Plan:
        plans = [self.plan(mode) for mode in self.modes]
        units, routers = tuple(self._units.values()), tuple(self._routers.values())
        flows: dict[str, PlannedFlow] = {}
        entries: list[Entry] = []
        try:
            _check_links(units, routers, self._links)
            for plan in plans:
                for flow in plan.flows:
                    if flows.setdefault(flow.name, flow) != flow:
                        raise SwcheckError(f"flow {flow.name} has another address in mode {plan.mode}")
                for entry in plan.entries:
                    _join(entries, entry)
            ordered = tuple(flows[name] for name in self._flows)
            tables = _in_order(routers, entries)
            return _checked(Plan(None, units, routers, tuple(self._links), tables, ordered, {}))
        except SwcheckError as why:
            raise SwcheckError(f"all modes together: {why}; each mode by itself can be written") from None


# Ways and tables.


class _Wiring:
    """The links that are on."""

    def __init__(self, links: Iterable[Link]) -> None:
        self.across: dict[End, End] = {}
        self.exits: dict[Router, list[tuple[Port, End]]] = {}
        for link in links:
            for one, other in ((link.a, link.b), (link.b, link.a)):
                self.across[one] = other
                if isinstance(one, Port):
                    self.exits.setdefault(one.router, []).append((one, other))
        self._known: dict[tuple[Router, int], dict[Router, int]] = {}

    def distances(self, goal: Router, address: int, is_open: Callable[[Port], bool]) -> dict[Router, int]:
        """How many links routers are away from the goal, over the ports that are open to packets of this address."""
        if (goal, address) not in self._known:
            before: dict[Router, list[Router]] = {}
            for router, exits in self.exits.items():
                for port, end in exits:
                    if isinstance(end, Port) and is_open(port):
                        before.setdefault(end.router, []).append(router)
            found, left = {goal: 0}, deque([goal])
            while left:
                router = left.popleft()
                for it in before.get(router, ()):
                    if it not in found:
                        found[it] = found[router] + 1
                        left.append(it)
            self._known[goal, address] = found
        return self._known[goal, address]

    def step(self, router: Router, distances: Mapping[Router, int]) -> Port:
        """The first port, in the order of the links, that leads from a router nearer to the goal."""
        near = distances[router] - 1
        return next(it for it, end in self.exits[router] if isinstance(end, Port) and distances.get(end.router) == near)

    def ends(self, name: str, from_: Unit, to: Unit) -> tuple[Port, Port] | None:
        """Where packets come to the first router, and where they leave the last one; None where one link is the way."""
        start, goal = self.across[from_], self.across[to]
        if start is to:
            return None
        if isinstance(start, Unit) or isinstance(goal, Unit):
            raise SwcheckError(f"flow {name}: there is no way from unit {from_} to unit {to}")
        return start, goal

    def way(self, name: str, from_: Unit, to: Unit, stops: Sequence[Stop]) -> tuple[Port, ...]:
        """The ports by which packets leave routers on the shortest way over the stops."""
        ends = self.ends(name, from_, to)
        if ends is None:
            if stops:
                raise SwcheckError(f"flow {name}: its way is one link, and goes over no router")
            return ()
        (router, goal), ports = (ends[0].router, ends[1]), []
        for stop in (*(stops[:-1] if stops and stops[-1] == goal else stops), goal):
            nearest = stop.router if isinstance(stop, Port) else stop
            distances = self.distances(nearest, 0, lambda port: True)
            if router not in distances:
                told = f", since none from router {router} to router {nearest}" if stops else ""
                raise SwcheckError(f"flow {name}: there is no way from unit {from_} to unit {to}{told}")
            while router is not nearest:
                ports.append(self.step(router, distances))
                router = self._behind(name, ports[-1])
            if isinstance(stop, Port):
                ports.append(stop)
                router = router if stop == goal else self._behind(name, stop)
        routers = [it.router for it in ports]
        for it in routers:
            if routers.count(it) > 1:
                why = "name more routers in 'via', or in another order"
                raise SwcheckError(f"flow {name}: its way would go over router {it} twice; {why}")
        return tuple(ports)

    def _behind(self, name: str, port: Port) -> Router:
        end = self.across.get(port)
        if not isinstance(end, Port):
            raise SwcheckError(f"flow {name}: port {port} has no link to a router")
        return end.router

    def back(self, from_: Unit, way: Sequence[Port]) -> tuple[Port, ...]:
        """The ports by which packets leave routers on the same way back to the unit that it is from."""
        left: list[End] = [from_, *way]
        entered = [self.across[it] for it in left[: len(way)]]
        return tuple(it for it in reversed(entered) if isinstance(it, Port))


class _Tables:
    """The entries of routing tables that are declared, and those that flows want beside."""

    def __init__(self, wiring: _Wiring, entries: Iterable[Entry]) -> None:
        self.wiring = wiring
        self.declared = {(it.router, address): it for it in entries for address in range(it.address, it.last + 1)}
        self.found: dict[tuple[Router, int], Entry] = {}

    def lead(self, name: str, from_: Unit, to: Unit, address: int, way: Sequence[Port]) -> int:
        """Adds what lacks for packets of a logical address, by the way's ports at its routers. Returns their `left`."""
        ends = self.wiring.ends(name, from_, to)
        if ends is None:
            return 1
        (first, goal), asked = (ends[0].router, ends[1]), {it.router: it for it in way}
        distances = self.wiring.distances(goal.router, address, lambda port: self._is_open(port, address))
        reached = [first]
        for router in reached:
            if router not in distances or not self._is_open(goal, address):
                told = f"links and declared entries lead {_hex(address)} from router {router} on no way to unit {to}"
                raise SwcheckError(f"flow {name}: {told}")
            entry = self.declared.get((router, address))
            if entry is None:
                nearer = goal if router is goal.router else self.wiring.step(router, distances)
                entry = self._want(name, to, address, asked.get(router, nearer))
            elif router in asked and entry.ports != (asked[router].number,):
                told = f"the table of router {router} leads {_hex(address)} to {_told(entry)}"
                raise SwcheckError(f"flow {name}: {told}, and its way goes by port {asked[router]}")
            for end in self._led_to(name, to, address, entry):
                if end not in reached:
                    reached.append(end)
        last = self.declared.get((goal.router, address))
        return 0 if last is not None and last.delete else 1

    def _is_open(self, port: Port, address: int) -> bool:
        entry = self.declared.get((port.router, address))
        return entry is None or port.number in entry.ports

    def _want(self, name: str, to: Unit, address: int, port: Port) -> Entry:
        wanted = Entry(port.router, address, address, (port.number,), comment=f"to {to}", flow=name)
        entry = self.found.setdefault((port.router, address), wanted)
        if entry.ports != wanted.ports:
            what = f"different ports for logical address {_hex(address)} at router {port.router}"
            raise SwcheckError(f"flows {entry.flow} and {name} want {what}: {_told(entry)} and {_told(wanted)}")
        return entry

    def _led_to(self, name: str, to: Unit, address: int, entry: Entry) -> Iterator[Router]:
        """The routers to which an entry leads."""
        for port in (Port(entry.router, it) for it in entry.ports):
            end = self.wiring.across.get(port)
            if isinstance(end, Unit) and end is not to:
                raise SwcheckError(f"flow {name}: port {port} leads {_hex(address)} to unit {end}, and not to {to}")
            if isinstance(end, Port):
                if entry.delete:
                    told = f"router {entry.router} deletes {_hex(address)} before the last router"
                    raise SwcheckError(f"flow {name}: {told}")
                yield end.router


def _told(entry: Entry) -> str:
    return " or ".join(f"port {Port(entry.router, it)}" for it in entry.ports)


def _planned(flow: Flow, wiring: _Wiring, tables: _Tables) -> PlannedFlow:
    """The flow with its address, and that of its replies."""
    ends, logical = (flow.from_, flow.to), flow.to.logical
    way: tuple[Port, ...] = ()
    if flow.address is not None:
        address, left = flow.address, flow.left
    elif flow.logical and logical is not None:
        way = wiring.way(flow.name, *ends, flow.via) if flow.via else ()
        address, left = (logical,), tables.lead(flow.name, *ends, logical, way)
    else:
        way = wiring.way(flow.name, *ends, flow.via)
        behind = () if logical is None else (logical,)
        address, left = (*(it.number for it in way), *behind), len(behind)
    if len(address) > MOST_BYTES:
        raise SwcheckError(f"flow {flow}: its address has {len(address)} bytes, and may have {MOST_BYTES}")
    reply = _planned_reply(flow, flow.reply, way, wiring, tables) if flow.reply else None
    return PlannedFlow(flow.name, *ends, address, left, reply, () if flow.logical else way, flow.comment)


def _planned_reply(flow: Flow, reply: _Answered, way: Sequence[Port], wiring: _Wiring, tables: _Tables) -> PlannedReply:
    if reply.path is not None:
        return PlannedReply(reply.path, reply.initiator, flow.outstanding, ())
    name, ends = f"{flow}+reply", (flow.to, flow.from_)
    # (the way of commands by tables is known only where `via` says it)
    is_known = flow.address is None and (not flow.logical or bool(flow.via))
    back: tuple[Port, ...] | None = None
    if reply.via is not None:
        back = wiring.way(name, *ends, reply.via)
    elif is_known and (flow.via or not reply.logical):
        back = wiring.back(flow.from_, way)
    if reply.logical:
        if tables.lead(name, *ends, reply.initiator, back or ()) != 1:
            told = f"the last router deletes {_hex(reply.initiator)}, and replies have to arrive with it"
            raise SwcheckError(f"flow {name}: {told}")
        return PlannedReply((), reply.initiator, flow.outstanding, ())
    if back is None:
        back = wiring.way(name, *ends, ())
    path = _reply_path(f"flow {flow}", [it.number for it in back])
    return PlannedReply(path, reply.initiator, flow.outstanding, back)


def _check_links(units: Sequence[Unit], routers: Sequence[Router], links: Sequence[Link]) -> None:
    """Looks that each unit has one link, and each router one or more."""
    at_ends: dict[End, list[str]] = {}
    for link in links:
        for end in (link.a, link.b):
            at_ends.setdefault(end, []).append(str(link))
    for unit in units:
        of = at_ends.get(unit, [])
        if len(of) != 1:
            raise SwcheckError(f"unit {unit} has {'several links, ' if of else 'no link'}{' and '.join(of)}")
    linked = {it.router for it in at_ends if isinstance(it, Port)}
    for router in routers:
        if router not in linked:
            raise SwcheckError(f"router {router} has no link")


def _overlap(one: Entry, other: Entry) -> bool:
    return one.router is other.router and one.address <= other.last and other.address <= one.last


def _join(entries: list[Entry], entry: Entry) -> None:
    """Adds an entry of one more mode, if it is not there."""
    for other in entries:
        if _overlap(entry, other):
            both = [(it.address, it.last, it.ports, it.delete) for it in (other, entry)]
            if both[0] != both[1]:
                told = f"{other} to {_told(other)}, and in another mode {entry} to {_told(entry)}"
                raise SwcheckError(f"router {entry.router} leads {told}")
            return
    entries.append(entry)


def _in_order(routers: Iterable[Router], entries: Iterable[Entry]) -> tuple[Entry, ...]:
    of: dict[Router, list[Entry]] = {it: [] for it in routers}
    for entry in entries:
        of[entry.router].append(entry)
    return tuple(entry for it in of.values() for entry in sorted(it, key=lambda entry: entry.address))


def _checked(plan: Plan) -> Plan:
    """The plan, if it has no more than a network file may have, and is not empty."""
    if not plan.units:
        raise SwcheckError("there is no unit")
    for kind, most in MOST.items():
        count = len(getattr(plan, kind))
        if count > most:
            raise SwcheckError(f"there are {count} {kind}, and a network file may have {most}")
    return plan


# Names, numbers and tables that are given.


def _name(kind: str, name: str) -> str:
    if not isinstance(name, str) or not NAME.fullmatch(name):
        raise SwcheckError(f"{kind} {name!r}: a name is 1 to 32 letters of ASCII, digits, '_', '-' and '.'")
    return name


def _number(what: str, value: int, low: int, high: int) -> int:
    if not isinstance(value, int) or isinstance(value, bool) or not low <= value <= high:
        raise SwcheckError(f"{what} is {value!r}, and has to be a number from {low} to {high}")
    return value


def _may_be(what: str, value: int | None, low: int, high: int) -> None:
    if value is not None:
        _number(what, value, low, high)


def _bytes(what: str, values: Sequence[int], most: int) -> tuple[int, ...]:
    found = tuple(_number(f"a byte of {what}", it, 0, 255) for it in values)
    if len(found) > most:
        raise SwcheckError(f"{what} has {len(found)} bytes, and may have {most}")
    return found


def _reply_path(what: str, path: Sequence[int]) -> tuple[int, ...]:
    """The path of a reply. Leading zeros of a reply address fill it up, and are no part of it (ECSS-E-ST-50-52C)."""
    found = _bytes(f"the reply's path of {what}", path, MOST_REPLY_BYTES)
    if found[:1] == (0,):
        raise SwcheckError(f"the reply's path of {what} begins with 0, and a reply address can't begin with port 0")
    return found


def _comment(what: str, text: str) -> str:
    plain = text.replace("\r\n", "\n").strip("\n") if isinstance(text, str) else "\0"
    if CONTROL.search(plain):
        raise SwcheckError(f"the comment of {what} is no text without control characters")
    return plain


def _parsed(what: str, text: str) -> int:
    """The number of a text, decimal or hexadecimal."""
    if not NUMBER.fullmatch(text):
        raise SwcheckError(f"{what} is '{text}', and no number")
    return int(text, 16 if text[:2] in ("0x", "0X") else 10)


def _rows(
    path: Path, delimiter: str, needed: Sequence[str], others: Sequence[str]
) -> Iterator[tuple[str, dict[str, str]]]:
    """The rows of a table in CSV, each with its file and line. What a column that lacks would have is empty."""
    place, names = f"{os.fspath(path)}:1", None
    if not isinstance(delimiter, str) or len(delimiter) != 1:
        raise SwcheckError(f"{place}: the delimiter is {delimiter!r}, and not one character")
    with open(path, encoding="utf-8-sig", newline="") as file:
        try:
            table = csv.reader(file, delimiter=delimiter, strict=True)
            for cells in table:
                place, row = f"{os.fspath(path)}:{table.line_num}", [it.strip() for it in cells]
                if not any(row) or row[0].startswith("#"):
                    continue
                if names is None:
                    names = _columns(place, row, needed, others)
                elif len(row) != len(names):
                    raise SwcheckError(f"{place}: the row has {len(row)} cells, and there are {len(names)} columns")
                else:
                    yield place, {**dict.fromkeys((*needed, *others), ""), **dict(zip(names, row))}
        except (csv.Error, UnicodeDecodeError) as why:
            raise SwcheckError(f"{place}: the table can't be read behind this line: {why}") from why
    if names is None:
        raise SwcheckError(f"{place}: the table has no row that names its columns")


def _columns(place: str, names: list[str], needed: Sequence[str], others: Sequence[str]) -> list[str]:
    for name in names:
        if name not in (*needed, *others):
            raise SwcheckError(f"{place}: there is no column '{name}'; the columns: {', '.join((*needed, *others))}")
        if names.count(name) > 1:
            raise SwcheckError(f"{place}: there are two columns '{name}'")
    for name in needed:
        if name not in names:
            raise SwcheckError(f"{place}: the column '{name}' is missing")
    return names


def _all_or_none(
    rows: Iterable[tuple[str, dict[str, str]]], declare: Callable[[dict[str, str]], Any], kept: list[Any]
) -> list[Any]:
    """What the rows declare, which is kept in a list; nothing where one of them is refused."""
    count = len(kept)
    try:
        for place, row in rows:
            try:
                declare(row)
            except SwcheckError as why:
                raise SwcheckError(f"{place}: {why}") from None
    except BaseException:
        del kept[count:]
        raise
    return kept[count:]


# The text of a network file.


def _hex(number: int) -> str:
    return f"0x{number:02X}"


def _list(numbers: Iterable[int]) -> str:
    """A list of ports, in decimal digits, and of logical addresses, which are 32 or more, in hexadecimal ones."""
    return f"[{', '.join(str(it) if it < 32 else _hex(it) for it in numbers)}]"


def _table(**values: str | int | None) -> str:
    """An inline table of the values that are there."""
    return "{ " + ", ".join(f"{key.rstrip('_')} = {it}" for key, it in values.items() if it is not None) + " }"


def _remarks(text: str, indent: str) -> list[str]:
    return [f"{indent}# {line}".rstrip() for line in text.split("\n")] if text else []


def _wrapped(text: str, indent: str) -> list[str]:
    lines = textwrap.wrap(text, WIDTH - len(indent), break_long_words=False, break_on_hyphens=False)
    return [f"{indent}# {line}" for line in lines]


def _unit_lines(unit: Unit) -> list[str]:
    target = None
    if unit.target is not None and unit.logical is not None:
        has = unit.target
        start, key = f"0x{has.start:X}" if has.start else None, _hex(has.key) if has.key else None
        logical, slots = _hex(unit.logical), has.slots if has.slots != 1 else None
        target = _table(logical=logical, key=key, start=start, size=has.size, slots=slots)
    line = _table(name=f'"{unit}"', target=target, outstanding=unit.outstanding)
    return [*_remarks(unit.comment, "  "), f"  {line},"]


def _router_lines(router: Router, entries: Sequence[Entry]) -> list[str]:
    by_number = sorted(router.ports.items(), key=lambda it: it[1])
    named = f"ports: {', '.join(f'{number} {name}' for name, number in by_number)}" if by_number else ""
    lines = [*_remarks(router.comment, "  "), *_wrapped(named, "  ")]
    head = _table(name=f'"{router}"', arbiter=f'"{router.arbiter}"' if router.arbiter else None)
    if not entries:
        return [*lines, f"  {head},"]
    lines.append(f"  {head.removesuffix(' }')}, route = [")
    for it in entries:
        last, delete = None if it.last == it.address else _hex(it.last), "true" if it.delete else None
        line = _table(address=_hex(it.address), last=last, ports=_list(it.ports), delete=delete)
        lines += [*_remarks(it.comment, "    "), f"    {line},"]
    return [*lines, "  ] },"]


def _link_lines(link: Link) -> list[str]:
    names = [f'"{it.router if isinstance(it, Port) else it}"' for it in (link.a, link.b)]
    ports = [it.number if isinstance(it, Port) else None for it in (link.a, link.b)]
    ends = {"a": names[0], "a_port": ports[0], "b": names[1], "b_port": ports[1]}
    line = _table(**ends, buffer=link.buffer, buffer_a=link.buffer_a, buffer_b=link.buffer_b)
    return [*_remarks(link.comment, "  "), f"  {line},"]


def _flow_lines(flow: PlannedFlow) -> list[str]:
    ways = [f"by {' '.join(map(str, flow.way))}"] if flow.way else []
    reply = None
    if flow.reply is not None:
        path = _list(flow.reply.path) if flow.reply.path else None
        reply = _table(path=path, initiator=_hex(flow.reply.initiator), outstanding=flow.reply.outstanding)
        ways += [f"back by {' '.join(map(str, flow.reply.way))}"] if flow.reply.way else []
    ends, address = {"from_": f'"{flow.from_}"', "to": f'"{flow.to}"'}, _list(flow.address) if flow.address else None
    line = _table(name=f'"{flow.name}"', **ends, address=address, left=flow.left or None, reply=reply)
    return [*_remarks(flow.comment, "  "), *_wrapped(", ".join(ways), "  "), f"  {line},"]


def _text(title: str, plan: Plan) -> str:
    lines = [*_remarks(title, ""), *([f"# Mode {plan.mode}."] if plan.mode else [])]
    lines.append("# Written by swcheck.py from a description in Python: change that, and not this file.")
    counts = ", ".join(f"{kind} {len(names)}" for kind, names in plan.off.items() if names)
    lines += [f"# Off in this mode, and named at the end of this file: {counts}."] if counts else []
    entries: dict[Router, list[Entry]] = {it: [] for it in plan.routers}
    for entry in plan.entries:
        entries[entry.router].append(entry)
    lists = {
        "node": [line for it in plan.units for line in _unit_lines(it)],
        "switch": [line for it in plan.routers for line in _router_lines(it, entries[it])],
        "link": [line for it in plan.links for line in _link_lines(it)],
        "flow": [line for it in plan.flows for line in _flow_lines(it)],
    }
    lines.append("version = 3")
    for key, of in lists.items():
        lines += ["", f"{key} = [", *of, "]"] if of else []
    lines += ["", "# Off in this mode:"] if counts else []
    for kind, names in plan.off.items():
        lines += _wrapped(f"{kind}: {', '.join(names)}", "") if names else []
    return "\n".join([*lines, ""])


def _write(texts: Mapping[str, str]) -> None:
    for path, text in texts.items():
        with open(path, "w", encoding="utf-8", newline="\n") as it:
            it.write(text)


# The program.


@dataclass(frozen=True)
class Answer:
    """What the program answered to a call.

    command: the command.
    status: the exit status ("Exit statuses" in docs/COMMANDS.md).
    object: the whole object that it wrote (docs/OBJECTS.md).
    hints: what it wrote on standard error, which is for people.
    """

    command: str
    status: int
    object: dict[str, Any]
    hints: str

    @property
    def results(self) -> list[dict[str, Any]]:
        """Of `audit` and `decide` the verdict on each file that is told, in order; of other commands the one result."""
        if "result" in self.object:
            return [self.object["result"]]
        return [it["verdict"] for it in self.object["files"]]

    @property
    def result(self) -> dict[str, Any]:
        """The one result. Raises SwcheckError where an audit tells of several files, or of none."""
        if len(self.results) != 1:
            raise SwcheckError(f"swcheck {self.command} tells of {len(self.results)} files: 'results' has them")
        return self.results[0]

    @property
    def kind(self) -> str:
        """The kind of the one result: `free`, `cyclic`, `misrouted` or `fault` of `decide`, `routed` of `route`, .."""
        return str(self.result["kind"])


def run(command: str, *words: Path | int, program: Path = "swcheck", timeout: float | None = None) -> Answer:
    """Runs the program with `--json`, and reads its object. Each verdict is an answer, and so is a file with a fault.

    command: one of COMMANDS.
    words: the command's words and options, as docs/COMMANDS.md has them.
    program: its path, or its name where it is on the PATH.
    timeout: how many seconds it may take; as long as it takes where it is left out.
    Raises SwcheckError where the program can't be run, refuses its words, writes no object (as where a file can't be
    read, but by `audit` and `decide`), takes too long, or ends with another status than its object tells.
    """
    if command not in COMMANDS:
        raise SwcheckError(f"swcheck {command} does not answer as JSON; these do: {', '.join(COMMANDS)}")
    call = [os.fspath(program), command, "--json", *(str(it) if isinstance(it, int) else os.fspath(it) for it in words)]
    told = " ".join(call)
    try:
        done = subprocess.run(call, stdin=subprocess.DEVNULL, capture_output=True, timeout=timeout)
    except subprocess.TimeoutExpired:
        raise SwcheckError(f"{told}: it takes more than {timeout} seconds") from None
    except (OSError, ValueError) as why:
        raise SwcheckError(f"{told}: it can't be run: {why}") from why
    text, hints = done.stdout.decode("utf-8", "surrogateescape"), done.stderr.decode("utf-8", "replace")
    try:
        found = json.loads(text)
        status = found["status"] if "status" in found else max((it["status"] for it in found["files"]), default=0)
    except (ValueError, TypeError, KeyError):
        ended = f"it wrote no object, and ended with status {done.returncode}"
        raise SwcheckError(f"{told}: {ended}\n{hints}".rstrip()) from None
    if status != done.returncode:
        raise SwcheckError(f"{told}: it ended with status {done.returncode}, and its object tells {status}")
    return Answer(command, status, found, hints)

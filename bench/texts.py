#!/usr/bin/env python3
"""Writes the large and the hostile network files that bench/run times, into the folder given."""
import os
import sys

folder = sys.argv[1]


def write(name, text):
    with open(os.path.join(folder, name), "w") as file:
        file.write(text)


def line_of_switches(switches, flows, address, routes=""):
    """A line: node A, the switches (port 1 towards A, port 2 towards B), node B."""
    lines = ["version = 1", 'node = [{ name = "A" }, { name = "B" }]', "switch = ["]
    for i in range(switches):
        lines.append(f'  {{ name = "S{i}"{routes} }},')
    lines += ["]", "link = [", '  { a = "A", b = "S0", b_port = 1 },']
    for i in range(switches - 1):
        lines.append(f'  {{ a = "S{i}", a_port = 2, b = "S{i + 1}", b_port = 1 }},')
    lines += [f'  {{ a = "S{switches - 1}", a_port = 2, b = "B" }},', "]", "flow = ["]
    for i in range(flows):
        lines.append(f'  {{ name = "f{i}", from = "A", to = "B", address = {address}, left = 1 }},')
    lines.append("]")
    return "\n".join(lines) + "\n"


def ring(switches, flows, hops):
    """A ring, node i at port 1 of switch i, port 2 to the next switch's port 3; each flow goes that many switches on."""
    lines = ["version = 1", "node = ["]
    lines += [f'  {{ name = "N{i}" }},' for i in range(switches)]
    lines += ["]", "switch = ["]
    lines += [f'  {{ name = "S{i}" }},' for i in range(switches)]
    lines += ["]", "link = ["]
    lines += [f'  {{ a = "N{i}", b = "S{i}", b_port = 1 }},' for i in range(switches)]
    lines += [f'  {{ a = "S{i}", a_port = 2, b = "S{(i + 1) % switches}", b_port = 3 }},' for i in range(switches)]
    lines += ["]", "flow = ["]
    path = [2] * hops + [1]
    for i in range(flows):
        lines.append(f'  {{ name = "f{i}", from = "N{i % switches}", to = "N{(i + hops) % switches}", address = {path} }},')
    lines.append("]")
    return "\n".join(lines) + "\n"


def at_the_limits():
    """1,024 links, 512 switches, 4,096 flows of 32 address bytes."""
    lines = ["version = 1", "node = ["]
    lines += [f'  {{ name = "N{i}" }},' for i in range(512)]
    lines += ["]", "switch = ["]
    route = "route = [{ address = 40, ports = [2] }]"
    lines += [f'  {{ name = "S{i}", {route} }},' for i in range(512)]
    lines += ["]", "link = ["]
    lines += [f'  {{ a = "N{i}", b = "S{i}", b_port = 1 }},' for i in range(512)]
    lines += [f'  {{ a = "S{i}", a_port = 2, b = "S{(i + 1) % 512}", b_port = 3 }},' for i in range(512)]
    lines += ["]", "flow = ["]
    path = [2] * 31 + [1]
    for i in range(4096):
        lines.append(f'  {{ name = "f{i}", from = "N{i % 512}", to = "N{(i + 31) % 512}", address = {path} }},')
    lines.append("]")
    return "\n".join(lines) + "\n"


def full_tables():
    """512 switches with an entry for each logical address, as [[switch.route]]."""
    lines = ["version = 1", "[[node]]", 'name = "A"', "[[node]]", 'name = "B"']
    for i in range(512):
        lines += ["[[switch]]", f'name = "S{i}"']
        for address in range(32, 255):
            lines += ["[[switch.route]]", f"address = {address}", f"ports = [{2 + address % 2}]"]
    lines += ["[[link]]", 'a = "A"', 'b = "S0"', "b_port = 1"]
    for i in range(511):
        lines += ["[[link]]", f'a = "S{i}"', "a_port = 2", f'b = "S{i + 1}"', "b_port = 1"]
    lines += ["[[link]]", 'a = "S511"', "a_port = 2", 'b = "B"']
    lines += ["[[flow]]", 'name = "f0"', 'from = "A"', 'to = "B"', "address = [40]", "left = 1"]
    return "\n".join(lines) + "\n"


write("line.toml", line_of_switches(500, 4096, [40], ", route = [{ address = 40, ports = [2] }]"))
write("ring.toml", ring(500, 4096, 31))
write("limits.toml", at_the_limits())
write("tables.toml", full_tables())
write("nested-arrays.toml", "version = " + "[" * 5_000_000)
write("nested-tables.toml", "version = " + "{a=" * 5_000_000)
write("dotted.toml", "a." * 5_000_000 + "a = 1\n")
write("headers.toml", "".join(f"[a{i}.b.c]\n" for i in range(500_000)))
write("comments.toml", "#" * 60_000_000 + "\n")
write("too-long.toml", "#" * 67_108_865)

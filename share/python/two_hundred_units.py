#!/usr/bin/env python3
"""Describes a platform with 200 units, writes its network file for each of its two modes, and has them decided.

    share/python/two_hundred_units.py FOLDER [PROGRAM]      by default `swcheck`, on the PATH

Of the core routers, the computers and the memories there are nominal ones (N) and redundant ones (R); one half is on at
a time. The units are on 13 panel routers, 16 on each, and these have a link to each core router:

    OBC-N, MM-N -- CORE-N --+-- PANEL-1 .. PANEL-13 -- UNIT-1 .. UNIT-200
    OBC-R, MM-R -- CORE-R --+

The computer reads housekeeping of each unit, and reads the memory for downlink. The first unit of each panel is a
camera, whose image writes to the memory are acknowledged. Of each flow one command is unanswered at most, and of the
computer 8 in all.
"""
import sys

from swcheck import Network, Target, run


def description() -> Network:
    net = Network("A platform with 200 units.", modes=("nominal", "redundant"))
    panels = [net.router(f"PANEL-{it}", ports={"core-N": 1, "core-R": 2}) for it in range(1, 14)]
    cameras, units = [], []
    for number in range(200):
        is_camera = number % 16 == 0
        # at a camera replies end, too: it has a slot more than commands may be unanswered there
        target = Target(size=4096, slots=2 if is_camera else 1)
        unit = net.unit(f"UNIT-{number + 1}", logical=32 + number, target=target)
        net.link(unit, panels[number // 16].port(3 + number % 16))
        units.append(unit)
        cameras += [unit] if is_camera else []
    for mode, half in (("nominal", "N"), ("redundant", "R")):
        ports = {"obc": 1, "memory": 2, **{f"panel-{it}": 2 + it for it in range(1, 14)}}
        core = net.router(f"CORE-{half}", ports=ports, modes=mode)
        computer = net.unit(f"OBC-{half}", logical=0xF0, outstanding=8, modes=mode)
        # as many slots as commands may be unanswered there: one of each camera, and one of the computer
        memory = net.unit(f"MM-{half}", logical=0xF1, target=Target(size=65536, slots=14), modes=mode)
        net.link(computer, core.port("obc"))
        net.link(memory, core.port("memory"))
        for number, panel in enumerate(panels, 1):
            net.link(core.port(f"panel-{number}"), panel.port(f"core-{half}"))
        for unit in units:
            net.flow(f"housekeeping-{unit}-{half}", computer, unit, reply=True, outstanding=1)
        for camera in cameras:
            net.flow(f"images-{camera}-{half}", camera, memory, logical=True, reply=True, outstanding=1)
        net.flow(f"downlink-{half}", computer, memory, reply=True, outstanding=1)
    return net


def main(folder: str, program: str = "swcheck") -> int:
    paths = description().write_modes(folder)
    verdicts = {mode: run("decide", path, program=program).kind for mode, path in paths.items()}
    for mode, verdict in verdicts.items():
        print(f"{mode}: {verdict}")
    return 0 if {*verdicts.values()} == {"free"} else 1


if __name__ == "__main__":
    sys.exit(main(*sys.argv[1:]))

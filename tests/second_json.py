"""What swcheck has to answer with --json, made of what it answers without: a second, slow way to the same bytes, written from docs/OBJECTS.md and docs/COMMANDS.md alone.

The channels of lines come from tools/network_file.py, digests and texts of JSON from Python's own library.
"""
import hashlib
import json
import os
import re
import subprocess

from network_file import Network

COUNTS = ("nodes", "switches", "links", "channels", "flows", "replies")
MEMORY = '{"result":{"kind":"memory"},"status":5}\n'


def shown(path):
    """The path as a terminal shows it."""
    return "".join(chr(it) if 32 <= it < 127 else f"\\x{it:02X}" for it in os.fsencode(path))


def kept_name(number, path):
    """The name of the certificate of the file of that number."""
    name = os.fsencode(path).rsplit(b"/", 1)[-1][:64]
    return f"{number}-{re.sub(rb'[^A-Za-z0-9_.-]', b'_', name).decode()}.cert"


def ends(text):
    start, end = text.split(">")
    return {"end": end, "start": start}


def place(line):
    _, channel, deleted, text = line.split()
    return {"channel": int(channel), "deleted": int(deleted), **ends(text)}


def cyclic(lines):
    channels = []
    for line in lines[1:]:
        _, number, text, _, kind, name = line.split()
        channels.append({"by": {kind: name}, "channel": int(number), **ends(text)})
    return {"channels": channels, "kind": "cyclic"}


def route_fault(line):
    """Of a line `misrouted C K CODE NAME`."""
    _, channel, deleted, code, _ = line.split()
    return {"channel": int(channel), "code": code, "deleted": int(deleted), "text": line}


def misrouted(line):
    """Of a line `misrouted FLOW C K CODE NAME`."""
    _, flow, channel, deleted, code, _ = line.split()
    return {"channel": int(channel), "code": code, "deleted": int(deleted), "flow": flow, "kind": "misrouted", "text": line}


def fault(line, hint, path):
    """Of a line `fault CODE ..`, and what stands on standard error."""
    words = line.split()
    code = " ".join(words[1:3]) if words[1] == "F8" else words[1]
    where = None if code == "S1" else " ".join(words[4 if code.startswith("F8") else 3 :]) or None
    at = re.search("^" + re.escape(shown(path)) + r":(\d+):(\d+): ", hint, re.M)
    number, column = map(int, at.groups()) if at else (None, None)
    if code == "S1":
        number, column = int(words[3]), None
    if where == "argument":
        number = column = None
    return {"code": code, "column": column, "kind": "fault", "line": number, "text": line, "where": where}


def refusal(line):
    """Of a line of `check`."""
    words = line.split()
    told = dict.fromkeys(("channel", "deleted", "fault", "flow", "line", "next"))
    code = words[1]
    if code == "C1":
        told["line"] = int(words[3])
    elif code == "C3":
        told["flow"] = words[3]
    elif code == "C4":
        told.update(flow=words[3], channel=int(words[4]), deleted=int(words[5]))
    elif code == "C5":
        told.update(channel=int(words[3]), next=int(words[4]))
    elif code == "C6":
        told.update(fault=words[2], flow=words[4], channel=int(words[5]), deleted=int(words[6]))
    return {**told, "code": code, "kind": "refused", "text": line}


CHANGES = (
    (r"the reply of (\S+)", lambda it: {"kind": "reply", "flow": it[1]}),
    (r"the replies to the flows from (\S+) to (\S+)", lambda it: {"from": it[1], "kind": "replies between", "to": it[2]}),
    (r"the flow (\S+)", lambda it: {"kind": "flow", "flow": it[1]}),
    (r"any reply of (\S+)", lambda it: {"kind": "replies", "node": it[1]}),
    (r"port (\d+) for address(?:es)? (\d+)(?: to (\d+))? at (\S+)", lambda it: {"kind": "port", "port": int(it[1]), **addresses(it[2], it[3]), "switch": it[4]}),
    (r"the entry for address(?:es)? (\d+)(?: to (\d+))? at (\S+)", lambda it: {"kind": "entry", **addresses(it[1], it[2]), "switch": it[3]}),
    (r"the flows from and to (\S+)", lambda it: {"kind": "flows", "node": it[1]}),
)
SPLIT = re.compile(r"free with a link of its own for the target of (\S+), at port (\d+) of (\S+)")


def addresses(first, last):
    return {"first": int(first), "last": int(last or first)}


def change(text):
    for pattern, make in CHANGES:
        found = re.fullmatch(pattern, text)
        if found:
            return make(found)
    raise ValueError(text)


LIMITING = re.compile(r"free with (?:at most (\d+) unanswered commands? of each flow)?(?:, and )?(?:slots ((?:\d+ at \S+(?:, )?)+))?")


def limiting(found):
    """A limit on the commands of each flow, and slots of targets."""
    limits = [{"kind": "limit", "outstanding": int(found[1])}] if found[1] else []
    named = [it.split(" at ") for it in found[2].split(", ")] if found[2] else []
    return limits + [{"kind": "slots", "node": node, "slots": int(slots)} for slots, node in named]


def mend(line):
    """Of a line of `mend`."""
    found, limited = SPLIT.fullmatch(line), LIMITING.fullmatch(line)
    if limited:
        changes = limiting(limited)
    elif found:
        changes = [{"kind": "target link", "node": found[1], "port": int(found[2]), "switch": found[3]}]
    else:
        changes = [change(it) for it in line.removeprefix("free without ").split(" and without ")]
    return {"changes": changes, "text": line}


def margins(lines, channel_of):
    told = {"answers": [], "kind": "margins", "limits": [], "losses": [], "stalls": []}
    for line in filter(None, lines):
        lost = re.fullmatch(r"lost without the link (\S+): (.*)", line)
        limit = re.fullmatch(r"free with (?:up to (\d+)|any number of) unanswered commands? of (\S+)", line)
        bend = re.fullmatch(r"(not )?free if (\S+) (stops taking while it wants to send|is answered along its own way)", line)
        if lost:
            flows = [] if lost[2] == "no flow" else lost[2].split()
            told["losses"].append({"channel": channel_of[lost[1]], **ends(lost[1]), "flows": flows})
        elif limit:
            told["limits"].append({"flow": limit[2], "outstanding": int(limit[1]) if limit[1] else None})
        elif bend[3].startswith("stops"):
            told["stalls"].append({"free": not bend[1], "node": bend[2]})
        else:
            told["answers"].append({"flow": bend[2], "free": not bend[1]})
    return told


STEP = re.compile(r"\d+\. a packet of (\S+) holds (\S+) and waits for \S+?(?: \(flows ([^)]*)\))?")
OWING = re.compile(
    r"\d+\. (\S+) takes nothing from (\S+) while it owes (\d+) repl(?:y|ies): (any number of|\d+) commands? may be unanswered \(.*\)"
)


def step(line, channel_of):
    found = STEP.fullmatch(line)
    if found:
        flows = found[3].split(", ") if found[3] else [found[1]]
        return {"channel": channel_of[found[2]], **ends(found[2]), "flows": flows, "limit": None, "slots": None, "target": None}
    found = OWING.fullmatch(line)
    limit = int(found[4]) if found[4].isdigit() else None
    return {"channel": channel_of[found[2]], **ends(found[2]), "flows": [], "limit": limit, "slots": int(found[3]), "target": found[1]}


def tangles(lines, channel_of):
    cycles = []
    for line in lines:
        if line.startswith("shortest cycle: "):
            cycles.append([])
        elif re.match(r"\d+\. ", line):
            cycles[-1].append(step(line, channel_of))
    counts = [int(it) for it in re.findall(r"\d+", lines[-1].split(" of ", 1)[1].split(" channel")[0])]
    return [{"channels": count, "cycle": cycle} for count, cycle in zip(counts, cycles, strict=True)]


def explained(lines, channel_of):
    if lines[0].startswith("misrouted "):
        way = []
        for line in lines[1:]:
            found = re.fullmatch(r"\d+\. a packet of \S+ goes on (\S+), with (\d+) address bytes? deleted", line)
            if found:
                way.append({"channel": channel_of[found[1]], "deleted": int(found[2]), **ends(found[1])})
        code, name = lines[-1].split(":")[0].split()
        last = way[-1]
        text = f"misrouted {last['channel']} {last['deleted']} {code} {name}"
        found = {"channel": last["channel"], "code": code, "deleted": last["deleted"], "text": text}
        return {"fault": found, "flow": lines[0].split()[1], "kind": "misrouted", "way": way}
    if lines[0].startswith("shortest cycle"):
        return {"kind": "cyclic", "tangles": tangles(lines, channel_of)}
    return {"kind": "free"}


def hex_of(text):
    return "" if text == "-" else text


def replayed(lines):
    kind, number, *more = lines[0].split()
    nodes, packets = [], {}
    for line in lines[3:]:
        words = line.split()
        if words[0] == "node":
            nodes.append(words[1])
            packets[words[1]] = []
        else:
            packets[words[1]].append({"bytes": hex_of(words[2]), "end": words[3]})
    return {
        "code": more[0] if more else None,
        "kind": kind,
        "nodes": [{"name": it, "packets": packets[it]} for it in nodes],
        "step": int(number),
        "stuck": lines[2] == "stuck yes",
        "undelivered": int(lines[1].split()[1]),
    }


def run(lines):
    nodes = {}
    for line in lines[2:]:
        words = line.split()
        if words[0] == "node":
            nodes[words[1]] = {"count": int(words[3]), "name": words[1], "packets": []}
        else:
            nodes[words[1]]["packets"].append({"bytes": hex_of(words[3]), "count": int(words[2]), "end": words[4]})
    return {"kind": lines[0], "nodes": [*nodes.values()], "undelivered": int(lines[1].split()[1])}


class SecondAnswers:
    """Answers by another program's text answers, of files in a folder. `lint` gives the lint texts of a network file's bytes."""

    def __init__(self, program, folder, version, toolchain, lint):
        self.program, self.folder, self.lint = program, folder, lint
        self.release = {"toolchain": toolchain, "version": version}

    def call(self, *words):
        done = subprocess.run([self.program, *words], capture_output=True, cwd=self.folder)
        return done.returncode, done.stdout.decode(), done.stderr.decode()

    def bytes_of(self, path):
        with open(os.path.join(os.fsencode(self.folder), os.fsencode(path)), "rb") as it:
            return it.read()

    def channels(self, path):
        """The channels of a network file, by their texts."""
        text = self.bytes_of(path)
        network = Network(text)
        names = {end: name for name, end in network.names.items()}
        told = [names[it] if it[0] == "node" else f"{names[it[:2]]}:{it[2]}" for it in network.starts]
        return {f"{told[it]}>{told[it ^ 1]}": it for it in range(len(told))}

    def text(self, value):
        return json.dumps(value, sort_keys=True, separators=(",", ":"), ensure_ascii=False) + "\n"

    def verdict(self, path):
        """The status, the object of the verdict, and the text of the certificate, if there is one."""
        status, text, hint = self.call("decide", path)
        if status == 6:
            return 6, {"kind": "unread"}, None
        lines = text.splitlines()
        word = lines[0].split()[0]
        if word == "fault":
            return status, fault(lines[0], hint, path), None
        if word == "cyclic":
            return status, cyclic(lines), None
        if word == "misrouted":
            return status, misrouted(lines[0]), None
        said = dict(it.split(" ", 1) for it in self.call("report", path)[1].splitlines())
        found = {it: int(said[it]) for it in COUNTS}
        found |= {"certificate_sha256": hashlib.sha256(text.encode()).hexdigest(), "height": int(said["verdict"].split()[-1]), "kind": "free"}
        return status, found, text

    def input(self, path):
        text = self.bytes_of(path)
        if len(text) > 67_108_864:
            return {"bytes": None, "path": path, "sha256": None}
        return {"bytes": len(text), "path": path, "sha256": hashlib.sha256(text).hexdigest()}

    def entry(self, path, keeps):
        """The object of a file, and its certificate."""
        status, verdict, certificate = self.verdict(path)
        is_lost = verdict["kind"] == "unread"
        found = {"bytes": None, "path": path, "sha256": None} if is_lost else self.input(path)
        is_network = verdict["kind"] in ("free", "cyclic", "misrouted")
        lint = self.lint(self.bytes_of(path)) if is_network else []
        if certificate is not None and not keeps:
            status = 6
        return {**found, "lint": lint, "status": status, "verdict": verdict}, certificate

    def audit(self, files, quiet=False, is_json=False, keeps=True):
        """The status, the text, and the certificates by their names."""
        entries = [self.entry(it, keeps) for it in files]
        told = [it for it, _ in entries if it["status"] != 0 or not quiet]
        if is_json:
            text = self.text({"files": told, **self.release})
        else:
            text = "".join(f"{it['status']} {it['verdict']['kind']} {shown(it['path'])}\n" for it in told)
        kept = {kept_name(number, it["path"]): certificate for number, (it, certificate) in enumerate(entries, 1) if certificate is not None}
        return max(it["status"] for it, _ in entries), text, kept

    def result(self, command, words, files, lines, hint):
        """The object of what a command tells in these lines."""
        if lines[0].startswith("fault "):
            found = {it: fault(lines[0], hint, it) for it in files}
            path = next((it for it in files if found[it]["line"] is not None and it in hint), None) or self.faulty(lines[0], files)
            return {"fault": found[path], "kind": "fault", "path": path}
        if command == "route":
            flow = lines[0].split()[1]
            found = {"flow": flow, "lint": self.circling(files[0], flow), "places": [place(it) for it in lines[1:-1]]}
            is_routed = lines[-1] == "routed"
            return {**found, "fault": None if is_routed else route_fault(lines[-1]), "kind": "routed" if is_routed else "misrouted"}
        if command == "check":
            return {"kind": "accepted"} if lines[0] == "accepted" else refusal(lines[0])
        if command == "report":
            counts = {it.split()[0]: int(it.split()[1]) for it in lines[:-1]}
            lint = self.lint(self.bytes_of(files[0]))
            return {**counts, "kind": "report", "lint": lint, "verdict": self.verdict(files[0])[1]}
        if command == "replay":
            return replayed(lines)
        if command == "run":
            return run(lines)
        if lines[0].startswith("misrouted ") and command != "explain":
            return misrouted(lines[0])
        if lines[0] == "not free":
            return self.verdict(files[0])[1]
        if command == "explain":
            found = explained(lines, self.channels(files[0]))
            return found if found["kind"] == "free" else {**found, "lint": self.circling(files[0])}
        if command == "margin":
            return margins(lines, self.channels(files[0]))
        if lines[0] == "free already":
            return {"kind": "free"}
        return {"kind": "mends", "mends": [mend(it) for it in lines if it.startswith("free with")]}

    def circling(self, path, flow=""):
        """The notes on flows, or on this flow, whose packets can come back to a place or of which none arrives."""
        return [it for it in self.lint(self.bytes_of(path)) if re.match(rf"packets of {re.escape(flow) or '.*'} (may )?never reach ", it)]

    def faulty(self, line, files):
        """The file that has the fault of a line without a place."""
        if line.startswith("fault A1"):
            return next(it for it in files if self.input(it)["bytes"] is None)
        if line.startswith("fault S1"):
            return files[1]
        first = self.call("report", files[0])
        return files[0] if len(files) == 1 or first[0] == 3 or line.endswith("argument") else files[1]

    def answer(self, command, words):
        """The status and the text of `COMMAND --json WORDS`."""
        if command in ("audit", "decide"):
            status, text, _ = self.audit([it for it in words if not it.startswith("--")], is_json=True)
            return status, text
        more = ["--all"] if command == "explain" and "--all" not in words else []
        status, text, hint = self.call(command, *words, *more)
        if status == 6 or status == 2:
            return status, ""
        # (what margin tells of no nodes, no links and no flows has no lines)
        lines = text.splitlines() or [""]
        if lines[0] == "fault memory":
            return status, MEMORY
        files = words[: 2 if command in ("check", "replay", "run") else 1]
        found = {"command": command, "files": [self.input(it) for it in files], "result": self.result(command, words, files, lines, hint), "status": status}
        return status, self.text({**found, **self.release})

"""Which edits can be tried in one check, and which of them it refuses.

Each function is proved from the contracts of those that it calls, and not from their bodies. So edits within the bodies of different functions do not touch
one another: one check of these functions, with all of the edits made, tells of each edit whether its own function is still proved. An edit is made in a copy of
its function, which stands beside it under a name of its own and calls what the function calls: so several edits of one function go into one check too, and the
function stays as it is for those that call it. No copy is made of a function with files of proofs, since these go by its name, of what a trait asks for, and of
what calls itself: such a function has one edit in a check, in its place.

Each other function, of which the check would prove the body since an edited one calls it, has in the check a body that never returns, and with that any
contract: what its caller is proved from is the contract, which stays.
"""
import collections
import copy
import functools
import os
import re
import shutil
import tempfile

from kit import rt

FUNCTION = re.compile(r"( *)(?:pub(?:\([a-z]+\))? |const |unsafe |extern \"C\" )*fn (\w+)")
IMPL = re.compile(r"impl(?:<(.*?)>)? (?:([\w:]+)(?:<(.*)>)? for )?([\w:]+)")

# A line that says where something is wrong.
LOCATED = re.compile(r"(?:note: )?\S+:\d+:\d+:")

# So many edits go into one check, for its memory.
MOST = 20

# What stands in place of a body that a check does not look at, and the module that it calls.
NO_BODY = " crate::never_returns::never_returns(); unreachable!() "
NEVER_RETURNS = """//! What stands in place of the bodies that a check of edits does not look at.
ghost use Rattle.std.specs.Prelude.{◌<◌};

unsafe extern "C" {
    pub(crate) safe fn never_returns() -> u8
        ensures { result < 0 };
}
"""

# How the name of a copy without an edit ends.
AS_IT_IS = "_as_it_is"

# A function: its file, the end of the name that a check prints, whether it may have copies, whether it calls itself, and where in the text its lines begin
# (those above its signature too), its signature, its body, the line that ends it, and what follows.
Function = collections.namedtuple("Function", "path name has_copies is_cyclic start head begin end after")

# A function as one check has it: in a copy whose name ends so, or in its place where that is "", and with this edit, or as it is where there is none.
Variant = collections.namedtuple("Variant", "function copy edit")


def owner_of(line):
    """What stands before a method's name, by the first line of its impl: its type, and the trait with its types where it is one's, but for parameters."""
    parameters, trait, types, owner = IMPL.match(line).groups()
    last = [it.split("::")[-1] for it in (owner, trait or "")]
    own = re.findall(r"(?:^|, )(\w+)", re.sub(r"<.*?>", "", parameters or ""))
    return "".join([*last, *[it for it in re.findall(r"\w+", re.sub(r"<.*?>|'\w+", "", types or "")) if it not in own]]) + "::"


def module_of(path):
    return "".join(f"{it}::" for it in path[len("src/"):-len(".rt")].split("/") if it not in ("lib", "main", "mod"))


@functools.lru_cache(maxsize=None)
def functions_in(path, text):
    """The functions of a text, as `rt fmt` writes them, and whether they may have copies but for their proofs."""
    lines, at, starts = text.split("\n"), 0, []
    for line in lines:
        starts.append(at)
        at += len(line) + 1
    found, owner, is_own = [], "", False
    for number, line in enumerate(lines):
        if line and line[0] not in " }":
            impl = IMPL.match(line)
            owner, is_own = owner_of(line) if impl else "", bool(impl) and not impl[2]
        head = FUNCTION.match(line)
        if not head:
            continue
        deeper = head[1] + " "
        # (an empty body stands in one line with what ends it, and a method of a trait may have none)
        last = next((it for it in range(number + 1, len(lines)) if not lines[it] or FUNCTION.match(lines[it])), len(lines))
        ends = next((it for it in range(number, last) if lines[it].endswith(("{", "{}", ";")) and (it == number or not lines[it].startswith(deeper))), None)
        opens = ends if ends is not None and lines[ends].endswith("{") else None
        closes = opens and next((it for it in range(opens + 1, len(lines)) if lines[it] == head[1] + "}"), None)
        if closes:
            first = next(it for it in range(number, -1, -1) if not lines[it - 1].startswith((head[1] + "#[", head[1] + "//")))
            whole = (owner if head[1] else module_of(path)) + head[2]
            begin, end = starts[opens] + len(lines[opens]), starts[closes]
            is_cyclic = bool(re.search(rf"\b{head[2]}\(", text[begin:end])) or "#[cycle" in text[starts[first]:starts[number]]
            is_whole = not first or not lines[first - 1] or lines[first - 1].endswith("{")
            has_copies = (is_own or not head[1]) and is_whole and not is_cyclic
            found.append(Function(path, whole, has_copies, is_cyclic, starts[first], starts[number], begin, end, end + len(lines[closes])))
    return found


def functions_of_edit(edit, crate):
    """The functions whose bodies the edit changes, and whether it changes one body alone. There are none where it changes a signature, or no body."""
    texts, why = rt.read_edit(edit, crate.folder)
    if why or len(texts) != 1:
        return [], False
    (path, text), = texts.items()
    if not path.startswith("src/"):
        return [], False
    before = rt.rtlib.text_of(f"{crate.folder}/{path}")
    first = len(os.path.commonprefix([before, text]))
    last = len(before) - len(os.path.commonprefix([before[first:][::-1], text[first:][::-1]]))
    around = [it for it in functions_in(path, before) if it.begin <= first and last <= it.end]
    if around:
        return [around[-1]], True
    pairs = [*zip(functions_in(path, before), functions_in(path, text))]
    changed = [(it, now) for it, now in pairs if before[it.head:it.after] != text[now.head:now.after]]
    is_same = all(it.name == now.name and before[it.head:it.begin] == text[now.head:now.begin] for it, now in changed)
    return [it for it, _ in changed] if is_same else [], False


def functions_of(crate):
    """The functions of the crate."""
    files = [it for it in rt.rtlib.files_of(crate.folder) if it.endswith(".rt") and it.startswith(f"{crate.folder}/src/")]
    return [it for file in files for it in functions_in(os.path.relpath(file, crate.folder), rt.rtlib.text_of(file))]


def named_once(crate):
    """The functions of the crate with whose names no other's ends, and whether they may have copies."""
    made, proofs = functions_of(crate), [it.replace("/", "::").replace("::fn::", "::") for it in rt.rtlib.files_of(crate.folder) if it.endswith(".antt")]
    once = [it for it in made if sum(f"::{other.name}".endswith(f"::{it.name}") for other in made) == 1]
    return [it._replace(has_copies=it.has_copies and not any(f"::{it.name}::" in file for file in proofs)) for it in once]


def name_of(variant):
    """The end of the name that a check prints."""
    return variant.function.name + variant.copy


def batches(edits, crate):
    """The edits in parts, each for one check. One that changes several functions, or a type too, has a check of its own, which looks at these functions. An edit of
    no function's body is in none."""
    parts, alone, known = [], [], {it[:2]: it for it in named_once(crate)}
    for edit in edits:
        found, is_one = functions_of_edit(edit, crate)
        functions = [known.get(it[:2]) for it in found]
        if not functions or None in functions:
            continue
        if not is_one:
            alone.append([Variant(it, "", edit) for it in functions])
            continue
        function, = functions
        fits = (it for it in parts if len(it) < MOST and (function.has_copies or is_made_beside(function, edit, it, crate)))
        into = next(fits, None)
        if into is None:
            parts.append(into := [])
        into.append(Variant(function, f"_edit_{len(into) + 1}" if function.has_copies else "", edit))
    return parts + alone


def text_of(edits):
    """One edit that makes all of these."""
    return "\n".join(map(rt.rtlib.text_of, edits))


def is_made_beside(function, edit, batch, crate):
    """Whether the edit can be made in its place beside those of the batch that are."""
    placed = [it for it in batch if not it.copy]
    return all(it.function != function for it in placed) and not rt.edited(text_of([*(it.edit for it in placed), edit]), crate.folder)[1]


def text_in(function, texts, crate):
    """The text of the function's file, which is among these or the crate's, and the function as it stands there."""
    text = texts.get(function.path) or rt.rtlib.text_of(f"{crate.folder}/{function.path}")
    return text, next(it for it in functions_in(function.path, text) if it.name == function.name)


def copy_of(variant, crate):
    """The text of the copy, with its edit."""
    text, it = text_in(variant.function, rt.read_edit(variant.edit, crate.folder)[0] if variant.edit else {}, crate)
    head = f"fn {it.name.split('::')[-1]}"
    return text[it.start:it.head] + text[it.head:it.after].replace(head, head + variant.copy, 1)


def texts_with(variants, crate):
    """The texts of the crate's files that are others where it has these."""
    placed = dict.fromkeys(it.edit for it in variants if it.edit and not it.copy)
    texts = {**rt.edited(text_of(placed), crate.folder)[0]} if placed else {}
    for variant in variants:
        if variant.copy:
            text, it = text_in(variant.function, texts, crate)
            texts[it.path] = f"{text[:it.after]}\n\n{copy_of(variant, crate)}{text[it.after:]}"
    return texts


def is_folder_of(function, folder):
    """Whether the folder, by its path below proofs/, is that of the function's own proofs. Those of a method stand by its type, wherever its impl is written."""
    path = function.name.replace("::", "/")
    return f"/{folder}".endswith(f"/{path}") if function.name[0].isupper() else folder == path


def needs_no_body(function, text):
    """Whether a check that looks at another function alone may do without this one's body, which calls something."""
    signature, body = text[function.head:function.begin], text[function.begin:function.end]
    return "(" in body and not function.is_cyclic and not re.search(r"\b(const|extern|unsafe)\b", signature.partition("(")[0])


def without_bodies(variants, texts, crate):
    """The texts of the crate's files that are others where it has these texts and no bodies but those of the variants, and the functions that have none."""
    looked_at, bare = {name_of(it) for it in variants}, []
    made = {**{it.path: rt.rtlib.text_of(f"{crate.folder}/{it.path}") for it in functions_of(crate)}, **texts}
    for path, text in made.items():
        for it in reversed(functions_in(path, text)):
            if it.name not in looked_at and needs_no_body(it, text):
                made[path] = made[path][:it.begin] + NO_BODY + made[path][it.end:]
                bare.append(it)
    root = f"src/{'main' if crate.is_program else 'lib'}.rt"
    text = made.get(root) or rt.rtlib.text_of(f"{crate.folder}/{root}")
    return {**made, root: f"{text}\nmod never_returns;\n", "src/never_returns.rt": NEVER_RETURNS}, bare


def checked(variants, crate, flags, kept):
    """Checks these alone, over the contracts of what they call, and returns the check's status, the lines that it says, and whether it tells of these. It reads
    no more of the crate than they need."""
    texts, bare = without_bodies(variants, texts_with(variants, crate), crate)
    words = [*flags, "--links", f"{crate.name}=nothing", *(word for it in variants for word in ("--only", name_of(it)))]
    with tempfile.TemporaryDirectory(prefix="bare-") as room:
        for part in filter(os.path.isdir, (f"{crate.folder}/{it}" for it in rt.rtlib.PARTS)):
            shutil.copytree(part, f"{room}/{os.path.basename(part)}")
        for at, _, _ in [*os.walk(f"{room}/proofs")]:
            if any(is_folder_of(it, os.path.relpath(at, f"{room}/proofs")) for it in bare):
                shutil.rmtree(at)
        there = copy.copy(crate)
        there.folder = room
        ran = rt.checked(there, texts, words, kept)
    lines = ran.stdout.rstrip("\n").split("\n")
    tells = lines[-1].startswith("only=") and not rt.rtlib.STALE.search(ran.stdout) and not any(rt.unread(it, texts) for it in lines)
    return ran.returncode, lines, tells


def as_they_are(variants):
    """The functions of these as they are, each once: in a copy where they may have one, and else in their place."""
    return [*dict.fromkeys(Variant(it.function, it.copy and AS_IT_IS, None) for it in variants)]


def are_proved(variants, crate, flags, kept):
    """Whether a check finds that these are proved without their edits, and the lines that it says."""
    status, lines, _ = checked(as_they_are(variants), crate, flags, kept)
    return status == 0, lines


def is_refused(name, lines):
    """Whether the lines of a check say that the function is not proved, or one that it has within it, for what is wrong in itself: an error stands
    before its line, or is one of its own answers. One that is not proved since it calls such a function has no error of its own."""
    module, _, last = name.rpartition("::")
    within = rf"(?:{module + '::' if module else ''}fn::{last}|fn::{re.escape(name)})::[^:]+"
    of_it = re.compile(rf"fn \w+::(?:\w+::)*(?:{re.escape(name)}|{within}): (not proved|no proof: .* did not prove .*)")
    own = re.compile(rf"\S*proofs/(?:\S+/)?{re.escape(name.replace('::', '/'))}/\w+\.antt:\d+:\d+: error:")
    has_error = False
    for line in lines:
        said = of_it.fullmatch(line)
        if said and (has_error or said[1] != "not proved"):
            return True
        has_error = not line.startswith("fn ") and (has_error or bool(LOCATED.match(line)))
    return any(own.match(it) for it in lines) and any(said and said[1] == "not proved" for said in map(of_it.fullmatch, lines))


def is_proved(name, lines):
    """Whether the lines of a check say that the function is proved."""
    return any(re.fullmatch(rf"fn \w+::(?:\w+::)*{re.escape(name)}: proved", it) for it in lines)


def calls_by_text(crate):
    """The functions of the crate, and the names of all that each of them may call, by its text: those of the crate's functions."""
    made = named_once(crate)
    last = {it: it.name.split("::")[-1] for it in made}
    called = re.compile(rf"\b({'|'.join({*last.values()})})\(")
    calls = collections.defaultdict(set)
    for it in made:
        calls[last[it]] |= {*called.findall(text_in(it, {}, crate)[0][it.begin:it.end])}
    for _ in calls:
        for name in calls:
            calls[name] |= {other for it in calls[name] for other in calls[it]}
    return {it: calls[last[it]] for it in made}


def witness_of(batch, crate):
    """What is checked beside the batch and has to be proved, since the check tells nothing else: a copy of a function as it is, of one that calls others, so that
    it shows that their contracts are enough, and calls none that is edited in its place. Of these it is one that the batch edits, where there is one, then one that
    calls the fewest others by its text, then one that does not take `self` by value, and so lets it go, and of these the shortest. Where none may have a copy it is
    another function of the crate. None where each of the crate's functions is edited, or calls one that is."""
    changed, edited = {it.function.name for it in batch if not it.copy}, {it.function.name for it in batch}
    last = {it.split("::")[-1] for it in changed}
    calls = {it: names for it, names in calls_by_text(crate).items() if it.name not in changed and not names & last}

    def cost(it):
        text = text_in(it, {}, crate)[0][it.head:it.after]
        return not it.has_copies, not calls[it], it.name not in edited, len(calls[it]), "(self" in text or "(mut self" in text, len(text), it.name

    function = min(calls, key=cost, default=None)
    return function and Variant(function, AS_IT_IS if function.has_copies else "", None)


def refused(batch, crate, flags, kept):
    """The edits of the batch that a check of it refuses, each by its own function, which is proved without it. What the check does not tell is checked once
    more, each edit by itself: one may be in a function that calls one with an edit in its place, and where one can't be read none is told."""
    told = refused_at_once(batch, crate, flags, kept)
    if len(batch) > 1:
        told |= {it.edit for it in batch if it.edit not in told and refused_at_once([it], crate, flags, kept)}
    return told


def refused_at_once(batch, crate, flags, kept):
    """Those that one check refuses, in which its witness is proved."""
    witness = witness_of(batch, crate)
    if not witness:
        return set()
    status, lines, tells = checked([*batch, witness], crate, flags, kept)
    if status != 1 or not tells or not is_proved(name_of(witness), lines):
        return set()
    return {it.edit for it in batch if is_refused(name_of(it), lines)}

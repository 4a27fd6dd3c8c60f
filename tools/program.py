"""Where the builds of the program are, and what they say of themselves."""
import os
import re

TOP = os.path.dirname(os.path.dirname(os.path.realpath(__file__)))
# The proved program, as rt ci and tools/build leave it, and the one without any proof, as tools/unproved does.
PROVED = f"{TOP}/crates/swcheck/out/swcheck"
UNPROVED = f"{TOP}/out/unproved/swcheck"
# The source that says which version it is, and which logic proves it.
RELEASE = "crates/sw_args/src/release.rt"
PARTS = re.compile(r'part!\(\$part, "([^"]*)", "([^"]*)"\)')
# What a program says in place of the logic where nothing of it is proved.
NO_LOGIC = "unproved"


def release(is_unproved=False):
    """Returns the version and the logic that the program says, a proved one by default."""
    with open(f"{TOP}/{RELEASE}", encoding="utf-8") as it:
        version, logic = PARTS.search(it.read()).groups()
    return version, NO_LOGIC if is_unproved else logic


def without_logic(source):
    """Returns the text of RELEASE for a build without any proof. It has to say the logic in one place."""
    found = [*PARTS.finditer(source)]
    if len(found) != 1:
        raise ValueError(f"{RELEASE} says in {len(found)} places by which logic the program is proved, and not in one")
    return source[: found[0].start(2)] + NO_LOGIC + source[found[0].end(2) :]

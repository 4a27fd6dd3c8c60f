"""the completions and the man page of share/ beside shells and readers of manuals

CASES has lines up to the cursor, and what can stand there; to these come, of each command, the options that its help tells. zsh is typed to on a terminal;
bash's function is called, and fish asked. `groff -ww`, `mandoc -T lint` and `man --warnings` have to read the page without a warning, and each word and option
has to stand in what `man` makes of it. A shell or reader that is not installed is told, and passed over; bash has to be there.
"""
import os
import pty
import re
import shutil
import subprocess
import tempfile
import threading
import time

from .shared import TOP

PAGE = f"{TOP}/share/man/man1/swcheck.1"
FILES = ["net.toml", "new.toml", "a.cert", "a.load", "a.schedule", "notes.txt", "sub/inner.toml"]
# What stands behind each line: texts, or files that end so, and folders.
CASES = {
    "swcheck dec": "decide",
    "swcheck decide --hints ": "auto never",
    "swcheck decide --hints n": "never",
    "swcheck re": "report replay",
    "swcheck fly ": "",
    "swcheck decide ": "net.toml new.toml sub",
    "swcheck decide ne": "net.toml new.toml",
    "swcheck decide sub/": "sub/inner.toml",
    "swcheck decide no": "notes.txt",
    "swcheck decide net.toml ": "",
    "swcheck check net.toml ": "a.cert sub",
    "swcheck check net.toml a.cert ": "",
    "swcheck check -- net.toml ": "a.cert sub",
    "swcheck replay net.toml ": "a.schedule sub",
    "swcheck run --workers 4 net.toml ": "a.load sub",
    "swcheck run --workers=4 net.toml ": "a.load sub",
    "swcheck run net.toml --limit ": "",
    "swcheck run net.toml --limit 5 ": "a.load sub",
    "swcheck run net.toml --li": "--limit",
    "swcheck draw net.toml --cycle ": "",
    "swcheck draw --flow ": "",
    "swcheck draw --flow f ": "net.toml new.toml sub",
    "swcheck route net.toml ": "",
    "swcheck rmap net.toml f ": "read write",
    "swcheck rmap --no-ack net.toml f w": "write",
    "swcheck rmap net.toml --transaction 7 f r": "read",
    "swcheck help dr": "draw",
    "swcheck help draw ": "",
}
BASH = 'source "$1"; shift; COMP_WORDS=("$@"); COMP_CWORD=$(($# - 1)); _swcheck 2>&1; [ ${#COMPREPLY[@]} = 0 ] || printf "%s\\n" "${COMPREPLY[@]}"'
# Each completion adds what it offers to the file `offered`, and then makes the file `done`.
ZSH = r"""
PROMPT=
fpath=(COMPLETIONS $fpath)
autoload -Uz compinit && compinit -u -D
bindkey '^I' complete-word
zstyle ':completion:*' insert-tab false
compadd() {
    if [[ ${@[1,(i)(-|--)]} != *-(O|A|D)\ * ]]; then
        local -a hits
        builtin compadd -O hits "$@"
        (( $#hits )) && print -rl -- $hits >> $OUT/offered
    fi
    builtin compadd "$@"
}
told() { : > $OUT/done }
comppostfuncs=(told)
: > $OUT/done
"""


def words_of(line):
    """The words of a line as bash parts them: a sign `=` is a word of its own."""
    return [part for word in line.split(" ") for part in (re.split("(=)", word) if "=" in word else [word])]


def in_bash(folder, lines):
    for line in lines:
        words = ["bash", "--norc", "-c", BASH, "bash", f"{TOP}/share/completions/swcheck.bash", *words_of(line)]
        yield subprocess.run(words, cwd=folder, capture_output=True, text=True).stdout.split("\n")[:-1]


def in_fish(folder, lines):
    for line in lines:
        words = ["fish", "--no-config", "-c", f"source {TOP}/share/completions/swcheck.fish; complete -C '{line}'"]
        ran = subprocess.run(words, cwd=folder, capture_output=True, text=True, env={**os.environ, "HOME": folder})
        yield [it.split("\t")[0] for it in ran.stdout.split("\n")[:-1]] + ran.stderr.split("\n")[:-1]


def wait_for(path):
    for _ in range(1000):
        if os.path.exists(path):
            return
        time.sleep(0.02)
    raise TimeoutError(f"zsh did not make {path}")


def drain(end):
    try:
        while os.read(end, 65536):
            pass
    except OSError:
        pass


def in_zsh(folder, lines):
    """Types each line and a tab to a shell of its own, and gives what was offered to be added."""
    for line in lines:
        with tempfile.TemporaryDirectory() as home:
            with open(f"{home}/.zshrc", "w", encoding="utf-8") as it:
                it.write(ZSH.replace("COMPLETIONS", f"{TOP}/share/completions"))
            here, there = pty.openpty()
            env = {**os.environ, "ZDOTDIR": home, "OUT": home, "TERM": "xterm"}
            shell = subprocess.Popen(["zsh", "-d", "-i"], cwd=folder, stdin=there, stdout=there, stderr=there, env=env, start_new_session=True)
            threading.Thread(target=drain, args=(here,), daemon=True).start()
            wait_for(f"{home}/done")
            os.remove(f"{home}/done")
            os.write(here, f"{line}\t".encode())
            wait_for(f"{home}/done")
            time.sleep(0.05)
            shell.kill()
            shell.wait()
            os.close(there)
            yield open(f"{home}/offered", encoding="utf-8").read().split("\n")[:-1] if os.path.exists(f"{home}/offered") else []


SHELLS = {"bash": in_bash, "zsh": in_zsh, "fish": in_fish}


def is_right(shell, line, wanted, got):
    """Whether a shell offers what it should. fish offers the files with the right ending first and then all others; zsh names a file in its folder alone,
    and offers options too where no word is to come."""
    wanted, got = wanted.split(), [it.rstrip("/") for it in got]
    if shell == "zsh":
        wanted = [os.path.basename(it) for it in wanted]
        got = [it for it in got if it[0] != "-" or line.split(" ")[-1][:1] == "-"]
    firsts = [it for it in wanted if "." in it]
    if shell == "fish" and firsts:
        return sorted(got[: len(firsts)]) == sorted(firsts) and {*wanted} <= {*got}
    return sorted({*got}) == sorted(wanted)


def helps_of(program):
    """The help of the program, and of each of its commands."""
    said = lambda *words: subprocess.run([program, *words], capture_output=True, text=True, check=True).stdout
    names = re.findall(r"^  (\w+)  ", said("--help").split("Commands:")[1].split("\n\n")[0], re.M)
    return names, {it: said(it, "--help") for it in names if it != "help"}


def options_of(help):
    return [it for pair in re.findall(r"^ +(?:(-\w), )?(--[\w-]+)", help.split("Options:\n")[1], re.M) for it in pair if it]


def compare_shells(names, helps):
    """What differs, and how many lines were tried in which shells."""
    cases = {**CASES, "swcheck ": " ".join(names), "swcheck -": "-h --help -V --version"}
    for name, text in helps.items():
        cases[f"swcheck {name} -"] = " ".join(options_of(text))
    found, tried = [], []
    with tempfile.TemporaryDirectory() as folder:
        os.mkdir(f"{folder}/sub")
        for name in FILES:
            open(f"{folder}/{name}", "w").close()
        for shell, offers in SHELLS.items():
            if shutil.which(shell) is None:
                print(f"{shell} is not installed: its completions were not tried")
                found += ["bash is missing\n"] if shell == "bash" else []
                continue
            tried.append(shell)
            for (line, wanted), got in zip(cases.items(), offers(folder, cases)):
                if not is_right(shell, line, wanted, got):
                    found.append(f"{shell}: '{line}' wants {wanted.split()}, and has {got}\n")
    return found, f"{len(cases)} lines in each of {', '.join(tried)}"


def compare_page(helps):
    """What the readers of manuals warn of, and what does not stand in the page."""
    readers = {"groff": ["groff", "-ww", "-man", "-T", "utf8", PAGE], "mandoc": ["mandoc", "-T", "lint", PAGE], "man": ["man", "-l", "--warnings", PAGE]}
    found, tried, text = [], [], ""
    for reader, words in readers.items():
        if shutil.which(reader) is None:
            print(f"{reader} is not installed: the page was not read by it")
            continue
        ran = subprocess.run(words, capture_output=True, text=True, env={**os.environ, "MANWIDTH": "200", "LC_ALL": "C.UTF-8"})
        text = ran.stdout if reader == "man" else text
        said = ran.stderr + (ran.stdout if reader == "mandoc" else "")
        found += [f"{reader}: {said}"] if said or ran.returncode else []
        tried.append(reader)
    for name, told in helps.items() if text else ():
        part = re.search(rf"^   {name}$.*?^ {{0,3}}\S", text, re.M | re.S)
        wanted = [re.sub(r"[<>]", "", re.search(r"Usage: (.*)", told)[1]), told.split("\n")[0], *options_of(told)]
        missing = [it for it in wanted if it not in ("-h", "--help") and it not in (part[0] if part else "")]
        found += [f"the page does not have '{it}' of {name}\n" for it in missing]
    return found, ", ".join(tried)


def add_words(parser):
    pass


def compare(given):
    names, helps = helps_of(os.path.abspath(given.program))
    in_shells, shells = compare_shells(names, helps)
    in_page, readers = compare_page(helps)
    print(f"{''.join(in_shells + in_page)}{shells}; the page by {readers}; {len(in_shells + in_page)} differences")
    return len(in_shells + in_page)

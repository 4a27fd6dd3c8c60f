"""Runs of two programs beside each other: their seconds and memory, and whether they print the same."""
import hashlib, os, subprocess, sys, time


def timed(program, words, told):
    """Seconds, seconds of processor time, MiB, exit status and digest of the output of a run. The output goes to a file, since the
    memory of what starts a run counts as the run's."""
    with open(told, "wb") as output:
        begin = time.time()
        child = subprocess.Popen([program] + words, stdout=output, stderr=subprocess.DEVNULL)
        _, status, used = os.wait4(child.pid, 0)
        seconds = time.time() - begin
    child.returncode = os.waitstatus_to_exitcode(status)
    processor = used.ru_utime + used.ru_stime
    with open(told, "rb") as output:
        return seconds, processor, used.ru_maxrss / 1024, child.returncode, hashlib.file_digest(output, "sha256").digest()


def measured(programs, words, told, turns):
    """The least seconds, the least seconds of processor time and the most MiB of several runs of each program, taken in turn. Both
    must end and print alike."""
    runs = ([], [])
    ends = set()
    for _ in range(turns):
        for program, times in zip(programs, runs):
            seconds, processor, memory, status, output = timed(program, words, told)
            times.append((seconds, processor, memory))
            ends.add((status, output))
    if len(ends) != 1:
        sys.exit(f"the two programs answer differently: {' '.join(words)}")
    return [(min(s for s, _, _ in times), min(p for _, p, _ in times), max(m for _, _, m in times)) for times in runs]


def print_head(what):
    names = ["swcheck s", "plain s", "ratio", "processor", "processor", "ratio", "MiB", "MiB", "ratio"]
    print(f"{what:28}" + "".join(f" {name:>9}" for name in names))


def print_row(what, measures):
    cells = []
    for ours, theirs in zip(*measures):
        cells += [f"{ours:.3f}", f"{theirs:.3f}", f"{ours / theirs:.2f}"]
    print(f"{what:28}" + "".join(f" {cell:>9}" for cell in cells))

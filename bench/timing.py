"""What the scripts of this folder share: the program of crates/measurements, built, and the processor time of its runs."""
import os
import resource
import subprocess
import sys

TOP = os.path.dirname(os.path.dirname(os.path.abspath(__file__)))
CRATE = os.path.join(TOP, "crates", "measurements")
PROGRAM = os.path.join(CRATE, "out", "measurements")
RUNS = 3
# How many octets a first try works on, and how many seconds a measured run takes at least.
FIRST_OCTETS = 2_000_000
ENOUGH_SECONDS = 0.25


def is_built(program):
    """Whether the program stands, and nothing of the crates is newer than it."""
    if not os.path.exists(program):
        return False
    built = os.path.getmtime(program)
    for folder, folders, files in os.walk(os.path.join(TOP, "crates")):
        folders[:] = [name for name in folders if name not in ("out", "must-fail")]
        for name in files:
            if name.endswith((".rt", ".antt")) and os.path.getmtime(os.path.join(folder, name)) > built:
                return False
    return True


def build():
    """Proves and builds the program, by one run of it, unless it was built (as `rt ci` does too)."""
    if is_built(PROGRAM):
        return
    subprocess.run(
        ["rt", "run", "--", "read-stream-100", "1", "data/three.stream"],
        cwd=CRATE, check=True, stdout=subprocess.DEVNULL, stderr=subprocess.DEVNULL,
    )


def seconds(work, rounds, path):
    """The least processor time of some runs, in seconds."""
    best = None
    for _ in range(RUNS):
        before = resource.getrusage(resource.RUSAGE_CHILDREN)
        done = subprocess.run([PROGRAM, work, str(rounds), path], stdout=subprocess.DEVNULL)
        after = resource.getrusage(resource.RUSAGE_CHILDREN)
        if done.returncode != 0:
            sys.exit(f"{work} {path}: status {done.returncode}")
        taken = after.ru_utime + after.ru_stime - before.ru_utime - before.ru_stime
        best = taken if best is None else min(best, taken)
    return best


def seconds_a_round(work, octets, folder):
    """The processor time of a round of the work on these octets, over so many rounds that they take long enough."""
    path = os.path.join(folder, "octets")
    with open(path, "wb") as file:
        file.write(octets)
    rounds = max(1, FIRST_OCTETS // len(octets))
    empty = seconds(work, 0, path)
    while True:
        taken = seconds(work, rounds, path) - empty
        if taken >= ENOUGH_SECONDS:
            return taken / rounds
        rounds *= 4


def million_octets_a_second(work, octets, folder):
    return len(octets) / seconds_a_round(work, octets, folder) / 1e6

"""What the benchmarks share: the built program, its yardstick in plain Rust, and the measure of a run."""
import os
import subprocess
import sys
import time

TOP = os.path.dirname(os.path.dirname(os.path.abspath(__file__)))
RUNS = 3


def program(name):
    """The built program of a crate."""
    path = os.path.join(TOP, "crates", name, "out", name)
    if not os.access(path, os.X_OK):
        sys.exit(f"build the program first: rt run, in crates/{name}")
    return path


def yardstick(name, folder):
    """The file of this name in bench/, as `rustc -O` builds it."""
    path = os.path.join(folder, name)
    subprocess.run(["rustc", "-O", "--edition", "2024", "-o", path, os.path.join(TOP, "bench", name + ".rs")], check=True)
    return path


def measured(path, words, folder):
    """The best wall time of some runs in seconds, the greatest peak of resident memory in bytes, and the output."""
    best, peak = float("inf"), 0
    for _ in range(RUNS):
        before = time.perf_counter()
        child = subprocess.Popen([path, *words], cwd=folder, stdout=subprocess.PIPE)
        answer = child.stdout.read()
        _, status, usage = os.wait4(child.pid, 0)
        best = min(best, time.perf_counter() - before)
        peak = max(peak, usage.ru_maxrss * 1024)
        if status != 0:
            sys.exit(f"{path} {' '.join(words)} ended with {status}")
    return best, peak, answer


def compared(ours, theirs, words, folder):
    """Both runs, whose answers have to be the same."""
    mine, other = measured(ours, words, folder), measured(theirs, words, folder)
    if mine[2] != other[2]:
        sys.exit(f"{' '.join(words)}: {mine[2]!r}, and the yardstick {other[2]!r}")
    return mine, other

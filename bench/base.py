#!/usr/bin/env python3
"""A million sums and 50 million comparisons of fractions, and fresh names over one base: the time of each over that of plain
Rust, as ratios, and how the time grows with the number of names.

It stands outside the gate. Build the program first: `rt run`, in crates/bench_base. It needs rustc for the yardstick."""
import sys
import tempfile

sys.dont_write_bytecode = True
from measure import compared, program, yardstick


def main():
    ours = program("bench_base")
    with tempfile.TemporaryDirectory() as folder:
        theirs = yardstick("base", folder)
        idle = [run[0] for run in compared(ours, theirs, ["compare", "0"], folder)]
        times = {}
        for what, count in (("add", 1_000_000), ("compare", 50_000_000), ("fresh", 10_000), ("fresh", 100_000)):
            mine, other = compared(ours, theirs, [what, str(count)], folder)
            mine, other = mine[0] - idle[0], other[0] - idle[1]
            times[what, count] = mine
            print(f"{what:>8} {count:>9,}: {mine / count * 1e9:7.1f} ns each, {mine / other:5.2f} times plain Rust")
        print(f"10 times the fresh names take {times['fresh', 100_000] / times['fresh', 10_000]:.1f} times the time")


main()

#!/usr/bin/env python3
"""How `compile` grows: makes STRIPS problems of 10,000 and 100,000 facts, runs the built program on each and
prints megabytes of input a second, peak memory over the input's size, and how both grow as ratios.

It stands outside the gate. Build the program first: any call of ./nadvorzet does so."""
import os
import sys
import tempfile

sys.dont_write_bytecode = True
from measure import measured, program
from roads import DOMAIN, problem


def main():
    compiler = program("nadvorzet")
    rows = []
    with tempfile.TemporaryDirectory() as folder:
        write = lambda name, text: open(os.path.join(folder, name), "w").write(text)
        write("d", DOMAIN)
        write("e", 'name = "strips"\nfeatures = ["ACTION_PARAMETERS"]\n')
        for facts in (10_000, 100_000):
            size = write("p", problem(facts, facts // 10, facts // 10 - 1)) + len(DOMAIN)
            seconds, peak, _ = measured(compiler, ["compile", "d", "p", "e", "od", "op", "m"], folder)
            rows.append((facts, size, seconds, peak))
            print(f"{facts:>7} facts: {size / 1e6:6.2f} MB of input, {size / 1e6 / seconds:7.2f} MB/s, "
                  f"peak memory {peak / size:5.1f} times the input")
    (_, small, quick, low), (_, large, slow, high) = rows
    print(f"the input grows {large / small:.1f} times: time {slow / quick:.1f} times, peak memory {high / low:.1f} times")


main()

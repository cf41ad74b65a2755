#!/usr/bin/env python3
"""How `validate` grows with a plan: on a STRIPS problem of 10,000 facts, plans of 10,000 and 20,000 steps, and a
plan of 10,000 steps beside 100,000 facts, over a tenth as many objects each. Prints seconds, steps a second, and how
both grow as ratios.

It stands outside the gate. Build the program first: any call of ./nadvorzet does so."""
import os
import sys
import tempfile

sys.dont_write_bytecode = True
from measure import measured, program
from roads import DOMAIN, plan, problem


def main():
    compiler = program("nadvorzet")
    times = []
    with tempfile.TemporaryDirectory() as folder:
        write = lambda name, text: open(os.path.join(folder, name), "w").write(text)
        write("d", DOMAIN)
        for facts, steps in ((10_000, 10_000), (10_000, 20_000), (100_000, 10_000)):
            places = facts // 10
            write("p", problem(facts, places, steps % places))
            write("plan", plan(steps, places))
            seconds, _, answer = measured(compiler, ["validate", "d", "p", "plan"], folder)
            if answer != b"valid\n":
                sys.exit(f"{facts} facts, {steps} steps: {answer!r}")
            times.append(seconds)
            print(f"{facts:>7} facts, {steps} steps: {seconds:6.2f} s, {steps / seconds:8.0f} steps/s")
    print("the time holds that of reading the problem; a step looks its names up in tables, however many objects there are")
    print(f"twice the steps: {times[1] / times[0]:.1f} times; ten times the facts: {times[2] / times[0]:.1f} times")


main()

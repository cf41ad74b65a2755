#!/usr/bin/env python3
"""How `back` grows with a map and a plan: a map of 10,000 and 100,000 entries, each of which makes an action of its own
`drive`, and a plan with a step of each of these actions, on a STRIPS problem of ten places. Prints megabytes of map and
plan a second, steps a second, the time over that of `validate` on the plan that is written, and how both grow as ratios.

It stands outside the gate. Build the program first: any call of ./nadvorzet does so."""
import os
import sys
import tempfile

sys.dont_write_bytecode = True
from measure import measured, program
from roads import DOMAIN, plan, problem

PLACES = 10


def map_text(entries):
    """A map whose actions are `drive-0`, `drive-1`, ..: each drives."""
    lines = "".join(f"action drive-{k} 2 keep drive $1 $2\n" for k in range(entries))
    return f"up-map 1\nchain overlaps\n{lines}end\n"


def main():
    compiler = program("nadvorzet")
    rows = []
    with tempfile.TemporaryDirectory() as folder:
        write = lambda name, text: open(os.path.join(folder, name), "w").write(text)
        read = lambda name: open(os.path.join(folder, name)).read()
        write("d", DOMAIN)
        for steps in (10_000, 100_000):
            write("p", problem(PLACES + 1, PLACES, steps % PLACES))
            size = write("m", map_text(steps)) + write("plan", plan(steps, PLACES, lambda k: f"drive-{k}"))
            seconds, _, answer = measured(compiler, ["back", "d", "p", "m", "plan", "out"], folder)
            if answer != b"valid\n":
                sys.exit(f"{steps} steps: {answer!r}")
            if read("out") != plan(steps, PLACES):
                sys.exit(f"{steps} steps: another plan is written")
            alone, _, _ = measured(compiler, ["validate", "d", "p", "out"], folder)
            rows.append((seconds, alone))
            print(f"{steps:>7} entries and steps: {size / 1e6:5.2f} MB of map and plan, {size / 1e6 / seconds:6.2f} MB/s, "
                  f"{steps / seconds:8.0f} steps/s, {seconds / alone:4.1f} times the time of validate")
    (quick, short), (slow, long) = rows
    print(f"ten times the entries and steps: {slow / quick:.1f} times; validate {long / short:.1f} times")


main()

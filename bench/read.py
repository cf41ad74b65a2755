#!/usr/bin/env python3
"""What it costs to read: `kind` on typed problems of 10,000 and 100,000 facts, a tenth of them numbers, over a tenth as
many objects. Prints megabytes of input a second, bytes of memory for each byte of text, both over those of a reader in
plain Rust, and how they grow.

It stands outside the gate. Build the program first: any call of ./nadvorzet does so. It needs rustc for the yardstick."""
import os
import sys
import tempfile

sys.dont_write_bytecode = True
from measure import compared, program, yardstick

DOMAIN = """(define (domain roads) (:requirements :typing :numeric-fluents)
  (:types place thing - object city - place car - thing)
  (:predicates (road ?a ?b - place) (at ?c - thing ?p - place))
  (:functions (length ?a ?b - place))
  (:action drive :parameters (?c - car ?a ?b - place)
    :precondition (and (road ?a ?b) (at ?c ?a))
    :effect (and (at ?c ?b) (not (at ?c ?a)))))
"""


def problem(facts, objects):
    """`facts` different facts over `objects` places."""
    names = [f"place-{k}" for k in range(objects)]
    pair = lambda k: f"{names[k % objects]} {names[(k + 1 + k // objects) % objects]}"
    roads = [f"(road {pair(k)})" for k in range(facts * 9 // 10)]
    lengths = [f"(= (length {pair(k)}) {k}.5)" for k in range(facts // 10)]
    return (f"(define (problem ring) (:domain roads)\n (:objects {' '.join(names)} - city van - car)\n (:init (at van place-0)\n  "
            + "\n  ".join(roads + lengths) + ")\n (:goal (at van place-1)))\n")


def main():
    reader = program("nadvorzet")
    rows = []
    with tempfile.TemporaryDirectory() as folder:
        theirs = yardstick("read", folder)
        write = lambda name, text: open(os.path.join(folder, name), "w").write(text)
        write("d", DOMAIN)
        for facts in (10_000, 100_000):
            size = write("p", problem(facts, facts // 10)) + len(DOMAIN)
            (seconds, peak, _), (other, room, _) = compared(reader, theirs, ["kind", "d", "p"], folder)
            rows.append((size, seconds, peak))
            print(f"{facts:>7} facts: {size / 1e6 / seconds:6.1f} MB/s, {seconds / other:5.2f} times plain Rust; "
                  f"{peak / size:5.1f} bytes of memory a byte, plain Rust {room / size:5.1f}")
    (small, quick, low), (large, slow, high) = rows
    print(f"the input grows {large / small:.1f} times: time {slow / quick:.1f} times, memory {high / low:.1f} times")


main()

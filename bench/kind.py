#!/usr/bin/env python3
"""How `kind` grows with the rows of an action, half of them deletes and half adds, of which no two meet. Prints
seconds, and how they grow as ratios, for three sorts of rows:

- 300 and 3,000 rows beside 100,000 facts, each of a predicate of its own;
- the same of one predicate, each on a constant of its own;
- 100 and 300 rows of one predicate beside 10,000 objects, each on a variable whose type is its own.

It stands outside the gate. Build the program first: any call of ./nadvorzet does so."""
import os
import sys
import tempfile

sys.dont_write_bytecode = True
from measure import measured, program

FACTS = 100_000
OBJECTS = 10_000


def domain(rows, shared):
    """`rows` rows, a delete and an add in turn, of predicates of their own or of one."""
    count = 1 if shared else rows
    predicates = " ".join(f"(p{k} ?a)" for k in range(count))
    constants = " ".join(f"c{k}" for k in range(rows))
    atoms = [f"(p{0 if shared else k} c{k})" for k in range(rows)]
    effects = " ".join(f"(not {atom})" if k % 2 else atom for k, atom in enumerate(atoms))
    return (f"(define (domain wide) (:constants {constants}) (:predicates (at ?a) {predicates})\n"
            f" (:action change :effect (and {effects})))\n")


def typed_domain(rows):
    """`rows` rows, a delete and an add in turn, of one predicate on variables of as many types."""
    types = " ".join(f"t{k}" for k in range(rows))
    parameters = " ".join(f"?x{k} - t{k}" for k in range(rows))
    effects = " ".join(f"(not (p ?x{k}))" if k % 2 else f"(p ?x{k})" for k in range(rows))
    return (f"(define (domain typed) (:types {types}) (:predicates (p ?a))\n"
            f" (:action change :parameters ({parameters}) :effect (and {effects})))\n")


def typed_problem(rows):
    """10,000 objects, of the types in turn."""
    objects = " ".join(f"o{k} - t{k % rows}" for k in range(OBJECTS))
    return f"(define (problem many) (:domain typed) (:objects {objects}) (:init (p o0)) (:goal (p o0)))\n"


def problem():
    names = [f"o{k}" for k in range(FACTS)]
    return (f"(define (problem many) (:domain wide) (:objects {' '.join(names)})\n"
            f" (:init {' '.join(f'(at {name})' for name in names)}) (:goal (at o0)))\n")


def main():
    compiler = program("nadvorzet")
    with tempfile.TemporaryDirectory() as folder:
        write = lambda name, text: open(os.path.join(folder, name), "w").write(text)
        write("p", problem())
        for shared in (False, True):
            times = []
            for rows in (300, 3_000):
                write("d", domain(rows, shared))
                seconds, _, _ = measured(compiler, ["kind", "d", "p"], folder)
                times.append(seconds)
            label = "one predicate" if shared else "a predicate a row"
            print(f"{label}: 300 rows {times[0]:.2f} s, 3,000 rows {times[1]:.2f} s, {times[1] / times[0]:.1f} times")
        times = []
        for rows in (100, 300):
            write("d", typed_domain(rows))
            write("p", typed_problem(rows))
            seconds, _, _ = measured(compiler, ["kind", "d", "p"], folder)
            times.append(seconds)
        print(f"a type a row: 100 rows {times[0]:.2f} s, 300 rows {times[1]:.2f} s, {times[1] / times[0]:.1f} times")


main()

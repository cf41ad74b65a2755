#!/usr/bin/env python3
"""Writes the large problem of each example anew; the files it writes are committed beside the domains."""
import os

HERE = os.path.dirname(os.path.abspath(__file__))


def wrapped(items, indent="    ", width=96):
    lines, line = [], indent
    for item in items:
        if len(line) + len(item) > width and line.strip():
            lines.append(line.rstrip())
            line = indent
        line += item + " "
    lines.append(line.rstrip())
    return "\n".join(lines)


def problem(domain, name, comment, objects, init, goal):
    text = (
        f"; {comment}\n(define (problem {name})\n  (:domain {domain})\n  (:objects\n{wrapped(objects)})\n"
        f"  (:init\n{wrapped(init)})\n  (:goal (and\n{wrapped(goal)})))\n"
    )
    with open(os.path.join(HERE, domain, f"{name}.pddl"), "w") as out:
        out.write(text)


def gripper(balls=240):
    names = [f"ball{k}" for k in range(1, balls + 1)]
    rooms = ["hall", "attic", "cellar", "porch"]
    init = [f"(room {r})" for r in rooms] + ["(gripper left)", "(gripper right)", "(free left)", "(free right)"]
    init += ["(at-robby hall)"] + [f"(ball {b})" for b in names]
    init += [f"(at {b} {rooms[k % 4]})" for k, b in enumerate(names)]
    goal = [f"(at {b} {rooms[(k + 1) % 4]})" for k, b in enumerate(names)]
    problem("gripper", "many-balls", f"{balls} balls, each wanted in the next room.",
            rooms + ["left", "right"] + names, init, goal)


def blocks(towers=30, height=8):
    name = lambda t, h: f"b{t}-{h}"
    objects = [name(t, h) for t in range(towers) for h in range(height)]
    init = ["(hand-empty)"]
    for t in range(towers):
        init.append(f"(on-table {name(t, 0)})")
        init += [f"(on {name(t, h)} {name(t, h - 1)})" for h in range(1, height)]
        init.append(f"(clear {name(t, height - 1)})")
    goal = [f"(on {name(t, h - 1)} {name(t, h)})" for t in range(towers) for h in range(1, height)]
    problem("blocks", "many-towers", f"{towers} towers of {height} blocks, each to be turned over.", objects, init, goal)


def logistics(cities=20, packages=120):
    objects, init, goal = [], [], []
    places = []
    for c in range(cities):
        objects += [f"city{c}", f"truck{c}", f"airport{c}", f"office{c}", f"depot{c}"]
        init += [f"(city city{c})", f"(truck truck{c})", f"(at truck{c} office{c})", f"(airport airport{c})"]
        for place in (f"airport{c}", f"office{c}", f"depot{c}"):
            init += [f"(location {place})", f"(in-city {place} city{c})"]
            places.append(place)
    for a in range(4):
        objects.append(f"plane{a}")
        init += [f"(aeroplane plane{a})", f"(at plane{a} airport{a})"]
    for p in range(packages):
        objects.append(f"package{p}")
        init += [f"(package package{p})", f"(at package{p} {places[(7 * p) % len(places)]})"]
        goal.append(f"(at package{p} {places[(7 * p + 31) % len(places)]})")
    problem("logistics", "many-parcels", f"{packages} packages among {cities} cities.", objects, init, goal)


gripper()
blocks()
logistics()

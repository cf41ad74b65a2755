"""A ring of roads with chords, and a car that drives along them."""

DOMAIN = """(define (domain roads)
  (:predicates (road ?a ?b) (at ?a))
  (:action drive :parameters (?a ?b)
    :precondition (and (road ?a ?b) (at ?a))
    :effect (and (at ?b) (not (at ?a)))))
"""


def problem(facts, objects, goal):
    """`facts` different facts over `objects` places, of which the car begins at the first and is wanted at `goal`."""
    names = [f"place-{k}" for k in range(objects)]
    roads = [f"(road {names[k % objects]} {names[(k + 1 + k // objects) % objects]})" for k in range(facts - 1)]
    return (
        f"(define (problem ring) (:domain roads)\n (:objects {' '.join(names)})\n (:init (at place-0)\n  "
        + "\n  ".join(roads) + f")\n (:goal (at {names[goal]})))\n"
    )


def plan(steps, places, action=lambda step: "drive"):
    """Round the ring of `places`, road by road, where `action` names what a step does."""
    return "".join(f"({action(k)} place-{k % places} place-{(k + 1) % places})\n" for k in range(steps))

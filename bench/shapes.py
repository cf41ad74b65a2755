#!/usr/bin/env python3
"""How time and memory grow with the text, shape by shape.

    bench/shapes.py [--program PATH] [--kib SMALL] [--only WORD] [--limit SECONDS]

Each shape is made at two sizes, SMALL KiB (256) and four times that. For `kind`, and for `compile` to an engine that
accepts everything, a line says the user time of both, how many times it grew, and the peak of memory in bytes a byte of
text. A run past the limit (20 s) is stopped and said to be so. A line ends in `!` where four times the text take more
than six times the time (of runs past 0.2 s), or a byte of text more than 200 bytes of memory.

It stands outside the gate. Build the program first: any call of ./nadvorzet does so."""
import argparse
import os
import resource
import subprocess
import sys
import tempfile

sys.dont_write_bytecode = True
from measure import TOP

FEATURES = ("FLAT_TYPING HIERARCHICAL_TYPING ACTION_PARAMETERS NEGATIVE_CONDITIONS DISJUNCTIVE_CONDITIONS EQUALITIES "
            "EXISTENTIAL_CONDITIONS UNIVERSAL_CONDITIONS CONDITIONAL_EFFECTS FORALL_EFFECTS OBJECT_FLUENTS NUMERIC_FLUENTS "
            "NUMERIC_CONDITIONS NUMERIC_EFFECTS SCALE_EFFECTS METRIC TRAJECTORY_CONSTRAINTS").split()
ENGINE = 'name = "any"\nfeatures = [' + ", ".join(f'"{it}"' for it in FEATURES) + "]\n"


def filled(size, item):
    """Items 0, 1, .. until their texts fill the size."""
    made, length, k = [], 0, 0
    while length < size:
        made.append(item(k))
        length += len(made[-1]) + 1
        k += 1
    return made


def texts(types="", constants="", predicates="(p) (q)", functions="", actions="", constraints="", objects="", init="", goal="(p)", metric=""):
    section = lambda word, body: f" (:{word} {body})\n" if body else ""
    domain = ("(define (domain d)\n" + section("types", types) + section("constants", constants) + section("predicates", predicates)
              + section("functions", functions) + actions + ")\n")
    problem = ("(define (problem p) (:domain d)\n" + section("objects", objects) + section("init", init) + f" (:goal {goal})\n"
               + section("constraints", constraints) + section("metric", metric) + ")\n")
    return domain, problem


def action(effect, parameters="", precondition="(p)", name="a"):
    return f" (:action {name} :parameters ({parameters}) :precondition {precondition} :effect {effect})\n"


def conjunction(items):
    return "(and " + " ".join(items) + ")"


def add_rows(size):
    names = filled(size // 2, lambda k: f"(p{k})")
    return texts(predicates="(p) " + " ".join(names), actions=action(conjunction(names)))


def rows_that_never_meet(size):
    items = filled(size * 2 // 3, lambda k: f"(r c{k})" if k % 2 else f"(not (r c{k}))")
    return texts(predicates="(p) (r ?x)", constants=" ".join(f"c{k}" for k in range(len(items))), actions=action(conjunction(items)))


def repeated_when(size):
    return texts(actions=action(conjunction(filled(size, lambda k: "(when (p) (q))"))))


def delete_rows(size):
    names = filled(size // 2, lambda k: f"(p{k})")
    return texts(predicates="(p) " + " ".join(names), actions=action(conjunction(f"(not {it})" for it in names)))


def rows_of_different_predicates(size):
    names = filled(size // 2, lambda k: f"(p{k})")
    return texts(predicates="(p) " + " ".join(names),
                 actions=action(conjunction(it if k % 2 else f"(not {it})" for k, it in enumerate(names))))


def object_function_with_values(size):
    values = filled(size * 3 // 4, lambda k: f"(= (f o{k}) o{k})")
    return texts(functions="(f ?x) - object", objects=" ".join(f"o{k}" for k in range(len(values))), init=" ".join(values))


def functions_over_an_empty_type(size):
    return texts(types="t", functions=" ".join(filled(size, lambda k: f"(f{k} ?x - t) - object")), objects="o")


def flat_types_with_a_function(size):
    types = filled(size // 2, lambda k: f"t{k}")
    return texts(types=" ".join(types), functions="(f ?x - t0) - object", objects=" ".join(f"o{k} - t{k}" for k in range(len(types) // 2)))


def delete_rows_on_an_empty_subtype(size):
    items = filled(size // 2, lambda k: "(r ?x)" if k % 2 else "(not (r ?y))")
    objects = filled(size // 2, lambda k: f"o{k}")
    return texts(types="s - t t", predicates="(p) (r ?x - t)", objects=" ".join(objects) + " - t",
                 actions=action(conjunction(items), "?x - t ?y - s"))


def facts_below_a_long_chain(size):
    types = filled(size // 2, lambda k: f"t{k} - t{k + 1}")
    facts = filled(size // 2, lambda k: f"(r{k % 50} o)")
    return texts(types=" ".join(types), predicates=" ".join(f"(r{k} ?x - t{len(types)})" for k in range(50)) + " (p)",
                 objects="o - t0", init=" ".join(sorted(set(facts))) + " (r0 o)" * (len(facts) // 2))


def long_chain_upwards(size):
    return texts(types=" ".join(filled(size, lambda k: f"t{k + 1} - t{k}")), objects="o - t1")


def large_when(size):
    half = size // 2
    return texts(actions=action(f"(when {conjunction(filled(half, lambda k: '(p)'))} {conjunction(filled(half, lambda k: '(q)'))})"))


def long_forall(size):
    half = size // 2
    return texts(actions=action(f"(forall ({' '.join(filled(half, lambda k: f'?v{k}'))}) {conjunction(filled(half, lambda k: '(q)'))})"))


def many_actions(size):
    return texts(actions="".join(filled(size, lambda k: action("(q)", name=f"a{k}"))))


def facts(size):
    items = filled(size * 2 // 3, lambda k: f"(r o{k})")
    return texts(predicates="(p) (r ?x)", objects=" ".join(f"o{k}" for k in range(len(items))), init=" ".join(items))


def objects(size):
    return texts(objects=" ".join(filled(size, lambda k: f"o{k}")))


def wide(word):
    return lambda size: texts(goal=f"({word} " + " ".join(filled(size, lambda k: "(p)")) + ")")


def nested_not(size):
    return texts(goal=conjunction(filled(size, lambda k: "(not " * 180 + "(p)" + ")" * 180)))


def long_precondition(size):
    return texts(actions=action("(q)", precondition=conjunction(filled(size, lambda k: "(p)"))))


def many_parameters(size):
    return texts(actions=action("(q)", parameters=" ".join(filled(size, lambda k: f"?v{k}"))))


def many_predicates(size):
    return texts(predicates="(p) " + " ".join(filled(size, lambda k: f"(p{k} ?x ?y)")))


def many_functions(size):
    return texts(functions=" ".join(filled(size, lambda k: f"(f{k} ?x)")))


def numbers(size):
    values = filled(size * 3 // 4, lambda k: f"(= (f o{k}) {k}.5)")
    return texts(functions="(f ?x)", objects=" ".join(f"o{k}" for k in range(len(values))), init=" ".join(values))


def one_long_name(size):
    name = "a" * (size // 2)
    return texts(objects=name, predicates="(p) (r ?x)", init=f"(r {name})")


def constraints(size):
    return texts(constraints=conjunction(filled(size, lambda k: "(sometime (p))")))


def long_metric(size):
    return texts(functions="(f)", metric=f"minimize (+ {' '.join(filled(size, lambda k: '(f)'))})", init="(= (f) 1)")


def open_brackets(size):
    domain, _ = texts()
    return domain, "(" * size


def garbage(size):
    return "#" * size, "#"


SHAPES = {
    "an action of many add rows": add_rows, "delete and add rows of one predicate that never meet": rows_that_never_meet,
    "when (p) (q) repeated": repeated_when, "many delete rows": delete_rows, "rows of different predicates": rows_of_different_predicates,
    "an object function with a value for each object": object_function_with_values,
    "functions over an empty type": functions_over_an_empty_type, "many flat types with one function": flat_types_with_a_function,
    "delete rows on an empty subtype": delete_rows_on_an_empty_subtype, "facts below a long chain of types": facts_below_a_long_chain,
    "a long chain of types upwards": long_chain_upwards, "a large when over many effects": large_when,
    "a long forall over many effects": long_forall, "many actions": many_actions, "facts": facts, "objects": objects,
    "a wide and": wide("and"), "a wide or": wide("or"), "nested not": nested_not, "a long precondition": long_precondition,
    "many parameters": many_parameters, "many predicates": many_predicates, "many functions": many_functions, "numbers": numbers,
    "one long name": one_long_name, "constraints": constraints, "a long metric": long_metric, "open brackets": open_brackets,
    "garbage": garbage,
}


def run(program, words, folder, limit):
    """The user time in seconds, or None where it passed the limit, and the peak of resident memory in bytes."""
    bound = lambda: resource.setrlimit(resource.RLIMIT_CPU, (limit, limit + 1))
    child = subprocess.Popen([program, *words], cwd=folder, stdout=subprocess.DEVNULL, preexec_fn=bound)
    _, status, usage = os.wait4(child.pid, 0)
    return (None if os.WIFSIGNALED(status) else usage.ru_utime), usage.ru_maxrss * 1024


def measured(program, shape, size, words, limit):
    with tempfile.TemporaryDirectory() as folder:
        domain, problem = shape(size)
        for name, text in (("d", domain), ("p", problem), ("e", ENGINE)):
            with open(os.path.join(folder, name), "w", encoding="ascii") as it:
                it.write(text)
        seconds, memory = run(program, words, folder, limit)
        return seconds, memory / (len(domain) + len(problem))


def told(seconds):
    return "past the limit" if seconds is None else f"{seconds:.2f} s"


def main():
    parser = argparse.ArgumentParser()
    parser.add_argument("--program")
    parser.add_argument("--kib", type=int, default=256)
    parser.add_argument("--only", default="")
    parser.add_argument("--limit", type=int, default=20)
    given = parser.parse_args()
    places = [given.program, f"{TOP}/crates/nadvorzet/out/nadvorzet", f"{TOP}/.unproved/nadvorzet"]
    program = next((os.path.abspath(it) for it in places if it and os.access(it, os.X_OK)), None)
    if program is None:
        sys.exit("build the program first: any call of ./nadvorzet does so")
    for name, shape in SHAPES.items():
        if given.only not in name:
            continue
        for words in (["kind", "d", "p"], ["compile", "d", "p", "e", "od", "op", "m"]):
            (small, _), (large, memory) = (measured(program, shape, given.kib * 1024 * k, words, given.limit) for k in (1, 4))
            growth = large / max(small, 0.01) if small is not None and large is not None else float("inf")
            slow = growth > 6 and (large is None or large > 0.2)
            mark = " !" if slow or memory > 200 else ""
            print(f"{name}, {words[0]}: {told(small)}, {told(large)}, {growth:.1f} times, {memory:.0f} bytes a byte{mark}", flush=True)


main()

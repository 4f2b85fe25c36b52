#!/usr/bin/env python3
"""run.py FOLDER PROBLEM RULE BUDGET: runs the plain Rust in FOLDER on a problem in the DISPLIB 2025 format."""
import json, subprocess, sys


def numbers_of(problem):
    """The problem as numbers: each list behind how many it has, and -1 for no latest start."""
    names, out = {}, []

    def put_list(items, put):
        out.append(len(items))
        for item in items:
            put(item)

    def put_listing(listing):
        name = listing["resource"]
        out.extend((names.setdefault(name, len(names)), listing.get("release_time") or 0))

    def put_operation(operation):
        upper = operation.get("start_ub")
        out.extend((operation.get("start_lb") or 0, -1 if upper is None else upper, operation.get("min_duration") or 0))
        put_list(operation.get("resources") or [], put_listing)
        put_list(list(dict.fromkeys(operation.get("successors") or [])), out.append)

    def put_component(component):
        out.extend(component.get(key) or 0 for key in ("train", "operation", "threshold", "increment", "coeff"))

    put_list(problem["trains"], lambda train: put_list(train, put_operation))
    put_list(problem["objective"], put_component)
    put_list(range(len(names)), out.append)
    return " ".join(map(str, out))


folder, problem, rule, budget = sys.argv[1:5]
with open(problem) as file:
    text = numbers_of(json.load(file))
sys.exit(subprocess.run([f"{folder}/plain", rule, budget], input=text.encode()).returncode)

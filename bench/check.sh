#!/usr/bin/env bash
# Solves problems of a folder (examples/ where none is given) with the built program, by a rule (free where none is given) and a
# budget of branchings (100000 where none is given), keeps the tree where one is shown, and has `check` judge it. Prints for each
# the verdict, the seconds of both, the size of the tree's text, and the most memory that `check` held.
# Build first: (cd crates/dispatch && rt run -- solve ../../examples/delay.json)
set -eu
cd "$(dirname "$0")/.."
program=$PWD/crates/dispatch/out/dispatch
[ -x "$program" ] || { echo "no $program: build it first"; exit 1; }
python3 - "$program" "${1:-examples}" "${2:-free}" "${3:-100000}" <<'PYTHON'
import glob, json, os, subprocess, sys, tempfile, time

def run(words):
    begun = time.time()
    ran = subprocess.Popen(words, stdout=subprocess.PIPE)
    lines = ran.stdout.read().decode().split("\n")
    _, _, used = os.wait4(ran.pid, 0)
    return lines, time.time() - begun, used.ru_maxrss * 1024

program, folder, rule, budget = sys.argv[1:5]
print(f"{'problem':32} {'verdict':24} {'solve s':>8} {'check s':>8} {'text MB':>8} {'check MB':>9}")
with tempfile.TemporaryDirectory() as scratch:
    tree = f"{scratch}/tree.txt"
    for name in sorted(glob.glob(f"{folder}/*.json")):
        with open(name) as file:
            if "trains" not in json.load(file):
                continue
        if os.path.exists(tree):
            os.remove(tree)
        words = [program, "solve", name, "--rule", rule, "--budget", budget, "--tree", tree]
        _, solved, _ = run(words)
        if not os.path.exists(tree):
            print(f"{os.path.basename(name):32} {'unfinished':24} {solved:8.2f}")
            continue
        lines, checked, peak = run([program, "check", name, tree])
        size = os.path.getsize(tree) / 1e6
        print(f"{os.path.basename(name):32} {lines[0]:24} {solved:8.2f} {checked:8.2f} {size:8.2f} {peak / 1e6:9.1f}")
PYTHON

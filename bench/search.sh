#!/usr/bin/env bash
# Solves each problem of a folder (examples/ where none is given) with the built program, a budget of branchings (10000 where
# none is given) and each of the rules that are named behind it (both where none is), and prints for each the line of the
# verdict, seconds, and the most memory that was held; where the budget was spent, also microseconds and bytes for each branching.
# Build first: (cd crates/dispatch && rt run -- solve ../../examples/delay.json)
set -eu
cd "$(dirname "$0")/.."
program=$PWD/crates/dispatch/out/dispatch
[ -x "$program" ] || { echo "no $program: build it first"; exit 1; }
python3 - "$program" "${1:-examples}" "${2:-10000}" "${@:3}" <<'PYTHON'
import glob, json, os, resource, subprocess, sys, time

program, folder, budget = sys.argv[1:4]
rules = sys.argv[4:] or ["fixed", "free"]
print(f"{'problem':32} {'rule':5} {'verdict':48} {'s':>8} {'MB':>8} {'us each':>9} {'bytes each':>11}")


def solve(name, rule):
    begun = time.time()
    words = [program, "solve", name, "--rule", rule, "--budget", budget]
    ran = subprocess.Popen(words, stdout=subprocess.PIPE)
    lines = ran.stdout.read().decode().split("\n")
    _, _, used = os.wait4(ran.pid, 0)
    seconds, peak = time.time() - begun, used.ru_maxrss * 1024
    verdict = lines[1] if len(lines) > 1 and lines[1] else lines[0]
    spent = int(verdict.split()[-1]) if verdict.startswith("unfinished") else 0
    each = f"{1e6 * seconds / spent:9.1f} {peak / spent:11.0f}" if spent else ""
    shown = os.path.basename(name)
    print(f"{shown:32} {rule:5} {verdict:48} {seconds:8.2f} {peak / 1e6:8.1f} {each}", flush=True)


for name in sorted(glob.glob(f"{folder}/*.json")):
    with open(name) as file:
        if "trains" not in json.load(file):
            continue
    for rule in rules:
        solve(name, rule)
PYTHON

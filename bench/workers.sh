#!/usr/bin/env bash
# Solves each problem of a folder (examples/ where none is given) with the built program by 1, 2 and 4 searchers, or as many as are
# named behind the budget of branchings (10000 where none is given), and prints for each the line of the verdict, seconds, and how
# many times as fast it was as the first of them.
# Build first: (cd crates/dispatch && rt run -- solve ../../examples/delay.json)
set -eu
cd "$(dirname "$0")/.."
program=$PWD/crates/dispatch/out/dispatch
[ -x "$program" ] || { echo "no $program: build it first"; exit 1; }
python3 - "$program" "${1:-examples}" "${2:-10000}" "${@:3}" <<'PYTHON'
import glob, json, os, subprocess, sys, time

program, folder, budget = sys.argv[1:4]
counts = sys.argv[4:] or ["1", "2", "4"]
print(f"{os.cpu_count()} processors")
print(f"{'problem':32} {'searchers':>9} {'verdict':48} {'s':>8} {'times as fast':>13}")

for name in sorted(glob.glob(f"{folder}/*.json")):
    with open(name) as file:
        if "trains" not in json.load(file):
            continue
    first = None
    for count in counts:
        begun = time.time()
        words = [program, "solve", name, "--budget", budget, "--workers", count]
        lines = subprocess.run(words, stdout=subprocess.PIPE, text=True).stdout.split("\n")
        seconds = time.time() - begun
        first = first or seconds
        verdict = lines[1] if len(lines) > 1 and lines[1] else lines[0]
        print(f"{os.path.basename(name):32} {count:>9} {verdict:48} {seconds:8.2f} {first / seconds:13.2f}", flush=True)
PYTHON

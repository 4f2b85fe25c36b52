#!/usr/bin/env bash
# Solves problems of 1, 10 and 100 MB with the built program, and reads the same files by Python's
# `json.load`, in one run: plain ones, ones with resources and latest starts, ones with choices, and
# ones whose first fault stands at the end (a number that is not whole, a loop in a short train or in one
# long train, an unknown type).
# Prints seconds, peak memory, and the ratios of the two.
# Build first: (cd crates/dispatch && rt run -- solve data/problem.json)
set -eu
cd "$(dirname "$0")/.."
program=crates/dispatch/out/dispatch
[ -x "$program" ] || { echo "no $program: build it first"; exit 1; }
folder=$(mktemp -d)
trap 'rm -rf "$folder"' EXIT
python3 - "$program" "$folder" "$@" <<'PYTHON'
import os, resource, subprocess, sys, time

program, folder = sys.argv[1:3]
sizes = [int(word) for word in sys.argv[3:]] or [1, 10, 100]


def next_of(kind, k, back):
    """Where operation k of a train goes on: a fork at each tenth where there are choices, and back where there is a loop."""
    if k == back:
        return "%d,%d" % (k + 1, k - 1)
    if kind == "choices" and k % 10 == 0:
        return "%d,%d" % (k + 1, k + 2)
    return "%d" % (k + 1)


def operation(kind, t, k, back):
    if kind in ("plain", "late loop"):
        listed, latest = "", "null"
    else:
        shared = "block%d" % (k % 50) if kind == "choices" else "block%d of %d" % (k % 50, t)
        listed, latest = '{"resource":"%s","release_time":%d}' % (shared, k % 7), "2000000000"
    return '{"start_lb":%d,"start_ub":%s,"min_duration":%d,"resources":[%s],"successors":[%s]}' % (
        1000000000 + k * 3, latest, 1000 + k % 60, listed, next_of(kind, k, back))


def write_problem(path, kind, size):
    """Trains of 1000 operations, or one train, with components, up to about so many bytes. What is wrong stands last."""
    length = size // 100 if kind == "late loop" else 1000
    with open(path, "w") as file:
        file.write('{"trains":[')
        trains, components, written = 0, [], 0
        while written < size * 0.9:
            last = written + 100 * length >= size * 0.9
            back = length - 2 if "loop" in kind and last else None
            operations = ",".join(operation(kind, trains, k, back) for k in range(length - 1))
            text = ("," if trains else "") + "[" + operations + ',{"start_lb":7}]'
            file.write(text)
            written += len(text)
            trains += 1
        file.write('],"objective":[')
        while written < size:
            t = len(components) % trains
            text = '{"type":"op_delay","train":%d,"operation":%d,"threshold":%d,"coeff":1}' % (t, len(components) % 1000, 500)
            components.append(text)
            written += len(text) + 1
        if kind == "number":
            components.append('{"type":"op_delay","train":0,"operation":0,"threshold":-1}')
        if kind == "type":
            components.append('{"type":"delay","train":0,"operation":0}')
        file.write(",".join(components))
        file.write("]}")


# The kinds of problems, and the status with which the program ends.
KINDS = {"plain": 0, "resources": 0, "choices": 2, "number": 2, "loop": 2, "late loop": 2, "type": 2}


def measure(words):
    start = time.monotonic()
    process = subprocess.Popen(words, stdout=subprocess.DEVNULL)
    _, status, usage = os.wait4(process.pid, 0)
    return time.monotonic() - start, usage.ru_maxrss * 1024, os.waitstatus_to_exitcode(status)


load = "import json, sys; json.load(open(sys.argv[1]))"
print("     kind  megabytes  program s  json.load s  ratio  program MB  json.load MB  ratio  MB a file MB  ns a byte")
for kind, megabytes in [(kind, size) for kind in KINDS for size in (sizes if kind == "plain" else sizes[1:])]:
    path = os.path.join(folder, "problem.json")
    write_problem(path, kind, megabytes * 1000000)
    size = os.path.getsize(path)
    ours = [measure([program, "solve", path]) for _ in range(3)]
    theirs = [measure([sys.executable, "-c", load, path]) for _ in range(3)]
    assert all(run[2] == KINDS[kind] for run in ours), "the program ended with status %d" % ours[0][2]
    a, b = min(run[0] for run in ours), min(run[0] for run in theirs)
    m, n = max(run[1] for run in ours), max(run[1] for run in theirs)
    print("%9s  %9.1f  %9.3f  %11.3f  %5.2f  %10.1f  %12.1f  %5.2f  %12.1f  %9.1f"
          % (kind, size / 1e6, a, b, a / b, m / 1e6, n / 1e6, m / n, m / size, a / size * 1e9))
PYTHON

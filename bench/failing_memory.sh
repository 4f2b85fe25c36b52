#!/usr/bin/env bash
# Runs the built program, by each of its commands, with its first allocation failing, with its second, and so on up
# to its last: first that one alone, then that one and all behind it. Prints of each run of commands how many runs
# gave the whole answer and how many ended with status 5 and a front of the answer, then of `memory`. A run of `roll`
# has no one answer, since threads take turns: it gives the whole answer where each feed's lines are answered and the
# last verdict is right, and a front of one where each line is whole and the answers of each feed are a front of its
# own. Every other end is printed, and then the status is 1. It also looks at the files that are put: each holds what
# it held, or a whole text.
# Build first: (cd crates/dispatch && rt run -- solve ../../examples/delay.json)
# Words behind it run only the commands that begin with one of them, as: failing_memory.sh "roll p" make
# A search makes some ten thousand allocations: with FAILURES=300 in the environment at most so many of a run fail in turn, evenly
# spaced from the first to the last.
set -eu
cd "$(dirname "$0")/.."
program=${PROGRAM:-$PWD/crates/dispatch/out/dispatch}
[ -x "$program" ] || { echo "no $program: build it first"; exit 1; }
folder=$(mktemp -d)
trap 'rm -rf "$folder"' EXIT
cp examples/* "$folder"
cc -O1 -shared -fPIC -x c -o "$folder/failing.so" - <<'SHIM'
// The C library's malloc and realloc, of which the call that FAILING names fails (and all behind it, where ON is set).
#include <stdlib.h>
#include <unistd.h>
void *__libc_malloc(size_t);
void *__libc_realloc(void *, size_t);
static long calls;
static int fails(void) {
    const char *failing = getenv("FAILING");
    long wanted = failing ? atol(failing) : 0;
    long call = __atomic_add_fetch(&calls, 1, __ATOMIC_SEQ_CST);
    if (call == wanted) { if (write(2, "!", 1) < 0) return 1; }
    return call == wanted || (getenv("ON") && call > wanted);
}
void *malloc(size_t size) { return fails() ? 0 : __libc_malloc(size); }
void *realloc(void *old, size_t size) { return fails() ? 0 : __libc_realloc(old, size); }
SHIM
python3 - "$program" "$folder" "$@" <<'PYTHON'
import os, re, subprocess, sys

program, folder, *wanted_rows = sys.argv[1:]
os.chdir(folder)
files = {
    "late.json": '{"trains":[[{"start_lb":5,"start_ub":4}]],"objective":[]}',
    "empty.json": '{"trains":[],"objective":[]}',
    "loop.json": '{"trains":[[{"successors":[1]},{"successors":[2,3]},{"successors":[1]},{}]],"objective":[]}',
    "large.json": '{"trains":[[{"start_lb":2147483648}]],"objective":[]}',
    "cut.json": '{"trains":[[{"min_d',
    "cheap.json": open("one_block_solution.json").read().replace("18", "17"),
    "held.json": '{"events":[{"operation":0,"time":0,"train":0},{"operation":0,"time":4,"train":1}]}',
    "refused.txt": "started 1 0 0\nstarted 1 0 7\n",
    "cut.txt": "displib-tree 1\nverdict optimal 18\norder 0 0 1 0\n",
    "none.txt": "displib-tree 1\nverdict infeasible\nlate 0 0\nend\n",
    "first.txt": "started 0 0 0\nbogus\n",
    "second.txt": "bogus\nbogus\n",
}
for name, text in files.items():
    with open(name, "w") as file:
        file.write(text)
PLAN = b'"objective_value":'
# What a file that is put holds, at its end or within, where it is whole.
whole_texts = {"plan.json": PLAN, "tree.txt": b"end\n", "made.json": b"]}\n"}
put_names = ["plan.json", "tree.txt", "made.json", "t0", "t1"]
rows = [
    ("solve two_trains.json", 0), ("solve delay.json --plan plan.json", 0), ("solve empty.json --budget 0", 0),
    ("solve late.json --plan plan.json", 1), ("solve one_block.json --plan plan.json", 0), ("solve one_block.json --budget 0", 3),
    ("solve one_block.json --plan plan.json --tree tree.txt", 0), ("solve late.json --tree tree.txt", 1),
    ("solve one_block.json --fixings one_block_fixings.txt --plan plan.json --tree tree.txt", 0),
    ("solve one_block.json --fixings refused.txt", 2), ("solve loop.json", 2),
    ("solve large.json", 2), ("solve cut.json", 2), ("solve missing.json", 4), ("solve one_block.json --fixings missing.txt", 4),
    ("verify one_block.json one_block_solution.json", 0), ("verify one_block.json cheap.json", 1),
    ("verify one_block.json held.json", 1), ("verify one_block.json large.json", 2),
    ("verify one_block.json one_block_solution.json --fixings one_block_fixings.txt", 0),
    ("verify one_block.json one_block_solution.json --fixings refused.txt", 2),
    ("verify one_block.json one_block_solution.json --fixings missing.txt", 4),
    ("report one_block.json one_block_solution.json", 0), ("report one_block.json held.json", 1),
    ("report one_block.json one_block_solution.json --fixings one_block_fixings.txt", 0), ("report one_block.json missing.json", 4),
    ("check one_block.json one_block_tree.txt", 0), ("check one_block.json one_block_tree.txt --plan one_block_solution.json", 0),
    ("check one_block.json one_block_tree.txt --plan cheap.json", 1), ("check one_block.json none.txt", 1),
    ("check one_block.json cut.txt", 2), ("check one_block.json missing.txt", 4), ("check late.json none.txt", 0),
    ("make 1 1", 0), ("make 1 2 --out made.json", 0), ("make 0 0", 2),
    ("fly delay.json", 2), ("solve --help", 2),
]
# The words of a run, its status, the answers to each feed, and the last verdict.
FIRST = ["feed 0 line 1 started 0 0 0 accepted 1", "feed 0 line 2 unreadable"]
SECOND = ["feed 1 line 1 unreadable", "feed 1 line 2 unreadable"]
rolls = [
    ("roll one_block.json first.txt", 0, [FIRST], "settled 1 optimal 24"),
    ("roll one_block.json first.txt second.txt --workers 2 --trees t", 0, [FIRST, SECOND], "settled 1 optimal 24"),
    ("roll late.json second.txt --trees t", 1, [[line.replace("feed 1", "feed 0") for line in SECOND]], "settled 0 infeasible"),
]
# Runs of `roll` that do not begin have one answer.
rows += [("roll cut.json first.txt", 2), ("roll missing.json first.txt", 4), ("roll one_block.json first.txt missing.txt", 4)]


def content(name):
    """What a file holds, if there is one."""
    return open(name, "rb").read() if os.path.exists(name) else None


def run(words, failing, on):
    """The status, what was printed, what the names that are put hold, and whether a call failed."""
    for name in put_names:
        with open(name, "w") as file:
            file.write("old")
    outside = dict(os.environ, LD_PRELOAD=os.path.join(folder, "failing.so"), FAILING=str(failing))
    if on:
        outside["ON"] = "1"
    try:
        ended = subprocess.run([program] + words.split(), env=outside, capture_output=True, timeout=60)
    except subprocess.TimeoutExpired:
        return None, b"", {}, True
    if ended.stderr not in (b"", b"!"):
        print("%s, %d: on standard error %r" % (words, failing, ended.stderr))
    return ended.returncode, ended.stdout, {name: content(name) for name in put_names}, ended.stderr != b""


def is_front(printed, answer):
    """A front of the answer, and behind it a front of the line for want of memory."""
    return any(answer.startswith(printed[:k]) and b"memory\n".startswith(printed[k:]) for k in range(len(printed) + 1))


def answered(answer):
    """Judges a run that has one answer: 'whole', 'short', or None."""
    def judge(got):
        if got[:3] == answer[:3]:
            return "whole"
        held = all(got[2].get(name) in (b"old", text) for name, text in answer[2].items())
        return "short" if got[0] == 5 and is_front(got[1], answer[1]) and held else None
    return judge


def rolled(status, feeds, verdict):
    """Judges a run of feeds and searchers."""
    def judge(got):
        text = got[1].decode()
        trees = [got[2].get(name, b"") for name in ("t0", "t1")]
        if not all(tree == b"old" or (tree.startswith(b"displib-tree 2\n") and tree.endswith(b"end\n")) for tree in trees):
            return None
        if got[0] == 5 and text == "memory\n"[:len(text)]:
            return "short"
        lines = text.split("\n")
        if lines.pop() != "":
            return None
        ends = [line for line in lines if line.startswith(("settled ", "stopped "))]
        told = [[line for line in lines if line.startswith("feed %d " % n)] for n in range(len(feeds))]
        if any(one != want[:len(one)] for one, want in zip(told, feeds)):
            return None
        if got[0] == status and told == feeds and ends[-1:] == [verdict]:
            return "whole"
        return "short" if got[0] == 5 else None
    return judge


def is_wanted(words):
    return not wanted_rows or any(words.startswith(front) for front in wanted_rows)


def points(words, on):
    """The calls that fail in turn: each, or as many as are wanted."""
    most = int(os.environ.get("FAILURES", "0"))
    if not most:
        return range(1, sys.maxsize)
    last = 1
    while run(words, 2 * last, on)[3]:
        last *= 2
    step = last // 2
    while step:
        if run(words, last + step, on)[3]:
            last += step
        step //= 2
    return range(1, last + 1, max(1, -(-last // most)))


jobs = [(words, status, None) for words, status in rows if is_wanted(words)]
jobs += [(words, status, rolled(status, feeds, verdict)) for words, status, feeds, verdict in rolls if is_wanted(words)]
wrong, all_whole, all_short = 0, 0, 0
for words, status, judge in jobs:
    answer = run(words, 0, False)
    if answer[0] != status:
        wrong += 1
        print("%s: status %s, and %d was wanted" % (words, answer[0], status))
    for name, text in answer[2].items():
        if text != b"old" and whole_texts.get(name, b"end\n") not in (text or b""):
            wrong += 1
            print("%s: %s is not whole" % (words, name))
    judge = judge or answered(answer)
    if judge(answer) != "whole":
        wrong += 1
        print("%s: %r" % (words, answer[:2]))
    for on in (False, True):
        whole, short = 0, 0
        for failing in points(words, on):
            got = run(words, failing, on)
            if not got[3]:
                break
            said = judge(got) if got[0] is not None else None
            if said == "whole":
                whole += 1
            elif said == "short":
                short += 1
            else:
                wrong += 1
                print("%s, %d%s: %r" % (words, failing, " and on" if on else "", got[:3]))
        print("%s, %s: %d whole, %d want of memory" % (words, "all from one on fail" if on else "one call fails", whole, short), flush=True)
        all_whole, all_short = all_whole + whole, all_short + short
print("in all: %d whole, %d want of memory, %d else" % (all_whole, all_short, wrong))
sys.exit(1 if wrong else 0)
PYTHON

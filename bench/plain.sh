#!/usr/bin/env bash
# Makes plain Rust of the crates of the search (their sources without clauses, ghost items and tactics) in a folder, and compiles it
# there with rustc in some ten seconds, with nothing proved: plain.sh FOLDER. It takes the same branchings as the program.
# plain/run.py FOLDER PROBLEM RULE BUDGET then searches with one searcher, and prints the verdict, the branchings, and the
# processor seconds of the search alone. It has names and frames for perf and callgrind.
set -eu
here=$(cd "$(dirname "$0")" && pwd)
python3 "$here/plain/make_plain.py" "$here/.." "$1"
rustc --edition 2024 -O -C debuginfo=1 -C force-frame-pointers=yes -A warnings --crate-name plain "$1/src/main.rs" -o "$1/plain"

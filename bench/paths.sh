#!/usr/bin/env bash
# Seconds for all adds and for all withdrawals on random acyclic graphs, by the body that computes all
# lengths anew and by the one that pushes them on, in one run:
#     bench/paths.sh [NODES ARCS]..        1000 3000 10000 20000, where they are left out
# The arcs follow an order of the nodes that the bodies are not told. The body that computes anew is that
# of the commit 5a9fe69. Both are proved, and built as the shipped one is, in a scratch folder that goes
# away. The proofs take a few minutes, and less where the crate has been checked.
set -eu
sizes=("$@")
if [ ${#sizes[@]} = 0 ]; then sizes=(1000 3000 10000 20000); fi
top=$(cd "$(dirname "$0")/.." && pwd)
scratch=$(mktemp -d)
trap 'rm -rf "$scratch"' EXIT
cd "$scratch"
printf 'plain_values:\nincremental_paths: plain_values\nplain_paths:\npaths_bench: incremental_paths plain_paths\n' > crates.txt
mkdir -p crates/{plain_values,incremental_paths} crates/paths_bench/src
for crate in plain_values incremental_paths; do
    cp -r "$top"/crates/$crate/{src,specs,proofs} crates/$crate/
done
git -C "$top" archive 5a9fe69 crates/incremental_paths/{src,specs,proofs} | tar -x --transform 's:incremental_paths:plain_paths:'
grep -rl incremental_paths crates/plain_paths | xargs sed -i 's/incremental_paths/plain_paths/g'
cd crates/paths_bench
cat > src/body.rt <<'PROGRAM'
ghost use Rattle.std.specs.Prelude.{◌≡◌, ◌<◌, ◌≤◌, [], length, All};

use crate::{first_of, last_of, next, node_of};
use incremental_paths::Paths;
use std::io;
use std::rt::Clock;
use std::time::Instant;

// Adds arcs that follow one order of the nodes.
fn add_all(paths: &mut Paths, nodes: u32, arcs: u32)
    requires some { 0 < nodes }
    requires nodes { length paths.old.lowers ≡ nodes }
    requires lowers { All (λ lower. lower ≤ 0) paths.old.lowers }
    requires arcs { paths.old.arcs ≡ [] }
{
    let mut seed = 1;
    for _ in 0..arcs {
        seed = next(seed);
        let one = node_of(seed, nodes);
        seed = next(seed);
        let from = first_of(one, node_of(seed, nodes), nodes);
        let to = last_of(one, node_of(seed, nodes), nodes);
        let _ = paths.add(from, to, seed % 1000);
    }
}

// Withdraws the arcs one by one.
fn withdraw_all(paths: &mut Paths) {
    let kept = paths.arcs().len();
    for _ in 0..kept {
        paths.withdraw(1);
    }
}

pub fn measure(rt: &(impl Clock + Print + AllocGlobal), nodes: u32, arcs: u32) -> io::Result<()>
    requires { 0 < nodes }
{
    let lowers = vec![in rt.alloc(); 0u64; nodes as usize]?;
    let Ok(mut paths) = Paths::new(rt.alloc(), &lowers) else {
        return println!(rt; "no memory is left");
    };
    let start = Instant::now(rt)?;
    add_all(&mut paths, nodes, arcs);
    let added = start.elapsed(rt)?.as_secs_f64();
    let kept = paths.arcs().len();
    let start = Instant::now(rt)?;
    withdraw_all(&mut paths);
    let withdrawn = start.elapsed(rt)?.as_secs_f64();
    println!(rt; "{nodes} nodes, BODY: {arcs} adds in {added:.5} s, {kept} withdrawals in {withdrawn:.5} s")
}
PROGRAM
sed 's/BODY/pushed on/' src/body.rt > src/pushed.rt
sed 's/BODY/computed anew/; s/incremental_paths/plain_paths/' src/body.rt > src/anew.rt
rm src/body.rt
{
    cat <<'PROGRAM'
//! Times adds and withdrawals.
#![tactic(auto)]

ghost use Rattle.std.specs.Prelude.{◌<◌};

mod anew;
mod pushed;

use std::io;

// The pseudo-random number after this one.
fn next(seed: u64) -> u64
    requires { seed < 2147483647 }
    ensures { result < 2147483647 }
{
    (seed * 48271) % 2147483647
}

fn node_of(seed: u64, nodes: u32) -> u32
    requires { 0 < nodes }
    ensures { result < nodes }
{
    (seed % u64::from(nodes)) as u32
}

// The node's place in the order that the arcs follow.
fn rank(node: u32, nodes: u32) -> u64
    requires { 0 < nodes }
{
    u64::from(node) * 7919 % u64::from(nodes)
}

fn first_of(one: u32, other: u32, nodes: u32) -> u32
    requires one { one < nodes }
    requires other { other < nodes }
    ensures { result < nodes }
{
    if rank(one, nodes) < rank(other, nodes) { one } else { other }
}

fn last_of(one: u32, other: u32, nodes: u32) -> u32
    requires one { one < nodes }
    requires other { other < nodes }
    ensures { result < nodes }
{
    if rank(one, nodes) < rank(other, nodes) { other } else { one }
}

fn main(rt: HostRuntime) -> io::Result<()> {
PROGRAM
    for ((i = 0; i < ${#sizes[@]}; i += 2)); do
        echo "    anew::measure(&rt, ${sizes[i]}, ${sizes[i + 1]})?;"
        echo "    pushed::measure(&rt, ${sizes[i]}, ${sizes[i + 1]})?;"
    done
    echo '    Ok(())'
    echo '}'
} > src/main.rt
for body in pushed anew; do
    mkdir -p proofs/$body/{add_all,withdraw_all}
    cat > proofs/$body/add_all/Invariants.antt <<'PROOF'
use Rattle.std.proofs.Common.{◌≡◌, ◌*◌, ◌<◌, ◌≤◌, length, All}
use Rattle.std.specs.Prelude.{sum_by}
use Rattle.paths_bench.proofs.BODY.add_all.Given as goal

abbrev pub invariant-loop : goal.invariant-loop
invariant-loop l = record {
  seed : l.seed < 2147483647;
  nodes : length l.paths.lowers ≡ l.nodes;
  lowers : All (λ lower. lower ≤ 0) l.paths.lowers;
  lengths : sum_by (λ arc. arc.length) l.paths.arcs ≤ 999 * l.counter;
}
PROOF
    cat > proofs/$body/add_all/Answers.antt <<'PROOF'
use Rattle.std.proofs.Common.{◌+◌, ◌<◌, ◌≤◌, ◌^◌, ◌∷◌, ◌++◌, [], ℕ, List, arith}
use Rattle.std.specs.Prelude.{All, sum_by}
use Rattle.std.proofs.lemmas.List.Sums.{sum_by_push}
use Rattle.incremental_paths.specs.declared.arc.Arc.{Arc}
use Rattle.incremental_paths.specs.Walks.{ArcsHaveCycle, WalksAreShort}
use Rattle.incremental_paths.proofs.Bounds.{walks_bounded}
use Rattle.paths_bench.proofs.BODY.add_all.Goals as goal

short_with : (lowers : List ℕ) (arcs : List Arc) (new : Arc) → All (λ lower. lower ≤ 0) lowers → sum_by (λ arc. arc.length) arcs + new.length < 2 ^ 63
    → (ArcsHaveCycle (arcs ++ new ∷ []) → ⊥) → WalksAreShort lowers (arcs ++ new ∷ [])
short_with lowers arcs new low few none v nodes walk =
    omega (arith, few, sum_by_push (λ (arc : Arc). arc.length) arcs new, walks_bounded lowers (arcs ++ new ∷ []) 0 low none v nodes walk)

pub add-requires-clause-short : goal.add-requires-clause-short
add-requires-clause-short c = short_with c.loop.paths.lowers c.loop.paths.arcs _ c.loop.invariant.lowers (omega arith)
PROOF
    cat > proofs/$body/withdraw_all/Invariants.antt <<'PROOF'
use Rattle.std.proofs.Common.{◌≡◌, ◌+◌, length}
use Rattle.paths_bench.proofs.BODY.withdraw_all.Given as goal

abbrev pub invariant-loop : goal.invariant-loop
invariant-loop l = length l.paths.arcs + l.counter ≡ l.kept
PROOF
    sed -i "s/BODY/$body/" proofs/$body/*/*.antt
done
sed -i 's/incremental_paths/plain_paths/' proofs/anew/*/*.antt
rt run 2> log || { cat log; exit 1; }

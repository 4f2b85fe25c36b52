#!/usr/bin/env bash
# Microseconds for an order added and taken back, for a decided successor added and taken back, for a node's cost,
# and for its bound with walks; and how many lengths an order changes, and how many operations the walks name. On
# problems of 10, 40 and 160 trains of 40 operations each over 60 blocks, in one run:
#     bench/graph.sh [TRAINS]..
# First along a dive as a search makes it, from the root until all orders of neighbours on a block are decided; then on a
# graph that no search would make, in which half of all orders of operations that meet are decided. The problems are made
# from a seed. The program is proved, and built as the shipped one is, in a scratch folder that goes away. The proofs
# take a few minutes, and less where the crates have been checked.
set -eu
sizes=("$@")
if [ ${#sizes[@]} = 0 ]; then sizes=(10 40 160); fi
. "$(dirname "$0")/scratch.sh"
crates=(plain_values disp_model disp_laws json_claims fault_counts disp_outside incremental_paths timed_paths
    train_graphs displib_reader problem_facts train_orders route_marks route_sets event_windows event_arcs event_graph cost_bound)
open_scratch graph_bench "$(for crate in "${crates[@]}"; do grep "^$crate[: ]" "$(dirname "$0")/../crates.txt"; done)
graph_bench: disp_model disp_outside displib_reader incremental_paths event_graph cost_bound" "${crates[@]}"
add_libraries "${crates[@]}"
python3 - "${sizes[@]}" <<'PYTHON'
import json, random, sys

OPERATIONS, BLOCKS = 40, 60


def operation(draw, k):
    """On a block of the stretch that trains come to in this order; at each fifth two tracks to choose from."""
    last = OPERATIONS - 1
    goes_on = [] if k == last else [k + 1, k + 2] if k % 5 == 2 and k + 3 <= last else [k + 2] if k % 5 == 3 and k + 2 <= last else [k + 1]
    block = (k * BLOCKS // OPERATIONS + draw.randrange(2)) % BLOCKS
    listed = [] if k == last else [{"resource": "block%d" % block}]
    return {"start_lb": draw.randrange(200) if k == 0 else 0, "min_duration": draw.randrange(1, 10), "resources": listed, "successors": goes_on}


for trains in map(int, sys.argv[1:]):
    draw = random.Random(trains)
    problem = {
        "trains": [[operation(draw, k) for k in range(OPERATIONS)] for _ in range(trains)],
        "objective": [{"type": "op_delay", "train": t, "operation": OPERATIONS - 1, "threshold": 150, "coeff": 1} for t in range(trains)],
    }
    json.dump(problem, open("problem%d.json" % trains, "w"))
PYTHON
cat > src/main.rt <<'PROGRAM'
//! Times the changes of a node's graph.
#![tactic(auto)]

ghost use Rattle.std.specs.Prelude.{◌≡◌, IfSome};

use cost_bound::{bound, cost};
use disp_model::{Decision, Op, Operation, Problem};
use disp_outside::{FileShelf, Shelf};
use displib_reader::read_problem;
use event_graph::Graph;
use std::alloc::Global;
use std::io;
use std::rt::Clock;
use std::time::{Duration, Instant};

const ROUNDS: u32 = 1000;
const OPERATIONS: u32 = 40;

fn meet(one: &Operation, other: &Operation) -> bool {
    one.listings
        .as_slice()
        .iter()
        .any(|a| other.listings.as_slice().iter().any(|b| a.resource == b.resource))
}

/// The orders of two operations that meet, by the places in their trains and then by the trains, so
/// that all of them can be decided.
fn orders(alloc: Global, problem: &Problem) -> Result<Vec<Decision>, io::Error> {
    let mut found = Vec::new(alloc);
    for (t, one) in problem.trains.as_slice().iter().enumerate() {
        for (s, other) in problem.trains.as_slice().iter().enumerate() {
            if t < s {
                add_orders(&mut found, t as u32, s as u32, one.as_slice(), other.as_slice())?;
            }
        }
    }
    Ok(found)
}

fn add_orders(found: &mut Vec<Decision>, t: u32, s: u32, one: &[Operation], other: &[Operation]) -> io::Result<()> {
    let mut p = 0u32;
    for a in one {
        add_orders_of(found, Op { train: t, op: p }, s, a, other)?;
        p = p.saturating_add(1);
    }
    Ok(())
}

fn add_orders_of(found: &mut Vec<Decision>, first: Op, s: u32, a: &Operation, other: &[Operation]) -> io::Result<()> {
    let mut q = 0u32;
    for b in other {
        if meet(a, b) {
            let second = Op { train: s, op: q };
            let order = if first.op <= q { Decision::First { a: first, b: second } } else { Decision::First { a: second, b: first } };
            found.push(order)?;
        }
        q = q.saturating_add(1);
    }
    Ok(())
}

/// The operation that came last on a resource.
#[derive(Drop)]
struct Latest {
    resource: u32,
    op: Op,
}

/// The orders of operations that come one after the other on a resource, by the places in their
/// trains and then by the trains.
fn neighbours(alloc: Global, problem: &Problem) -> io::Result<Vec<Decision>> {
    let mut found = Vec::new(alloc);
    let mut latest = Vec::new(alloc);
    for op in 0..OPERATIONS {
        let mut train = 0u32;
        for operations in problem.trains.as_slice() {
            if let Some(operation) = operations.as_slice().get(op as usize) {
                add_neighbours(&mut found, &mut latest, Op { train, op }, operation)?;
            }
            train = train.saturating_add(1);
        }
    }
    Ok(found)
}

fn add_neighbours(found: &mut Vec<Decision>, latest: &mut Vec<Latest>, op: Op, operation: &Operation) -> io::Result<()> {
    for listing in operation.listings.as_slice() {
        match comes_next(latest, listing.resource, op) {
            Some(before) if before.train != op.train => found.push(Decision::First { a: before, b: op })?,
            Some(_) => {}
            None => latest.push(Latest { resource: listing.resource, op })?,
        }
    }
    Ok(())
}

/// The operation that was last on the resource, which this one now is.
fn comes_next(latest: &mut Vec<Latest>, resource: u32, op: Op) -> Option<Op> {
    for last in latest.iter_mut() {
        if last.resource == resource {
            let before = last.op;
            last.op = op;
            return Some(before);
        }
    }
    None
}

/// Each fork with its first successor.
fn forks(alloc: Global, problem: &Problem) -> io::Result<Vec<Decision>> {
    let mut found = Vec::new(alloc);
    for (t, train) in problem.trains.as_slice().iter().enumerate() {
        for (p, operation) in train.as_slice().iter().enumerate() {
            if operation.next.as_slice().len() > 1 {
                if let Some(next) = operation.next.as_slice().first() {
                    found.push(Decision::Go { op: Op { train: t as u32, op: p as u32 }, next: *next })?;
                }
            }
        }
    }
    Ok(found)
}

/// How many of these are added and taken back.
fn try_each(graph: &mut Graph, decisions: &[Decision]) -> u32
    ensures { graph.new.problem ≡ graph.old.problem }
{
    let mut tried = 0u32;
    for decision in decisions {
        if try_one(graph, *decision) {
            tried = tried.saturating_add(1);
        }
    }
    tried
}

fn try_one(graph: &mut Graph, decision: Decision) -> bool
    ensures { graph.new.problem ≡ graph.old.problem }
{
    match graph.extend(decision) {
        Ok(()) => {
            graph.undo();
            true
        }
        Err(_) => false,
    }
}

fn costs(problem: &Problem, graph: &Graph) -> u64
    requires { graph.now.problem ≡ problem.now }
{
    let mut sum = 0u64;
    for _ in 0..ROUNDS {
        sum = sum.saturating_add(cost(problem, graph));
    }
    sum
}

fn bounds(alloc: Global, problem: &Problem, graph: &Graph) -> u64
    requires { graph.now.problem ≡ problem.now }
{
    let mut sum = 0u64;
    for _ in 0..ROUNDS {
        match bound(alloc, problem, graph) {
            Ok(found) => sum = sum.saturating_add(found.cost),
            Err(_) => {}
        }
    }
    sum
}

fn per(time: Duration, count: u32) -> f64 {
    time.as_secs_f64() * 1e6 / f64::from(count)
}

/// Adds those that are not refused.
fn add_each(graph: &mut Graph, decisions: &[Decision]) -> u32
    ensures { graph.new.problem ≡ graph.old.problem }
{
    let mut added = 0u32;
    for decision in decisions {
        if graph.extend(*decision).is_ok() {
            added = added.saturating_add(1);
        }
    }
    added
}

/// In how many places two lists of lengths differ.
fn differing(before: &[u64], after: &[u64]) -> u32 {
    let mut count = 0u32;
    for (place, length) in before.iter().enumerate() {
        if after.get(place) != Some(length) {
            count = count.saturating_add(1);
        }
    }
    count
}

/// How many lengths change where a decision is added; none where it is refused.
fn changed_by(graph: &mut Graph, decision: Decision, before: &mut Vec<u64>) -> io::Result<u32>
    ensures { graph.new.problem ≡ graph.old.problem }
{
    before.clear();
    before.extend_from_slice(graph.paths().lengths())?;
    match graph.extend(decision) {
        Ok(()) => Ok(differing(before.as_slice(), graph.paths().lengths())),
        Err(_) => Ok(0),
    }
}

/// How many lengths change where those that are not refused are added one after the other.
fn changed_by_each(alloc: Global, graph: &mut Graph, decisions: &[Decision]) -> io::Result<u32>
    ensures { graph.new.problem ≡ graph.old.problem }
{
    let mut before = Vec::new(alloc);
    let mut changed = 0u32;
    for decision in decisions {
        changed = changed.saturating_add(changed_by(graph, *decision, &mut before)?);
    }
    Ok(changed)
}

/// How many operations the walks of a node's bound name.
fn named(alloc: Global, problem: &Problem, graph: &Graph) -> u64
    requires { graph.now.problem ≡ problem.now }
{
    let Ok(found) = bound(alloc, problem, graph) else {
        return 0;
    };
    let mut count = 0u64;
    for walk in found.walks.as_slice() {
        count = count.saturating_add(walk.walk.as_slice().len() as u64);
    }
    count
}

/// Adds those that are not refused, each after it was added and taken back.
fn try_and_add_each(graph: &mut Graph, decisions: &[Decision]) -> u32
    ensures { graph.new.problem ≡ graph.old.problem }
{
    let mut added = 0u32;
    for decision in decisions {
        if try_one(graph, *decision) && graph.extend(*decision).is_ok() {
            added = added.saturating_add(1);
        }
    }
    added
}

fn dive_times(
    rt: &(impl Clock + Print + AllocGlobal),
    problem: &Problem,
    graph: &mut Graph,
    twice: &mut Graph,
    counted: &mut Graph,
) -> io::Result<()>
    ensures { graph.new.problem ≡ graph.old.problem }
{
    let orders = neighbours(rt.alloc(), problem)?;
    let start = Instant::now(rt)?;
    let decided = add_each(graph, &orders);
    let once = per(start.elapsed(rt)?, decided);
    let start = Instant::now(rt)?;
    let tried = try_and_add_each(twice, &orders);
    let both = per(start.elapsed(rt)?, tried);
    let changed = f64::from(changed_by_each(rt.alloc(), counted, &orders)?) / f64::from(decided);
    println!(rt; "    {decided} orders of neighbours: added in {once:.2} each, which changes {changed:.1} lengths; added, taken back and added in {both:.2}")
}

fn order_times(rt: &(impl Clock + Print + AllocGlobal), problem: &Problem, graph: &mut Graph) -> io::Result<()>
    ensures { graph.new.problem ≡ graph.old.problem }
{
    let orders = orders(rt.alloc(), problem)?;
    let half = orders.len() / 2;
    let start = Instant::now(rt)?;
    let decided = add_each(graph, &orders[..half]);
    let adding = per(start.elapsed(rt)?, decided);
    let start = Instant::now(rt)?;
    let tried = try_each(graph, &orders[half..]);
    let ordering = per(start.elapsed(rt)?, tried);
    println!(rt; "    {decided} orders added in {adding:.2} each; {tried} added and taken back in {ordering:.2}")
}

fn route_times(rt: &(impl Clock + Print + AllocGlobal), problem: &Problem, graph: &mut Graph) -> io::Result<()>
    ensures { graph.new.problem ≡ graph.old.problem }
{
    let forks = forks(rt.alloc(), problem)?;
    let start = Instant::now(rt)?;
    let gone = try_each(graph, &forks);
    let going = per(start.elapsed(rt)?, gone);
    println!(rt; "    {gone} successors decided and taken back in {going:.2}")
}

fn cost_times(rt: &(impl Clock + Print + AllocGlobal), problem: &Problem, graph: &Graph) -> io::Result<()>
    requires { graph.now.problem ≡ problem.now }
{
    let start = Instant::now(rt)?;
    let first = costs(problem, graph);
    let costing = per(start.elapsed(rt)?, ROUNDS);
    let start = Instant::now(rt)?;
    let second = bounds(rt.alloc(), problem, graph);
    let bounding = per(start.elapsed(rt)?, ROUNDS);
    let named = named(rt.alloc(), problem, graph);
    println!(rt; "    cost in {costing:.2}, bound in {bounding:.2}, with walks that name {named} operations ({first}, {second})")
}

fn root<'p>(alloc: Global, problem: &'p Problem) -> Option<Graph<'p>>
    ensures { IfSome result (λ graph. graph.problem ≡ problem.now) }
{
    match Graph::new(alloc, problem, &[]) {
        Ok(graph) => Some(graph),
        Err(_) => None,
    }
}

fn measure(rt: &(impl Clock + Print + AllocGlobal), trains: u32, bytes: &[u8]) -> io::Result<()> {
    let Ok(problem) = read_problem(rt.alloc(), bytes) else {
        return println!(rt; "no problem");
    };
    println!(rt; "{trains} trains, microseconds")?;
    let Some(mut graph) = root(rt.alloc(), &problem) else {
        return println!(rt; "no graph");
    };
    let Some(mut twice) = root(rt.alloc(), &problem) else {
        return println!(rt; "no graph");
    };
    let Some(mut counted) = root(rt.alloc(), &problem) else {
        return println!(rt; "no graph");
    };
    dive_times(rt, &problem, &mut graph, &mut twice, &mut counted)?;
    route_times(rt, &problem, &mut graph)?;
    cost_times(rt, &problem, &graph)?;
    let Some(mut graph) = root(rt.alloc(), &problem) else {
        return println!(rt; "no graph");
    };
    order_times(rt, &problem, &mut graph)?;
    route_times(rt, &problem, &mut graph)?;
    cost_times(rt, &problem, &graph)
}

fn run(rt: HostRuntime, trains: u32, name: &str) -> io::Result<()> {
    let mut shelf = FileShelf::new(rt.alloc(), rt);
    let Ok(bytes) = shelf.fetch(rt.alloc(), name, 100000000) else {
        return println!(&rt; "no file");
    };
    measure(&rt, trains, &bytes)
}

fn main(rt: HostRuntime) -> io::Result<()> {
PROGRAM
for trains in "${sizes[@]}"; do
    echo "    run(rt, $trains, \"$PWD/problem$trains.json\")?;" >> src/main.rt
done
printf '    Ok(())\n}\n' >> src/main.rt
mkdir -p proofs/{try_each,add_each,try_and_add_each,changed_by_each,root}
for call in try_each add_each try_and_add_each changed_by_each; do
    cat > proofs/$call/Invariants.antt <<PROOF
use Rattle.std.proofs.Common.{◌≡◌}
use Rattle.graph_bench.proofs.$call.Given as goal

abbrev pub invariant-loop-decision : goal.invariant-loop-decision
invariant-loop-decision l = l.graph.problem ≡ l.initial.graph.problem
PROOF
done
cat > proofs/root/Answers.antt <<'PROOF'
use Rattle.event_graph.proofs.Rooting.{of_no_changes}
use Rattle.graph_bench.proofs.root.Goals as goal

pub new-requires : goal.new-requires
new-requires c = record { edition = of_no_changes c.args.problem.now }
PROOF
${BENCH_RUN:-run_scratch}

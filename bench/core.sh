#!/usr/bin/env bash
# Events of the core alone, one after the other: lines that ask nothing, looks, leaves taken and given back.
#     bench/core.sh [EVENTS]        100 000, where it is left out
# Prints how long the first thousand and the last thousand took, and their ratio: an event costs what it needs, and not
# what came before it. The program is proved, and built as the shipped one is, in a scratch folder that goes away. The
# libraries below are taken from out/ where a check left them: then the proof takes a minute, and more than an hour where
# nothing has been checked.
set -eu
events=${1:-100000}
. "$(dirname "$0")/scratch.sh"
below='plain_values disp_model disp_laws train_orders route_marks route_sets problem_facts packed_nodes least_bounds open_nodes tree_growth tree_replay decision_paths node_facts
tree_checker fixing_editions history_laws solution_verifier dispatch_core worked_problems'
open_scratch core_bench "$(lines_of $below)
core_bench: serde_json thiserror $(echo $below)" $below
add_libraries $below
echo 'Handles allowed: none.' > ../../HANDLES
cat > src/main.rt <<PROGRAM
//! Times the first and the last events of a core.
#![tactic(auto)]

use disp_model::{Rule, Settings, Unasked};
use dispatch_core::{Core, CoreEvent, CoreReply};
use std::alloc::Global;
use std::io;
use std::rt::Clock;
use std::time::Instant;
use worked_problems::two_trains;

// How many rounds of five events there are.
const ROUNDS: u64 = $events / 5;

// How many of them are a thousand events.
const THOUSAND: u64 = 200;

// One round: a line that asks nothing, a look, what is next, and a leaf that is taken and comes back.
fn round(alloc: Global, core: &mut Core, line: u64) {
    let feed = 0;
    let why = Unasked::Unreadable;
    let _unread = core.step(alloc, CoreEvent::Unread { feed, line, why });
    let _shown = core.step(alloc, CoreEvent::Show { feed, line });
    let _next = core.step(alloc, CoreEvent::Next);
    let take = CoreEvent::Take {
        searcher: 0,
        edition: 0,
        want: 1,
    };
    if let Ok(CoreReply::Taken(work)) = core.step(alloc, take) {
        let examined = false;
        let _noted = core.step(alloc, CoreEvent::GiveBack { work, examined });
    }
}

// So many rounds, from a line on. Gives how many seconds they took.
fn timed(rt: &impl Clock, alloc: Global, core: &mut Core, from: u64, count: u64) -> io::Result<f64> {
    let start = Instant::now(rt)?;
    for turn in 0..count {
        round(alloc, core, from.saturating_add(turn));
    }
    Ok(start.elapsed(rt)?.as_secs_f64())
}

fn main(rt: HostRuntime) -> io::Result<()> {
    let alloc = rt.alloc();
    let settings = Settings {
        budget: 1,
        rule: Rule::Free,
    };
    let Ok(problem) = two_trains(alloc) else {
        return println!(rt; "no memory is left");
    };
    let Ok(mut core) = Core::new(alloc, &problem, settings, 1, 1) else {
        return println!(rt; "no memory is left");
    };
    let first = timed(&rt, alloc, &mut core, 1, THOUSAND)?;
    timed(&rt, alloc, &mut core, 201, ROUNDS.saturating_sub(400))?;
    let last = timed(&rt, alloc, &mut core, ROUNDS, THOUSAND)?;
    let entries = core.history().len();
    println!(rt; "{entries} entries: the first thousand events {first:.6} s, the last thousand {last:.6} s, ratio {:.2}", last / first)
}
PROGRAM
run_scratch

#!/usr/bin/env bash
# Turns of the lock in a second, and calls of the board that add no entry, with 1, 2 and 4 threads that each take so many:
#     bench/turns.sh [TURNS]        1 000 000, where it is left out
# A section of the lock adds one to a number; a call of the board asks what is next. The program is proved, and built as
# the shipped one is, in a scratch folder that goes away. The libraries below are taken from out/ where a check left them:
# then the proofs take some two minutes, and more than an hour where nothing has been checked.
set -eu
turns=${1:-1000000}
. "$(dirname "$0")/scratch.sh"
below='plain_values disp_model disp_laws turn_lock train_orders route_marks route_sets problem_facts packed_nodes least_bounds open_nodes tree_growth tree_replay decision_paths node_facts
tree_checker fixing_editions history_laws solution_verifier dispatch_core shared_board worked_problems'
open_scratch turns_bench "$(lines_of $below)
turns_bench: atomic_table serde_json thiserror $(echo $below)" $below
add_libraries $below
echo 'Handles allowed: Threads, Wait.' > ../../HANDLES
cat > src/main.rt <<'PROGRAM'
//! Times the turns of a lock, and the calls of a board.
#![tactic(auto)]

mod asks;
mod turns;

use std::alloc::Global;
use std::io;
use std::rt::Clock;
use std::thread::Threads;
use std::time::Instant;

// Tells how many a second there were.
fn told(rt: &(impl Clock + Print), what: &str, threads: u32, start: Instant) -> io::Result<()> {
    let seconds = start.elapsed(rt)?.as_secs_f64();
    let millions = f64::from(threads) * f64::from(turns::COUNT) / 1e6 / seconds;
    println!(rt; "{what}, {threads} threads: {millions:.2} million a second")
}

fn main(rt: HostRuntime) -> io::Result<()> {
    turns::measure(&rt, rt.alloc())?;
    asks::measure(&rt, rt.alloc())
}
PROGRAM
cat > src/turns.rt <<PROGRAM
ghost use Rattle.std.specs.Prelude.{◌≡◌, None, []};
ghost use Rattle.std.specs.Thread.{IsSync};
ghost use Rattle.turn_lock.specs.Turn.{lock_of, own_lock};

use crate::told;
use std::alloc::Global;
use std::io;
use std::rt::Clock;
use std::sync::Wait;
use std::thread::{Threads, join};
use std::time::Instant;
use turn_lock::{History, Pass, Turn};

// How many turns each thread takes.
pub const COUNT: u32 = $turns;

// A number without entries.
#[derive(Drop)]
pub struct Tally {
    turns: u64,
}

impl History for Tally {
    type Entry = u32;

    type Terms = u32;

    ghost entries = { λ tally. [] };

    ghost named = { λ entry. None };

    ghost terms = { λ tally. 0 };

    ghost kept = { λ tally. Unit {0} };

    fn count(&self) -> u64 {
        0
    }
}

impl Tally {
    fn step(&mut self) {
        self.turns = self.turns.wrapping_add(1);
    }
}

// Takes the turns of a thread.
fn take<R: Wait>(rt: &R, lock: &Turn<Tally>, mut pass: Pass<Tally>) -> Pass<Tally>
    requires { own_lock pass ≡ lock_of lock.now }
    ensures { own_lock result ≡ lock_of lock.now }
{
    for _ in 0..COUNT {
        lock.with(rt, &mut pass, |tally| tally.step());
    }
    pass
}

// The same in two threads.
fn by_two<R: Threads + Wait + Sync>(
    rt: &R,
    lock: &Turn<Tally>,
    one: Pass<Tally>,
    two: Pass<Tally>,
) -> (Pass<Tally>, Pass<Tally>)
    requires { (own_lock one ≡ lock_of lock.now) × (own_lock two ≡ lock_of lock.now) }
    ensures { (own_lock result.0 ≡ lock_of lock.now) × (own_lock result.1 ≡ lock_of lock.now) }
{
    join(rt, || take(rt, lock, one), || take(rt, lock, two))
}

// The same in four.
fn by_four<R: Threads + Wait + Sync>(
    rt: &R,
    lock: &Turn<Tally>,
    one: Pass<Tally>,
    two: Pass<Tally>,
    three: Pass<Tally>,
    four: Pass<Tally>,
)
    requires front { (own_lock one ≡ lock_of lock.now) × (own_lock two ≡ lock_of lock.now) }
    requires behind { (own_lock three ≡ lock_of lock.now) × (own_lock four ≡ lock_of lock.now) }
{
    join(
        rt,
        || -> (Pass<Tally>, Pass<Tally>)
            requires { IsSync R.row × (own_lock one ≡ lock_of lock.now)
                × (own_lock two ≡ lock_of lock.now) }
        { by_two(rt, lock, one, two) },
        || -> (Pass<Tally>, Pass<Tally>)
            requires { IsSync R.row × (own_lock three ≡ lock_of lock.now)
                × (own_lock four ≡ lock_of lock.now) }
        { by_two(rt, lock, three, four) },
    );
}

pub fn measure<R: Threads + Wait + Sync + Clock + Print>(rt: &R, alloc: Global) -> io::Result<()> {
    let Ok((lock, mut first)) = Turn::new(alloc, Tally { turns: 0 }, 0) else {
        return println!(rt; "no memory is left");
    };
    let one = lock.split(&mut first, 1);
    let two = lock.split(&mut first, 2);
    let three = lock.split(&mut first, 3);
    let four = lock.split(&mut first, 4);
    let start = Instant::now(rt)?;
    let one = take(rt, &lock, one);
    told(rt, "turns", 1, start)?;
    let start = Instant::now(rt)?;
    let (one, two) = by_two(rt, &lock, one, two);
    told(rt, "turns", 2, start)?;
    let start = Instant::now(rt)?;
    by_four(rt, &lock, one, two, three, four);
    told(rt, "turns", 4, start)
}
PROGRAM
cat > src/asks.rt <<'PROGRAM'
ghost use Rattle.std.specs.Prelude.{◌≡◌, IfOk};
ghost use Rattle.std.specs.Thread.{IsSync};
ghost use Rattle.shared_board.specs.Board.{board_of, own_board, known};
ghost use Rattle.turns_bench.specs.Callers.{IsNew};

use crate::told;
use crate::turns::COUNT;
use disp_model::{Memory, Rule, Settings};
use shared_board::{Board, Pass};
use std::alloc::Global;
use std::io;
use std::rt::Clock;
use std::sync::Wait;
use std::thread::{Threads, join};
use std::time::Instant;
use worked_problems::two_trains;

// A board for four feeds, and its first pass.
fn board(alloc: Global) -> Result<(Board, Pass), Memory>
    ensures board { IfOk result (λ made. own_board made.1 ≡ board_of made.0) }
    ensures new { IfOk result (λ made. IsNew (known made.1)) }
{
    let problem = two_trains(alloc)?;
    let settings = Settings {
        budget: 0,
        rule: Rule::Fixed,
    };
    Ok(Board::new(alloc, &problem, settings, 4, 0)?)
}

// A pass for each feed of a new board.
fn feeds(board: &Board, first: &mut Pass) -> (Pass, Pass, Pass, Pass)
    requires board { own_board first.old ≡ board_of board.now }
    requires new { IsNew (known first.old) }
    ensures front { (own_board result.0 ≡ board_of board.now)
        × (own_board result.1 ≡ board_of board.now) }
    ensures behind { (own_board result.2 ≡ board_of board.now)
        × (own_board result.3 ≡ board_of board.now) }
{
    let one = board.split(first, 0);
    let two = board.split(first, 1);
    let three = board.split(first, 2);
    let four = board.split(first, 3);
    (one, two, three, four)
}

// Makes the calls of a thread.
fn ask<R: Wait>(rt: &R, alloc: Global, board: &Board, mut pass: Pass) -> Pass
    requires { own_board pass ≡ board_of board.now }
    ensures { own_board result ≡ board_of board.now }
{
    for _ in 0..COUNT {
        board.next(rt, alloc, &mut pass);
    }
    pass
}

// The same in two threads.
fn by_two<R: Threads + Wait + Sync>(
    rt: &R,
    alloc: Global,
    board: &Board,
    one: Pass,
    two: Pass,
) -> (Pass, Pass)
    requires { (own_board one ≡ board_of board.now) × (own_board two ≡ board_of board.now) }
    ensures { (own_board result.0 ≡ board_of board.now)
        × (own_board result.1 ≡ board_of board.now) }
{
    join(
        rt,
        || ask(rt, alloc, board, one),
        || ask(rt, alloc, board, two),
    )
}

// The same in four.
fn by_four<R: Threads + Wait + Sync>(
    rt: &R,
    alloc: Global,
    board: &Board,
    one: Pass,
    two: Pass,
    three: Pass,
    four: Pass,
)
    requires front { (own_board one ≡ board_of board.now) × (own_board two ≡ board_of board.now) }
    requires behind { (own_board three ≡ board_of board.now)
        × (own_board four ≡ board_of board.now) }
{
    join(
        rt,
        || -> (Pass, Pass)
            requires { IsSync R.row × (own_board one ≡ board_of board.now)
                × (own_board two ≡ board_of board.now) }
        { by_two(rt, alloc, board, one, two) },
        || -> (Pass, Pass)
            requires { IsSync R.row × (own_board three ≡ board_of board.now)
                × (own_board four ≡ board_of board.now) }
        { by_two(rt, alloc, board, three, four) },
    );
}

pub fn measure<R: Threads + Wait + Sync + Clock + Print>(rt: &R, alloc: Global) -> io::Result<()> {
    let Ok((board, mut first)) = board(alloc) else {
        return println!(rt; "no memory is left");
    };
    let (one, two, three, four) = feeds(&board, &mut first);
    let start = Instant::now(rt)?;
    let one = ask(rt, alloc, &board, one);
    told(rt, "calls", 1, start)?;
    let start = Instant::now(rt)?;
    let (one, two) = by_two(rt, alloc, &board, one, two);
    told(rt, "calls", 2, start)?;
    let start = Instant::now(rt)?;
    by_four(rt, alloc, &board, one, two, three, four);
    told(rt, "calls", 4, start)
}
PROGRAM
mkdir -p proofs/turns/take proofs/asks/{ask,board,feeds}
cat > specs/Lib.antt <<'PROOF'
pub mod Callers
PROOF
cat > specs/Callers.antt <<'PROOF'
-- What is known of the board's first pass.
use Rattle.std.specs.Prelude.{◌≡◌, true, [], Some}
use Rattle.disp_model.specs.declared.entry.Entry.{Entry}
use Rattle.turn_lock.specs.Known.{Known}
use Rattle.shared_board.specs.declared.terms.Terms.{Terms}

-- the first pass of a board for four feeds, which gave no other
pub record IsNew (v : Known Entry Terms) : Type 0 where
  pub terms : Terms
  pub terms_are : v.terms ≡ Some terms
  pub feeds : terms.feeds ≡ 4
  pub first : v.first ≡ true
  pub caller : v.caller ≡ 4
  pub given : v.given ≡ []
PROOF
cat > proofs/Lib.antt <<'PROOF'
pub mod Callers
PROOF
cat > proofs/Callers.antt <<'PROOF'
-- A board of four feeds has them as callers.
use Rattle.std.proofs.Common.{◌≡◌, ◌∙◌, ℕ, ◌<◌, inl, arith}
use Rattle.disp_model.specs.declared.entry.Entry.{Entry}
use Rattle.turn_lock.specs.Known.{Known}
use Rattle.shared_board.specs.declared.terms.Terms.{Terms}
use Rattle.shared_board.specs.Calls.{HasCaller}
use Rattle.turns_bench.specs.Callers.{IsNew}

pub has_feed : (v w : Known Entry Terms) → IsNew v → w.terms ≡ v.terms → (feed : ℕ) → feed < 4 → HasCaller w feed
has_feed v w new same feed within = let four = new.feeds in record { terms = new.terms; terms_are = same ∙ new.terms_are; there = inl (omega (arith, within)) }
PROOF
cat > proofs/turns/take/Invariants.antt <<'PROOF'
use Rattle.std.proofs.Common.{◌≡◌}
use Rattle.turn_lock.specs.Turn.{lock_of, own_lock}
use Rattle.turns_bench.proofs.turns.take.Given as goal

abbrev pub invariant-loop : goal.invariant-loop
invariant-loop g l = own_lock l.pass ≡ lock_of l.lock
PROOF
cat > proofs/asks/ask/Invariants.antt <<'PROOF'
use Rattle.std.proofs.Common.{◌≡◌}
use Rattle.shared_board.specs.Board.{board_of, own_board}
use Rattle.turns_bench.proofs.asks.ask.Given as goal

abbrev pub invariant-loop : goal.invariant-loop
invariant-loop g l = own_board l.pass ≡ board_of l.board
PROOF
cat > proofs/asks/board/Answers.antt <<'PROOF'
use Rattle.std.proofs.Common.{refl, ap}
use Rattle.turns_bench.proofs.asks.board.Goals as goal

pub returns-clause-new : goal.returns-clause-new
returns-clause-new c = let is = c.in_ok-new.ensures.pass.1 in record {
  terms = _;
  terms_are = ap (λ z. z.terms) is;
  feeds = refl;
  first = ap (λ z. z.first) is;
  caller = ap (λ z. z.caller) is;
  given = ap (λ z. z.given) is;
}
PROOF
cat > proofs/asks/feeds/Answers.antt <<'PROOF'
use Rattle.std.proofs.Common.{◌∙◌, refl, ap, arith}
use Rattle.shared_board.specs.Board.{known}
use Rattle.turns_bench.proofs.Callers.{has_feed}
use Rattle.turns_bench.proofs.asks.feeds.Goals as goal

pub split-one-requires-clause-caller : goal.split-one-requires-clause-caller
split-one-requires-clause-caller c = let v = known c.args.first.now in has_feed v v c.requires.new refl 0 (omega arith)

pub split-two-requires-clause-caller : goal.split-two-requires-clause-caller
split-two-requires-clause-caller c =
    has_feed (known c.args.first.now) (known c.split-one.new.pass) c.requires.new (ap (λ z. z.terms) c.split-one.ensures.pass.0) 1 (omega arith)

pub split-three-requires-clause-caller : goal.split-three-requires-clause-caller
split-three-requires-clause-caller c =
    has_feed (known c.args.first.now) (known c.split-two.new.pass) c.requires.new (ap (λ z. z.terms) c.split-two.ensures.pass.0 ∙ ap (λ z. z.terms) c.split-one.ensures.pass.0) 2 (omega arith)

pub split-four-requires-clause-caller : goal.split-four-requires-clause-caller
split-four-requires-clause-caller c =
    has_feed (known c.args.first.now) (known c.split-three.new.pass) c.requires.new
    (ap (λ z. z.terms) c.split-three.ensures.pass.0 ∙ (ap (λ z. z.terms) c.split-two.ensures.pass.0 ∙ ap (λ z. z.terms) c.split-one.ensures.pass.0)) 3 (omega arith)
PROOF
run_scratch

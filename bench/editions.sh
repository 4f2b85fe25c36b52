#!/usr/bin/env bash
# Seconds in which changes of trains of two operations are accepted, two of each train: that both of its operations
# start; and, in a run of their own, that one starts, and that this is taken back:
#     bench/editions.sh [TRAINS]        32 768, where it is left out
# The program is proved, and built as the shipped one is, in a scratch folder that goes away. The proofs take some
# two minutes, and less where crates/fixing_editions has been checked.
set -eu
trains=${1:-32768}
. "$(dirname "$0")/scratch.sh"
below='plain_values disp_model disp_laws train_orders route_marks route_sets fixing_editions'
open_scratch editions_bench "$(lines_of $below)
editions_bench: disp_model fixing_editions" $below
mkdir -p proofs/problem_of
cat > src/main.rt <<PROGRAM
//! Times the asking of changes.
#![tactic(auto)]

ghost use Rattle.std.specs.Prelude.{◌≡◌, ◌<◌, ◌∷◌, [], IfOk, All, None, length};
ghost use Rattle.editions_bench.specs.Pair.{pair};

use disp_model::{
    Change, Copied, Fixing, List, Memory, Operation, Problem, Refusal, Reply, Train,
};
use fixing_editions::Editions;
use std::alloc::Global;
use std::io;
use std::rt::Clock;
use std::time::Instant;

fn operation(alloc: Global, next: &[u32]) -> Result<Operation, Memory>
    ensures { IfOk result (λ o. o ≡ record { lower = 0; upper = None; min = 0; listings = []; next = next.now }) }
{
    Ok(Operation {
        lower: 0,
        upper: None,
        min: 0,
        listings: List::new(alloc),
        next: List::from_vec(Vec::from_slice(alloc, next)?),
    })
}

// A train of two operations.
fn train(alloc: Global) -> Result<Train, Memory>
    ensures { IfOk result (λ t. t ≡ pair) }
{
    let first = operation(alloc, &[1])?;
    let exit = operation(alloc, &[])?;
    Ok(List::from_vec(vec![in alloc; first, exit]?))
}

fn problem_of(alloc: Global, count: u32) -> Result<Problem, Memory>
    requires fits { count < 65536 }
{
    let train = train(alloc)?;
    let trains = copies(alloc, &train, count)?;
    Ok(Problem {
        trains,
        components: List::new(alloc),
        names: List::new(alloc),
    })
}

// How many changes are accepted with the numbers 1, 2, .., and how many are refused as too many.
#[derive(Clone, Copy)]
struct Counts {
    accepted: u32,
    full: u32,
}

// The counts with one more reply.
fn counted(counts: Counts, reply: Reply) -> Counts {
    let next = counts.accepted.saturating_add(1);
    if reply == Reply::Accepted(next) {
        return Counts { accepted: next, full: counts.full };
    }
    if reply == Reply::Refused(Refusal::Full(65535)) {
        return Counts { accepted: counts.accepted, full: counts.full.saturating_add(1) };
    }
    counts
}

// The start of an operation.
fn started(at_train: u64, at_op: u64) -> Change {
    Change::Fix(Fixing::Started {
        at_train,
        at_op,
        time: 0,
    })
}

// Starts both operations of each train.
fn start_all(editions: &mut Editions, count: u32) -> Result<Counts, Memory> {
    let mut counts = Counts { accepted: 0, full: 0 };
    for at_train in 0..u64::from(count) {
        counts = counted(counts, editions.ask(started(at_train, 0))?);
        counts = counted(counts, editions.ask(started(at_train, 1))?);
    }
    Ok(counts)
}

// Starts an operation of each train, and takes it back.
fn take_back_all(editions: &mut Editions, count: u32) -> Result<Counts, Memory> {
    let mut counts = Counts { accepted: 0, full: 0 };
    for at_train in 0..u64::from(count) {
        counts = counted(counts, editions.ask(started(at_train, 0))?);
        let number = u64::from(counts.accepted);
        counts = counted(counts, editions.ask(Change::Withdraw { number })?);
    }
    Ok(counts)
}

fn measure(rt: &(impl Clock + Print + AllocGlobal), count: u32, back: bool) -> io::Result<()>
    requires fits { count < 65536 }
{
    let Ok(problem) = problem_of(rt.alloc(), count) else {
        return println!(rt; "no memory is left");
    };
    let start = Instant::now(rt)?;
    let Ok(mut editions) = Editions::new(rt.alloc(), &problem) else {
        return println!(rt; "no memory is left");
    };
    let answer = if back {
        take_back_all(&mut editions, count)
    } else {
        start_all(&mut editions, count)
    };
    let Ok(counts) = answer else {
        return println!(rt; "no memory is left");
    };
    let stand = editions.fixings().len();
    let seconds = start.elapsed(rt)?.as_secs_f64();
    let Counts { accepted, full } = counts;
    println!(rt; "{count} trains, {accepted} accepted, {full} too many, {stand} stand: {seconds:.3} s")
}

fn main(rt: HostRuntime) -> io::Result<()> {
    measure(&rt, $trains, false)?;
    measure(&rt, $trains, true)
}
PROGRAM
add_copies
cat > specs/Lib.antt <<'PROOF'
pub mod Pair
PROOF
cat > specs/Pair.antt <<'PROOF'
-- A train of two operations.
use Rattle.std.specs.Prelude.{List, [], ◌∷◌, None}
use Rattle.disp_model.specs.declared.train.Operation.{Operation}

abbrev pub pair : List Operation
pair = record { lower = 0; upper = None; min = 0; listings = []; next = 1 ∷ [] } ∷ record { lower = 0; upper = None; min = 0; listings = []; next = [] } ∷ []
PROOF
cat > proofs/Lib.antt <<'PROOF'
pub mod Formed
PROOF
cat > proofs/Formed.antt <<'PROOF'
-- A problem of trains of two operations is well formed.
use Rattle.std.proofs.Common.{◌≡◌, ◌≢◌, ℕ, zero, suc, ◌+◌, ◌*◌, ◌<◌, ◌≤◌, List, [], ◌∷◌, length, Some, None, refl, sym, subst, ap, ◌∙◌, arith, rules}
use Rattle.std.specs.Prelude.{slice_get, Contains, All}
use Rattle.std.proofs.lemmas.List.Elements.{All-from_recursion}
use Rattle.std.proofs.lemmas.List.Sums.{sum_by-cons}
use Rattle.disp_model.specs.declared.train.Operation.{Operation}
use Rattle.disp_model.specs.Train.{IsSuccessor, IsEntry, IsExit}
use Rattle.disp_model.specs.WellFormed.{LeadsTo, IsAcyclic, IsWellFormed, HasFitNumbers, RefersInside, operation_count}
use Rattle.editions_bench.specs.Pair.{pair}

one_in : (a s : ℕ) → Contains (a ∷ []) s → s ≡ a
one_in a s (zero, lt, e) = sym e
one_in a s (suc k, lt, e) = absurd (omega (arith, lt))

none_in : (s : ℕ) → Contains [] s → ⊥
none_in s (k, lt, e) = omega (arith, lt)

up : (o s : ℕ) → IsSuccessor pair o s → o < s
up zero s h = let same : s ≡ 1 = one_in 1 s h in omega (arith, same)
up (suc zero) s h = absurd (none_in s h)
up (suc (suc o)) s h = absurd (none_in s h)

climbs : (n o s : ℕ) → LeadsTo pair n o s → o < s
climbs zero o s h = up o s h
climbs (suc n) o s (p, step, more) = omega (arith, up o p step, climbs n p s more)

enters : (o : ℕ) → IsEntry pair o → o ≡ 0
enters zero h = refl
enters (suc zero) h = absurd (h.first 0 (0, omega arith, refl))
enters (suc (suc o)) h = absurd (let there : suc (suc o) < 2 = h.there in omega (arith, there))

leaves : (o : ℕ) → IsExit pair o → o ≡ 1
leaves zero h = absurd (grind (arith, h.last))
leaves (suc zero) h = refl
leaves (suc (suc o)) h = absurd (let there : suc (suc o) < 2 = h.there in omega (arith, there))

acyclic : IsAcyclic pair
acyclic = record { entered = omega arith; one_entry = λ o p one other. enters o one ∙ sym (enters p other); one_exit = λ o p one other. leaves o one ∙ sym (leaves p other); no_cycle = λ n o back. omega (arith, climbs n o o back) }

all_alike : (P : List Operation → Type 0) (trains : List (List Operation)) → All (λ t. t ≡ pair) trains → P pair → All P trains
all_alike P trains alike here k d lt = subst P (sym (alike k d lt)) here

counted : (trains : List (List Operation)) → All (λ t. t ≡ pair) trains → operation_count trains ≡ length trains * 2
counted [] alike = omega arith
counted (t ∷ trains) alike =
    let here : length t ≡ 2 = ap (λ (l : List Operation). length l) (alike 0 t (omega arith)) in
    let rest : operation_count trains ≡ length trains * 2 = counted trains (λ k d lt. alike (suc k) d (omega (arith, lt))) in
    rw (sum_by-cons (λ x. length x) t trains) (omega (arith, here, rest))

one_once : (a i j s : ℕ) → i < j → slice_get (a ∷ []) i ≡ Some s → slice_get (a ∷ []) j ≢ Some s
one_once a i zero s lt at there = omega (arith, lt)
one_once a i (suc j) s lt at there = absurd cc

no_name : (i j : ℕ) (other : List ℕ) → i < j → slice_get {X = List ℕ} [] i ≡ Some other → slice_get {X = List ℕ} [] j ≢ Some other
no_name i j other lt at there = absurd cc

fit : All HasFitNumbers pair
fit = search rules

refers : All (RefersInside 2 0) pair
refers = search (rules, one_once)

pub formed : (trains : List (List Operation)) → length trains < 65536 → All (λ t. t ≡ pair) trains → IsWellFormed trains [] []
formed trains fits alike = record {
  numbers = all_alike (All HasFitNumbers) trains alike fit;
  references = all_alike (λ t. All (RefersInside (length t) 0) t) trains alike refers;
  acyclic = all_alike IsAcyclic trains alike acyclic;
  named = λ k d lt. absurd (omega (arith, lt));
  distinct = no_name;
  trains_fit = omega (arith, fits);
  operations_fit = rw (counted trains alike) (omega (arith, fits));
  components_fit = omega arith;
  costs_fit = omega arith;
}
PROOF
cat > proofs/problem_of/Answers.antt <<'PROOF'
use Rattle.std.proofs.Common.{◌≡◌, List, subst, sym, ◌∙◌, arith}
use Rattle.std.specs.Prelude.{All}
use Rattle.disp_model.specs.declared.train.Operation.{Operation}
use Rattle.editions_bench.proofs.Formed.{formed}
use Rattle.editions_bench.specs.Pair.{pair}
use Rattle.editions_bench.proofs.problem_of.Goals as goal

pub invariant_of-result : goal.invariant_of-result
invariant_of-result c =
    let trains = c.in_ok-trains.trains in
    let alike : All (λ t. t ≡ pair) trains = λ k d lt. c.in_ok-trains.ensures.1 k d lt ∙ c.in_ok-train.ensures in
    record { well_formed = rw (c.new.ensures, c.new-2.ensures) (formed trains (omega (arith, c.in_ok-trains.ensures.0, c.requires.fits)) alike) }
PROOF
run_scratch

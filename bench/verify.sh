#!/usr/bin/env bash
# Seconds in which valid solutions of 1 000, 10 000 and 50 000 events are judged, in one run:
#     bench/verify.sh
# Trains follow each other through a corridor of 24 blocks, a resource each. The program is proved, and built
# as the shipped one is, in a scratch folder that goes away. The proofs take some two minutes, and less where
# crates/solution_verifier has been checked.
set -eu
. "$(dirname "$0")/scratch.sh"
open_scratch verify_bench 'plain_values:
disp_model: plain_values
disp_laws: disp_model
solution_verifier: plain_values disp_model disp_laws serde_json thiserror
verify_bench: disp_model solution_verifier' plain_values disp_model disp_laws solution_verifier
mkdir -p proofs/{corridor,name_all,problem_of}
cat > src/main.rt <<'PROGRAM'
//! Times the judging of valid solutions.
#![tactic(auto)]

ghost use Rattle.std.specs.Prelude.{◌≡◌, ℕ, ◌+◌, ◌*◌, ◌<◌, ◌≤◌, ◌∷◌, [], IfOk, All, Some, length, slice_get};
ghost use Rattle.disp_model.specs.declared.train.Operation.{Operation};
ghost use Rattle.verify_bench.specs.Corridor.{IsBlock, IsCorridor, HasNames};

use disp_model::{Copied, Event, List, Listing, Memory, Operation, Plan, Problem, Text, Train};
use solution_verifier::verify;
use std::alloc::Global;
use std::io;
use std::rt::Clock;
use std::time::Instant;

// The operation on a block, or behind the last.
fn block(alloc: Global, place: u32, blocks: u32) -> Result<Operation, Memory>
    requires place { place ≤ blocks }
    requires few { blocks < 26 }
    ensures { IfOk result (IsBlock blocks place) }
{
    if place == blocks {
        return Ok(Operation {
            lower: 0,
            upper: None,
            min: 3,
            listings: List::new(alloc),
            next: List::new(alloc),
        });
    }
    let listing = Listing {
        resource: place,
        release: 1,
    };
    Ok(Operation {
        lower: 0,
        upper: None,
        min: 3,
        listings: List::from_vec(vec![in alloc; listing]?),
        next: List::from_vec(vec![in alloc; place + 1]?),
    })
}

// A train through all blocks.
fn corridor(alloc: Global, blocks: u32) -> Result<Train, Memory>
    requires { blocks < 26 }
    ensures { IfOk result (IsCorridor blocks) }
{
    let mut train = List::new(alloc);
    for place in 0..blocks + 1 {
        train.push(block(alloc, place, blocks)?)?;
    }
    Ok(train)
}

// A name for each block.
fn name_all(alloc: Global, blocks: u32) -> Result<List<Text>, Memory>
    requires { blocks < 26 }
    ensures { IfOk result (HasNames blocks) }
{
    let mut names = List::new(alloc);
    for place in 0..blocks {
        let mut name = String::new(alloc);
        name.push(char::from(place as u8 + 97))?;
        names.push(Text::from_string(name))?;
    }
    Ok(names)
}

fn problem_of(alloc: Global, count: u32, blocks: u32) -> Result<Problem, Memory>
    requires few { blocks < 26 }
    requires fits { count < 40000 }
{
    let train = corridor(alloc, blocks)?;
    let trains = copies(alloc, &train, count)?;
    let names = name_all(alloc, blocks)?;
    Ok(Problem {
        trains,
        components: List::new(alloc),
        names,
    })
}

// Each train enters the first block two steps behind the one before it.
fn plan_of(alloc: Global, count: u32, blocks: u32) -> Result<Plan, Memory>
    requires few { blocks < 26 }
    requires fits { count < 40000 }
{
    let mut plan = List::new(alloc);
    for step in 0..2 * count + blocks {
        for back in 0..blocks + 1 {
            let place = blocks - back;
            if place <= step && (step - place) % 2 == 0 && (step - place) / 2 < count {
                plan.push(Event {
                    time: u64::from(step) * 4,
                    train: (step - place) / 2,
                    operation: place,
                })?;
            }
        }
    }
    Ok(plan)
}

fn measure(rt: &(impl Clock + Print + AllocGlobal), count: u32, blocks: u32) -> io::Result<()>
    requires few { blocks < 26 }
    requires fits { count < 40000 }
{
    let Ok(problem) = problem_of(rt.alloc(), count, blocks) else {
        return println!(rt; "no memory is left");
    };
    let Ok(plan) = plan_of(rt.alloc(), count, blocks) else {
        return println!(rt; "no memory is left");
    };
    let start = Instant::now(rt)?;
    let valid = verify(&problem, &[], &plan, Some(0)) == Ok(0);
    let seconds = start.elapsed(rt)?.as_secs_f64();
    println!(rt;
        "{} events of {count} trains over {blocks} blocks, valid {valid}: {seconds:.3} s",
        plan.len()
    )
}

fn main(rt: HostRuntime) -> io::Result<()> {
    measure(&rt, 40, 24)?;
    measure(&rt, 400, 24)?;
    measure(&rt, 2000, 24)
}
PROGRAM
add_copies
cat > specs/Lib.antt <<'PROOF'
pub mod Corridor
PROOF
cat > specs/Corridor.antt <<'PROOF'
-- A corridor of blocks, one resource each.
use Rattle.std.specs.Prelude.{◌≡◌, ℕ, ◌+◌, List, [], ◌∷◌, None, Some, length, slice_get, nat_lt, if◌then◌else◌}
use Rattle.disp_model.specs.declared.train.Operation.{Operation}

pub record IsBlock (blocks k : ℕ) (o : Operation) : Type 0 where
  pub lower : o.lower ≡ 0
  pub upper : o.upper ≡ None
  pub min : o.min ≡ 3
  pub next : o.next ≡ (if nat_lt (k + 1) (blocks + 1) then (k + 1) ∷ [] else [])
  pub listings : o.listings ≡ (if nat_lt k blocks then record { resource = k; release = 1 } ∷ [] else [])

pub record IsCorridor (blocks : ℕ) (train : List Operation) : Type 0 where
  pub long : length train ≡ blocks + 1
  pub each : (k : ℕ) (o : Operation) → slice_get train k ≡ Some o → IsBlock blocks k o

pub record HasNames (blocks : ℕ) (names : List (List ℕ)) : Type 0 where
  pub long : length names ≡ blocks
  pub each : (k : ℕ) (name : List ℕ) → slice_get names k ≡ Some name → name ≡ (97 + k) ∷ []
PROOF
cat > proofs/Lib.antt <<'PROOF'
pub mod Formed
PROOF
cat > proofs/Formed.antt <<'PROOF'
-- A problem of trains through one corridor is well formed.
use Rattle.std.proofs.Common.{◌≡◌, ◌≢◌, ℕ, zero, suc, ◌+◌, ◌*◌, ◌<◌, ◌≤◌, List, [], ◌∷◌, ◌++◌, length, get_or, Some, refl, sym, subst, ap, ◌∙◌, arith, inl, inr}
use Rattle.std.specs.Prelude.{slice_get, All}
use Rattle.std.proofs.lemmas.Option.{slice_get_within, slice_get-get_or, none-some, same_Some}
use Rattle.std.proofs.lemmas.Bool.{cases_lt, le-ltb, lt-ltb}
use Rattle.std.proofs.lemmas.List.Sums.{sum_by-cons}
use Rattle.std.proofs.Math.Nat.{mul-le-mul_left}
use Rattle.disp_model.specs.declared.train.Operation.{Operation}
use Rattle.disp_model.specs.declared.train.Listing.{Listing}
use Rattle.disp_model.specs.WellFormed.{IsAcyclic, IsWellFormed, HasFitNumbers, RefersInside, operation_count}
use Rattle.solution_verifier.proofs.Chained.{Chained, IsChain, chain_is_acyclic, next_place}
use Rattle.verify_bench.specs.Corridor.{IsBlock, IsCorridor, HasNames}

pub push_each : (P : ℕ → Operation → Type 0) (xs : List Operation) (y : Operation) → ((k : ℕ) (o : Operation) → slice_get xs k ≡ Some o → P k o) → P (length xs) y → (k : ℕ) (o : Operation) → slice_get (xs ++ y ∷ []) k ≡ Some o → P k o
push_each P [] y each here zero o at = subst (P 0) (same_Some y o at) here
push_each P [] y each here (suc k) o at = absurd (none-some o at)
push_each P (x ∷ xs) y each here zero o at = each 0 o at
push_each P (x ∷ xs) y each here (suc k) o at = push_each (λ i p. P (suc i) p) xs y (λ i p there. each (suc i) p there) here k o at

chained_from : (n k : ℕ) (train : List Operation) → ((i : ℕ) (o : Operation) → slice_get train i ≡ Some o → o.next ≡ next_place n (k + i)) → Chained n k train
chained_from n k [] each = tt
chained_from n k (o ∷ rest) each =
    let here : k + 0 ≡ k = omega arith in (
      subst (λ (i : ℕ). o.next ≡ next_place n i) here (each 0 o refl),
      chained_from n (k + 1) rest (λ i p at. let there : k + suc i ≡ (k + 1) + i = omega arith in subst (λ (j : ℕ). p.next ≡ next_place n j) there (each (suc i) p at)),
    )

corridor_chain : (blocks : ℕ) (train : List Operation) → IsCorridor blocks train → IsChain train
corridor_chain blocks train c = (
  omega (arith, c.long),
  chained_from (length train) 0 train (λ i o at. let same : 0 + i ≡ i = omega arith in rw (c.long, same) ((c.each i o at).next)),
)

listed : (blocks k : ℕ) (o : Operation) → IsBlock blocks k o → All (λ l. l.release ≤ 2147483647) o.listings × All (λ l. l.resource < blocks) o.listings
listed blocks k o b =
    elim (cases_lt k blocks) [
      | inl lt ↦
          let one : o.listings ≡ record { resource = k; release = 1 } ∷ [] = b.listings ∙ rw (lt-ltb k blocks lt) refl in
          rw one (λ i d within. small i d within, λ i d within. named lt i d within)
      | inr le ↦
          let none : o.listings ≡ [] = b.listings ∙ rw (le-ltb k blocks le) refl in
          rw none (λ i d within. absurd (omega (arith, within)), λ i d within. absurd (omega (arith, within)))
    ]
  where
    small : (i : ℕ) (d : Listing) → i < 1 → (get_or (record { resource = k; release = 1 } ∷ []) i d).release ≤ 2147483647
    small zero d within = omega arith
    small (suc i) d within = absurd (omega (arith, within))

    named : k < blocks → (i : ℕ) (d : Listing) → i < 1 → (get_or (record { resource = k; release = 1 } ∷ []) i d).resource < blocks
    named lt zero d within = lt
    named lt (suc i) d within = absurd (omega (arith, within))

goes : (blocks k : ℕ) (o : Operation) → IsBlock blocks k o → All (λ s. s < blocks + 1) o.next × ((i j : ℕ) (s : ℕ) → i < j → slice_get o.next i ≡ Some s → slice_get o.next j ≢ Some s)
goes blocks k o b =
    elim (cases_lt (k + 1) (blocks + 1)) [
      | inl lt ↦
          let one : o.next ≡ (k + 1) ∷ [] = b.next ∙ rw (lt-ltb (k + 1) (blocks + 1) lt) refl in
          rw one (λ i d within. below lt i d within, λ i j s less at_i at_j. let within = slice_get_within ((k + 1) ∷ []) j s at_j in omega (arith, less, within))
      | inr le ↦
          let none : o.next ≡ [] = b.next ∙ rw (le-ltb (k + 1) (blocks + 1) le) refl in
          rw none (λ i d within. absurd (omega (arith, within)), λ i j s less at_i at_j. none-some s at_j)
    ]
  where
    below : k + 1 < blocks + 1 → (i d : ℕ) → i < 1 → get_or ((k + 1) ∷ []) i d < blocks + 1
    below lt zero d within = lt
    below lt (suc i) d within = absurd (omega (arith, within))

fit : (blocks k : ℕ) (o : Operation) → IsBlock blocks k o → HasFitNumbers o
fit blocks k o b = record {
  lower = rw b.lower (omega arith);
  upper = λ u at. absurd (none-some u (sym b.upper ∙ at));
  min = rw b.min (omega arith);
  releases = (listed blocks k o b).0;
}

refers : (blocks k : ℕ) (o : Operation) → IsBlock blocks k o → RefersInside (blocks + 1) blocks o
refers blocks k o b = record { next = (goes blocks k o b).0; once = (goes blocks k o b).1; listings = (listed blocks k o b).1 }

all_alike : (P : List Operation → Type 0) (train : List Operation) (trains : List (List Operation)) → All (λ t. t ≡ train) trains → P train → All P trains
all_alike P train trains alike here k d lt = subst P (sym (alike k d lt)) here

counted : (train : List Operation) (trains : List (List Operation)) → All (λ t. t ≡ train) trains → operation_count trains ≡ length trains * length train
counted train [] alike = omega arith
counted train (t ∷ trains) alike =
    let here : length t ≡ length train = ap length (alike 0 t (omega arith)) in
    let rest : operation_count trains ≡ length trains * length train = counted train trains (λ k d lt. alike (suc k) d (omega (arith, lt))) in
    rw (sum_by-cons (λ x. length x) t trains) (rw (here, rest) (grind arith))

distinct : (blocks : ℕ) (names : List (List ℕ)) → HasNames blocks names → (i j : ℕ) (name : List ℕ) → i < j → slice_get names i ≡ Some name → slice_get names j ≢ Some name
distinct blocks names h i j name lt at_i at_j =
    let letter : 97 + i ≡ 97 + j = ap (λ (l : List ℕ). get_or l 0 0) (sym (h.each i name at_i) ∙ h.each j name at_j) in
    omega (arith, lt, letter)

pub formed : (blocks count : ℕ) (train : List Operation) (trains : List (List Operation)) (names : List (List ℕ)) → blocks < 26 → count < 40000 → IsCorridor blocks train → length trains ≡ count → All (λ t. t ≡ train) trains → HasNames blocks names
    → IsWellFormed trains [] names
formed blocks count train trains names few fits c long alike named = record {
  numbers = all_alike (All HasFitNumbers) train trains alike (λ k d lt. fit blocks k (get_or train k d) (c.each k (get_or train k d) (slice_get-get_or train k d lt)));
  references = all_alike (λ t. All (RefersInside (length t) (length names)) t) train trains alike (rw (c.long, named.long) (λ k d lt. refers blocks k (get_or train k d) (c.each k (get_or train k d) (slice_get-get_or train k d (omega (arith, lt, c.long))))));
  acyclic = all_alike IsAcyclic train trains alike (chain_is_acyclic train (corridor_chain blocks train c));
  named = λ k d lt. absurd (omega (arith, lt));
  distinct = distinct blocks names named;
  trains_fit = omega (arith, long, fits);
  operations_fit = rw (counted train trains alike, long, c.long) (omega (arith, fits, few, mul-le-mul_left count (bounded few)));
  components_fit = omega arith;
  costs_fit = omega arith;
}
  where
    bounded : blocks < 26 → blocks + 1 ≤ 26
    bounded h = omega (arith, h)
PROOF
cat > proofs/corridor/Invariants.antt <<'PROOF'
use Rattle.std.proofs.Common.{◌≡◌, ℕ, length, Some}
use Rattle.std.specs.Prelude.{slice_get}
use Rattle.disp_model.specs.declared.train.Operation.{Operation}
use Rattle.verify_bench.specs.Corridor.{IsBlock}
use Rattle.verify_bench.proofs.corridor.Given as goal

abbrev pub invariant-loop-place : goal.invariant-loop-place
invariant-loop-place l = record {
  long : length l.train ≡ l.place;
  each : (k : ℕ) (o : Operation) → slice_get l.train k ≡ Some o → IsBlock l.blocks k o;
}
PROOF
cat > proofs/corridor/Answers.antt <<'PROOF'
use Rattle.std.proofs.Common.{◌≡◌, ◌+◌, ◌∙◌, ℕ, List, Some, length, ap, subst, sym}
use Rattle.std.specs.Prelude.{slice_get}
use Rattle.std.proofs.lemmas.List.{length_push}
use Rattle.disp_model.specs.declared.train.Operation.{Operation}
use Rattle.verify_bench.specs.Corridor.{IsBlock}
use Rattle.verify_bench.proofs.Formed.{push_each}
use Rattle.verify_bench.proofs.corridor.Goals as goal

pub loop-place-preserved : goal.loop-place-preserved
loop-place-preserved c =
    let train = c.loop-place.train in
    let blocks = c.args.blocks in
    let more = c.in_ok-push.ensures.ok in
    let inv = c.loop-place.invariant in
    let new = c.in_ok-block.field-0 in
    let here : IsBlock blocks (length train) new = subst (λ (n : ℕ). IsBlock blocks n new) (sym inv.long) c.in_ok-block.ensures in
    record {
      long = ap length more ∙ length_push train new ∙ ap (λ (n : ℕ). n + 1) inv.long;
      each = subst (λ (l : List Operation). (k : ℕ) (o : Operation) → slice_get l k ≡ Some o → IsBlock blocks k o) (sym more) (push_each (IsBlock blocks) train new inv.each here);
    }
PROOF
cat > proofs/name_all/Invariants.antt <<'PROOF'
use Rattle.std.proofs.Common.{◌≡◌, ◌+◌, ◌∷◌, [], ℕ, List, length, Some}
use Rattle.std.specs.Prelude.{slice_get}
use Rattle.verify_bench.proofs.name_all.Given as goal

abbrev pub invariant-loop-place : goal.invariant-loop-place
invariant-loop-place l = record {
  long : length l.names ≡ l.place;
  each : (k : ℕ) (name : List ℕ) → slice_get l.names k ≡ Some name → name ≡ (97 + k) ∷ [];
}
PROOF
cat > proofs/problem_of/Answers.antt <<'PROOF'
use Rattle.std.proofs.Common.{List, subst, sym}
use Rattle.disp_model.specs.declared.train.Component.{Component}
use Rattle.disp_model.specs.WellFormed.{IsWellFormed}
use Rattle.verify_bench.proofs.Formed.{formed}
use Rattle.verify_bench.proofs.problem_of.Goals as goal

pub invariant_of-result : goal.invariant_of-result
invariant_of-result c =
    let trains = c.in_ok-trains.trains in
    let names = c.in_ok-names.names in
    record {
      well_formed = subst (λ (x : List Component). IsWellFormed trains x names) (sym c.new.ensures)
          (formed c.args.blocks c.args.count c.in_ok-train.train trains names c.requires.few c.requires.fits c.in_ok-train.ensures c.in_ok-trains.ensures.0 c.in_ok-trains.ensures.1 c.in_ok-names.ensures);
    }
PROOF
run_scratch

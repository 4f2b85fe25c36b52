# The common part of editions.sh, verify.sh and turns.sh, which source it: a program of their own that is proved and run.

# Makes a scratch folder, which goes away, for the program NAME over copies of crates, by these lines of crates.txt,
# and goes to the program's folder: open_scratch NAME LINES CRATE..
open_scratch() {
  name=$1
  lines=$2
  shift 2
  top=$(cd "$(dirname "$0")/.." && pwd)
  scratch=$(mktemp -d)
  trap 'rm -rf "$scratch"' EXIT
  cd "$scratch"
  printf '%s\n' "$lines" > crates.txt
  for crate in "$@"; do
    mkdir -p "crates/$crate"
    for part in src specs proofs; do
      if [ -d "$top/crates/$crate/$part" ]; then cp -r "$top/crates/$crate/$part" "crates/$crate/"; fi
    done
  done
  mkdir -p "crates/$name"/{src,specs,proofs}
  cd "crates/$name"
}

# Prints the lines of these crates in crates.txt: lines_of CRATE..
lines_of() {
  top=$(cd "$(dirname "$0")/.." && pwd)
  for crate in "$@"; do
    grep -E "^$crate( |:)" "$top/crates.txt"
  done
}

# Copies the libraries of these crates where a check left them: add_libraries CRATE..
add_libraries() {
  for crate in "$@"; do
    if [ -d "$top/crates/$crate/out/rlib" ]; then
      mkdir -p "../$crate/out"
      cp -r "$top/crates/$crate/out/rlib" "../$crate/out/"
    fi
  done
}

# Adds the function `copies` to the program.
add_copies() {
  cat >> src/main.rt <<'PROGRAM'

// So many trains alike.
fn copies(alloc: Global, train: &Train, count: u32) -> Result<List<Train>, Memory>
    ensures { IfOk result (λ ts. (length ts ≡ count) × All (λ t. t ≡ train.now) ts) }
{
    let mut trains = List::new(alloc);
    for _ in 0..count {
        trains.push(train.copy()?)?;
    }
    Ok(trains)
}
PROGRAM
  mkdir -p proofs/copies
  cat > proofs/copies/Invariants.antt <<PROOF
use Rattle.std.proofs.Common.{◌≡◌, length, All}
use Rattle.$name.proofs.copies.Given as goal

abbrev pub invariant-loop : goal.invariant-loop
invariant-loop l = record {
  long : length l.trains ≡ l.counter;
  alike : All (λ t. t ≡ l.train) l.trains;
}
PROOF
}

# Proves, builds and runs the program.
run_scratch() {
  rt run 2> log || { cat log; exit 1; }
}

//! plain RULE BUDGET: searches the problem whose numbers stand in the standard input, as `numbers_of` of run.py writes them.
use crate::disp_model::{Component, Entry, List, Listing, Mark, Operation, Problem, Rule, Settings, Text};
use crate::dispatch_core::Core;
use crate::rstd::alloc::Global;
use crate::search_workers::search_alone;
use std::io::Read;
use std::string::String;
use std::vec::Vec;

/// The numbers that are still to be read.
struct Numbers<'a>(std::str::SplitAsciiWhitespace<'a>);

impl Numbers<'_> {
    fn next(&mut self) -> i64 {
        self.0.next().unwrap().parse().unwrap()
    }

    fn whole(&mut self) -> u32 {
        self.next() as u32
    }

    /// As many items as the next number says.
    fn list<T>(&mut self, item: impl Fn(&mut Self) -> T) -> List<T> {
        let count = self.next();
        let items: Vec<T> = (0..count).map(|_| item(self)).collect();
        List::from_vec(crate::rstd::vec::Vec(items))
    }

    fn listing(&mut self) -> Listing {
        Listing {
            resource: self.whole(),
            release: self.whole(),
        }
    }

    fn operation(&mut self) -> Operation {
        Operation {
            lower: self.whole(),
            upper: u32::try_from(self.next()).ok(),
            min: self.whole(),
            listings: self.list(Self::listing),
            next: self.list(Self::whole),
        }
    }

    fn component(&mut self) -> Component {
        Component {
            train: self.whole(),
            operation: self.whole(),
            threshold: self.whole(),
            increment: self.whole(),
            coeff: self.whole(),
        }
    }

    fn problem(&mut self) -> Problem {
        Problem {
            trains: self.list(|numbers| numbers.list(Self::operation)),
            components: self.list(Self::component),
            names: self.list(|numbers| {
                let name = numbers.next().to_string();
                Text::from_string(crate::rstd::string::String(name))
            }),
        }
    }
}

#[repr(C)]
struct Timespec {
    seconds: i64,
    nanoseconds: i64,
}

unsafe extern "C" {
    fn clock_gettime(clock: i32, time: *mut Timespec) -> i32;
}

/// Seconds of processor time that this process took.
fn processor_seconds() -> f64 {
    let mut time = Timespec { seconds: 0, nanoseconds: 0 };
    unsafe { clock_gettime(2, &mut time) };
    time.seconds as f64 + time.nanoseconds as f64 * 1e-9
}

pub fn main() {
    let words: Vec<String> = std::env::args().collect();
    let mut text = String::new();
    std::io::stdin().read_to_string(&mut text).unwrap();
    let problem = Numbers(text.split_ascii_whitespace()).problem();
    let rule = match words[1].as_str() {
        "free" => Rule::Free,
        "fixed" => Rule::Fixed,
        _ => panic!("rule: free or fixed"),
    };
    let budget = words[2].parse().unwrap();
    let settings = Settings { budget, rule };
    let Ok(mut core) = Core::new(Global, &problem, settings, 0, 1) else {
        panic!("memory")
    };
    let begun = processor_seconds();
    let searched = search_alone(Global, &problem, settings, &mut core);
    let seconds = processor_seconds() - begun;
    assert!(searched.is_ok());
    let standing = core.standing();
    let best = standing.best.map_or(String::from("none"), |best| best.to_string());
    let mut branchings = 0;
    for entry in core.history() {
        if let Entry::Grown { splits, .. } = entry {
            branchings += splits.len();
        }
    }
    let verdict = match standing.mark {
        Mark::Working => String::from("working"),
        Mark::Optimal(cost) => format!("optimal {cost}"),
        Mark::Infeasible => String::from("infeasible"),
        Mark::Stopped { bound, .. } => format!("stopped bound {bound}"),
    };
    println!("{verdict} best {best} branchings {branchings} seconds {seconds:.3}");
    std::process::exit(0);
}

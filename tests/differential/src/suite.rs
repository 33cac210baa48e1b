//! All tests, one after the other.

use crate::cases;
use crate::check::Check;
use crate::files::{self, Files};
use crate::groups::{Group, GROUPS};
use crate::library::Library;
use crate::random::Rng;
use std::collections::BTreeMap;
use std::io::Write;
use std::panic::{catch_unwind, AssertUnwindSafe};
use std::time::{Duration, Instant};

/// The numbers of document 01's table and those that document 02 adds; 2 has a slice of its own
/// that is not compared here.
const NUMBERS: [u64; 54] = [
    1, 3, 4, 5, 6, 7, 8, 9, 10, 11, 12, 13, 14, 15, 16, 17, 18, 20, 21, 22, 23, 24, 25, 26, 27, 28,
    29, 30, 31, 32, 33, 40, 41, 42, 43, 44, 50, 51, 52, 60, 61, 62, 63, 64, 70, 71, 72, 73, 74, 75,
    76, 77, 78, 79,
];

pub struct Options {
    pub seed: u64,
    /// Time for all random groups together, in place of their own number of rounds.
    pub time: Option<Duration>,
    /// Only tests whose name has this part.
    pub only: String,
}

pub struct Totals {
    pub passed: u64,
    pub failed: u64,
    pub comparisons: u64,
    pub accepted: u64,
    pub moments: u64,
    /// How often each number was the answer compared.
    pub met: BTreeMap<u64, u64>,
}

impl Totals {
    fn test(&mut self, name: &str, test: impl FnOnce() -> (bool, String)) {
        print!("{name} .. ");
        // A library that strays ends the process here: the name must be out before.
        let _ = std::io::stdout().flush();
        let (good, note) = catch_unwind(AssertUnwindSafe(test)).unwrap_or((false, String::new()));
        if good {
            self.passed += 1;
            println!("ok{note}");
        } else {
            self.failed += 1;
            println!("FAILED{note}");
        }
    }
}

/// The random numbers of a round, the same in every run with this seed.
pub fn rng(seed: u64, group: usize, round: u64) -> Rng {
    let mut mixed = Rng::new(seed);
    for part in [group as u64, round] {
        mixed = Rng::new(mixed.number() ^ part);
    }
    mixed
}

fn rounds(check: &mut Check, options: &Options, number: usize, group: &Group) -> u64 {
    let random = GROUPS.iter().filter(|group| group.rounds > 1).count() as u32;
    let until = options.time.map(|time| Instant::now() + time / random);
    let mut round = 0;
    while match until {
        Some(until) if group.rounds > 1 => Instant::now() < until,
        _ => round < group.rounds,
    } {
        let before = check.failures;
        (group.round)(check, &mut rng(options.seed, number, round));
        if before == 0 && check.failures > 0 {
            println!("first failure in round {round} of seed {}", options.seed);
        }
        round += 1;
    }
    round
}

pub fn run(library: &dyn Library, options: &Options) -> Totals {
    let mut totals = Totals {
        passed: 0,
        failed: 0,
        comparisons: 0,
        accepted: 0,
        moments: 0,
        met: BTreeMap::new(),
    };
    let wanted = |name: &str| name.contains(&options.only);
    for (name, case) in cases::all() {
        if wanted(&name) {
            totals.test(&name, || {
                case(library);
                (true, String::new())
            });
        }
    }
    let files = Files::stored();
    for name in files.names().expect("the images of crates/gsd_files") {
        let title = format!("file {name}");
        if wanted(&title) {
            totals.test(&title, || {
                files::hold(library, &files, &name);
                (true, String::new())
            });
        }
    }
    #[cfg(linked)]
    if wanted("safe Rust calls") {
        totals.test("safe Rust calls", || {
            crate::wrapper::hold();
            (true, String::new())
        });
    }
    for (number, group) in GROUPS.iter().enumerate() {
        if wanted(group.name) {
            let mut check = Check::new(library);
            totals.test(group.name, || {
                let rounds = rounds(&mut check, options, number, group);
                let Check { comparisons, failures, accepted, moments, .. } = check;
                let mut note = format!(", {rounds} rounds");
                for (count, what) in [
                    (comparisons, "comparisons"),
                    (accepted, "appends accepted"),
                    (moments, "moments"),
                    (failures, "failures"),
                ] {
                    if count > 0 {
                        note += &format!(", {count} {what}");
                    }
                }
                (failures == 0, note)
            });
            totals.comparisons += check.comparisons;
            totals.accepted += check.accepted;
            totals.moments += check.moments;
            for (number, times) in check.met {
                *totals.met.entry(number).or_default() += times;
            }
        }
    }
    if options.only.is_empty() && options.time.is_none() {
        let missed: Vec<_> =
            NUMBERS.into_iter().filter(|number| !totals.met.contains_key(number)).collect();
        totals.test("the random groups met every number", || {
            (
                missed.is_empty(),
                if missed.is_empty() { String::new() } else { format!(" {missed:?}") },
            )
        });
    }
    totals
}

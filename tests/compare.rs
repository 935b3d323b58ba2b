//! The comparison: every call of the C interface against the independent
//! implementation, on worked rows and on many random inputs.
//!
//!     compare [--only NAMES] [SEED [CALLS [WRITING CALLS [LIFTING CALLS [ENTRY CALLS
//!             [TIDY CALLS [GROUP CALLS]]]]]]]
//!
//! CALLS are those of weigh, WRITING CALLS those of replay and reduce together,
//! LIFTING CALLS those of solve, lift and pair together, ENTRY CALLS those of
//! entry, TIDY CALLS those of tidy, GROUP CALLS those of solve and pair together
//! on lists of several groups. With names, separated by commas, only these calls
//! are compared, each just as without: `--only solve,pair`; the checks of the
//! reference are made all the same.
//! Each call is made over lent memory with guards round it. Its number, its
//! answers, every work word and every byte it was lent are looked at afterwards.
//! Exit status 1 if anything differs, or if some answer was met too seldom.
//!
//! A new call has a file of its own beside weigh.rs and is run from `main`.

use std::env;
use std::ops::Range;
use std::process::exit;
use std::time::Instant;

mod cases;
mod counts;
mod entry;
mod graph;
mod groups;
mod inputs;
mod lent;
mod lift;
mod liftcheck;
mod lifting;
mod lifting_rows;
mod nearend;
mod ongroups;
mod pair;
mod pairings;
mod raws;
mod reduce;
mod reference;
mod replay;
mod rows;
mod selfcheck;
mod shapes;
mod slips;
mod solve;
mod tidy;
mod tidy_rows;
mod tidycheck;
mod weigh;
mod writing;

use entry::Entries;
use lift::Lift;
use ongroups::OnGroups;
use pair::Pair;
use reduce::Reduce;
use replay::Replay;
use solve::Solve;
use tidy::Tidy;
use weigh::Weighing;

const SEED: u64 = 20_180_820;
const CALLS: u64 = 24_000;
const WRITING_CALLS: u64 = 20_000;
/// Seven tenths of them, 21,000, are calls of lift and pair, which write two files.
const LIFTING_CALLS: u64 = 30_000;
const ENTRY_CALLS: u64 = 5_000;
const TIDY_CALLS: u64 = 12_000;
const GROUP_CALLS: u64 = 40_000;

const USAGE: &str = "usage: compare [--only NAMES] [SEED [CALLS [WRITING CALLS [LIFTING CALLS \
                     [ENTRY CALLS [TIDY CALLS [GROUP CALLS]]]]]]]";
/// The calls that can be named.
const NAMES: [&str; 8] = [
    "weigh", "replay", "reduce", "solve", "lift", "pair", "entry", "tidy",
];

// The names of the calls that are to be compared, and the arguments behind them.
fn names(mut words: Vec<String>) -> Option<(Vec<String>, Vec<String>)> {
    if words.first().map(String::as_str) != Some("--only") {
        return Some((NAMES.map(String::from).to_vec(), words));
    }
    let others = words.split_off(words.len().min(2));
    let only: Vec<String> = words.get(1)?.split(',').map(String::from).collect();
    let known = only.iter().all(|name| NAMES.contains(&name.as_str()));
    known.then_some((only, others))
}

// The seed and the numbers of calls, from the words where they are given.
fn numbers(words: &[String]) -> Option<[u64; 7]> {
    let number = |place: usize, usual: u64| match words.get(place) {
        None => Some(usual),
        Some(word) => word.parse().ok(),
    };
    if words.len() > 7 {
        return None;
    }
    Some([
        number(0, SEED)?,
        number(1, CALLS)?,
        number(2, WRITING_CALLS)?,
        number(3, LIFTING_CALLS)?,
        number(4, ENTRY_CALLS)?,
        number(5, TIDY_CALLS)?,
        number(6, GROUP_CALLS)?,
    ])
}

// Compares weigh; what was met too seldom.
fn compare_weigh(seed: u64, calls: Range<u64>) -> Vec<String> {
    let start = Instant::now();
    let weighing = Weighing::run(seed, calls.end);
    print_time(seed, calls, start);
    weighing.print()
}

// Compares a call that writes files; what was met too seldom.
fn compare_writing<C: writing::Call>(seed: u64, calls: Range<u64>) -> Vec<String> {
    let start = Instant::now();
    let comparison = writing::Comparison::<C>::run(seed, calls.clone());
    print_time(seed, calls, start);
    comparison.print()
}

// Compares entry; what was met too seldom.
fn compare_entry(seed: u64, calls: Range<u64>) -> Vec<String> {
    let start = Instant::now();
    let entries = Entries::run(seed, calls.clone());
    print_time(seed, calls, start);
    entries.print()
}

// Prints how long the calls of these numbers took.
fn print_time(seed: u64, calls: Range<u64>, start: Instant) {
    let (seconds, calls) = (start.elapsed().as_secs_f64(), calls.end - calls.start);
    println!("seed {seed}, {calls} random calls, {seconds:.2} seconds");
}

/// A comparison: the name of its call, and what makes the calls of some numbers.
type Part = (&'static str, fn(u64, Range<u64>) -> Vec<String>, Range<u64>);

// Compares the calls of these names; what was met too seldom.
fn compare(
    only: &[String],
    [seed, weighed, written, lifted, served, tidied, grouped]: [u64; 7],
) -> Vec<String> {
    // Of calls that solve and lift, lift has more than the others, having more to choose from.
    let [solve, lift, pair] = [3, 7, 10].map(|part| written + lifted * part / 10);
    let (entry, tidy) = (pair + served, pair + served + tidied);
    let (replay, solve_groups, pair_groups) = (written / 2, tidy + grouped / 2, tidy + grouped);
    let parts: [Part; 10] = [
        ("weigh", compare_weigh, 0..weighed),
        ("replay", compare_writing::<Replay>, 0..replay),
        ("reduce", compare_writing::<Reduce>, replay..written),
        ("solve", compare_writing::<Solve>, written..solve),
        ("lift", compare_writing::<Lift>, solve..lift),
        ("pair", compare_writing::<Pair>, lift..pair),
        ("entry", compare_entry, pair..entry),
        ("tidy", compare_writing::<Tidy>, entry..tidy),
        (
            "solve",
            compare_writing::<OnGroups<Solve>>,
            tidy..solve_groups,
        ),
        (
            "pair",
            compare_writing::<OnGroups<Pair>>,
            solve_groups..pair_groups,
        ),
    ];
    let is_wanted = |name: &str| only.iter().any(|only| only == name);
    selfcheck::run(seed);
    liftcheck::run(seed);
    tidycheck::run(seed);
    let mut short = Vec::new();
    for (name, compare, calls) in parts {
        if is_wanted(name) {
            short.extend(compare(seed, calls));
        }
    }
    if is_wanted("tidy") {
        tidy::run_others(seed);
    }
    if is_wanted("lift") {
        short.extend(nearend::run());
    }
    short
}

// Runs the comparison and ends with 0, 1 for a difference or too few calls, 2 for bad arguments.
fn main() {
    let given = names(env::args().skip(1).collect());
    let given = given.and_then(|(only, words)| Some((only, numbers(&words)?)));
    let Some((only, numbers)) = given else {
        println!("{USAGE}");
        exit(2);
    };
    let short = compare(&only, numbers);
    for line in &short {
        println!("{line}");
    }
    println!("{}", if short.is_empty() { "PASS" } else { "FAIL" });
    exit(i32::from(!short.is_empty()));
}

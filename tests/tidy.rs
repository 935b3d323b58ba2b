//! The comparison of tidy: the call over the C interface, its files, what is
//! special about them, and what the other calls make of the list it writes.

use std::collections::{BTreeMap, BTreeSet};
use std::process::exit;

use crate::cases;
use crate::inputs::{Entry, Form, Random, LARGEST_CELL, LARGEST_POINTS};
use crate::lent::{hexadecimal, Files, Work};
use crate::lift::Lift;
use crate::pair::Pair;
use crate::raws;
use crate::reduce::Reduce;
use crate::reference::{self, Answer, Input, RAW_LIST_FAULTS, WORK_WORDS};
use crate::replay::Replay;
use crate::rows::{self, Row};
use crate::solve::Solve;
use crate::tidy_rows;
use crate::weigh;
use crate::writing::{answer_of, Call};

/// Cases of accepted calls.
const OF_TIDY: [&str; 11] = [
    "no cells",
    "every higher cell first",
    "one pair run again, no other",
    "cell 1,023",
    "room for what is written, not for the raw",
    "zero points stand",
    "the largest points stand",
    "a pair run again, cells turned",
    "a pair run again for more points",
    "a pair run again for fewer points",
    "a pair run 100 times or more",
];

/// How many raw lists are tidied for the other calls.
const LISTS_FOR_OTHERS: u64 = 600;

// The call

extern "C" {
    fn cells_tidy(
        raw: *const u8,
        raw_len: usize,
        work_a: *mut u64,
        work_a_len: usize,
        work_b: *mut u64,
        work_b_len: usize,
        store: *mut u8,
        store_room: usize,
        store_len: *mut u64,
    ) -> u32;
}

/// Tidies a raw list (file 0); the output is the store list.
pub struct Tidy;

impl Call for Tidy {
    const NAME: &'static str = "tidy";
    const REFUSALS: &'static [u32] = &[1, 13, 12];
    const FAMILIES: &'static [&'static str] = &raws::FAMILIES;
    /// A clause of 13 counts where no other one holds.
    const CASES: &'static [&'static [&'static str]] =
        &[&OF_TIDY, &RAW_LIST_FAULTS, &cases::OF_ONE_FILE];
    const FEWEST: u64 = 101;

    fn rows() -> Vec<Row> {
        tidy_rows::rows()
    }

    fn files(random: &mut Random) -> (&'static str, Vec<Vec<u8>>) {
        let (family, raw) = raws::valid_list(random);
        (family, vec![raws::good_or_bad_list(random, raw)])
    }

    fn input(files: &[Vec<u8>]) -> Input {
        Input::tidy(&files[0])
    }

    fn call(
        files: &Files,
        (work_a, work_b): (&mut [u64], &mut [u64]),
        mut outputs: Vec<&mut [u8]>,
        lengths: &mut [u64],
    ) -> u32 {
        let raw = files.file(0);
        // The pointers and lengths are those of slices that live through the call.
        unsafe {
            cells_tidy(
                raw.as_ptr(),
                raw.len(),
                work_a.as_mut_ptr(),
                work_a.len(),
                work_b.as_mut_ptr(),
                work_b.len(),
                outputs[0].as_mut_ptr(),
                outputs[0].len(),
                &mut lengths[1],
            )
        }
    }

    fn cases(
        input: &Input,
        work: [usize; 2],
        room: &[usize],
        answer: &Answer,
    ) -> Vec<&'static str> {
        match answer {
            Ok(_) => {
                let entries = input.entries_in_place();
                let mut met = cases::of_room(input, work, room);
                met.extend(of_list(input.n(), &entries, room[0]));
                met
            }
            Err(13) => match input.raw_list_faults()[..] {
                [alone] => vec![alone],
                _ => Vec::new(),
            },
            Err(12) => cases::of_short_room(&input.lengths(), room),
            Err(_) => Vec::new(),
        }
    }
}

// What is special

// Cases of an accepted raw list, and of the room for what is written.
fn of_list(n: u64, entries: &[Entry], room: usize) -> BTreeSet<&'static str> {
    let mut pairs: BTreeMap<reference::Pair, Vec<Entry>> = BTreeMap::new();
    for &[a, b, points] in entries {
        let runs = pairs.entry((a.min(b), a.max(b))).or_default();
        runs.push([a, b, points]);
    }
    let mut cases = vec![
        ("no cells", n == 0),
        (
            "every higher cell first",
            entries.len() > 1 && entries.iter().all(|&[a, b, _]| a > b),
        ),
        (
            "one pair run again, no other",
            pairs.len() == 1 && entries.len() > 1,
        ),
        (
            "cell 1,023",
            pairs.keys().any(|pair| pair.1 == LARGEST_CELL),
        ),
        (
            "room for what is written, not for the raw",
            room < 4 + 5 * entries.len(),
        ),
    ];
    for runs in pairs.values() {
        let [a, _, points] = runs[runs.len() - 1];
        let [a_before, _, points_before] = runs[runs.len().saturating_sub(2)];
        cases.extend([
            ("zero points stand", points == 0),
            ("the largest points stand", points == LARGEST_POINTS),
            ("a pair run again, cells turned", a != a_before),
            ("a pair run again for more points", points > points_before),
            ("a pair run again for fewer points", points < points_before),
            ("a pair run 100 times or more", runs.len() >= 100),
        ]);
    }
    let met = cases.into_iter().filter(|&(_, holds)| holds);
    met.map(|(name, _)| name).collect()
}

// The other calls

/// Tidies random raw lists and gives the lists written to the other calls, none of
/// which may refuse them; ends at the first that does.
pub fn run_others(seed: u64) {
    let mut random = Random::new(seed);
    for _ in 0..LISTS_FOR_OTHERS {
        let (family, raw) = raws::valid_list(&mut random);
        let (number, [store, _]) = answer_of::<Tidy>(&mut random, &[&raw.bytes()]);
        let refusing = match number {
            0 => calls_refusing(&mut random, raw.n, &store),
            _ => vec![Tidy::NAME],
        };
        if !refusing.is_empty() {
            println!("MISMATCH in tidy, {family}, for {}", refusing.join(", "));
            println!("raw list: {}", hexadecimal(&raw.bytes()));
            println!("store list: {}", hexadecimal(&store));
            println!("FAIL");
            exit(1);
        }
    }
    println!("tidy: the other calls take the lists written from {LISTS_FOR_OTHERS} raw lists");
}

// The calls that do not take a store list of n cells, with the empty slip and pairing;
// tidy is one where the list, its kind changed to 6, does not come back as itself.
fn calls_refusing(random: &mut Random, n: u64, store: &[u8]) -> Vec<&'static str> {
    let slip = Form::slip(n, Vec::new()).bytes();
    let pairing = Form::pairing(n, Vec::new()).bytes();
    let (tidy, [again, _]) = answer_of::<Tidy>(random, &[&rows::of_raw_kind(store)]);
    let answers = [
        (Tidy::NAME, tidy.max(u32::from(again != store))),
        ("weigh", weigh_answer(random, store, &pairing)),
        (Replay::NAME, answer_of::<Replay>(random, &[store, &slip]).0),
        (Reduce::NAME, answer_of::<Reduce>(random, &[store]).0),
        (Solve::NAME, answer_of::<Solve>(random, &[store, &slip]).0),
        (
            Lift::NAME,
            answer_of::<Lift>(random, &[store, &slip, &pairing]).0,
        ),
        (Pair::NAME, answer_of::<Pair>(random, &[store]).0),
    ];
    // Of these, 11 alone is not about the form of the list.
    let refusing = answers
        .iter()
        .filter(|&&(_, number)| number != 0 && number != 11);
    refusing.map(|&(name, _)| name).collect()
}

// What weigh answers, with enough lent; 1 as well if the points are not zero.
fn weigh_answer(random: &mut Random, store: &[u8], pairing: &[u8]) -> u32 {
    let mut work = Work::new(random, [WORK_WORDS; 2]);
    let (work_a, work_b) = work.buffers();
    let mut points = 1;
    let number = weigh::call_weigh(store, pairing, work_a, work_b, &mut points);
    number.max(u32::from(points != 0))
}

//! Raw lists for tidy: pairs in every order, either cell first, run once or
//! often, and faults put into them on purpose.

use crate::inputs::{self, Entry, Form, Random, LARGEST_CELL, LARGEST_M};
use crate::reference::{LIST_KIND, MOST_CELLS, MOST_ENTRIES};
use crate::shapes;

/// The families, in the order of `valid_list`.
pub const FAMILIES: [&str; 10] = [
    "a store list, its kind changed",
    "no entries",
    "each pair once, in order",
    "each pair once, descending",
    "each pair once, in any order",
    "some pairs run again",
    "each pair run again, cells turned",
    "few pairs run often",
    "4,096 entries",
    "4,096 different pairs",
];
const STORE: usize = 0;
const NO_ENTRIES: usize = 1;
const FULL: usize = 8;
const ALL_DIFFERENT: usize = 9;

// Valid raw lists

/// A valid raw list of any family, and the family's name.
pub fn valid_list(random: &mut Random) -> (&'static str, Form) {
    let family = random.place(FAMILIES.len());
    let list = match family {
        STORE => shapes::valid_list(random).1,
        NO_ENTRIES => Form::list(random.one_of(&[0, 0, 1, MOST_CELLS]), Vec::new()),
        ALL_DIFFERENT => shapes::full_list(random),
        _ => list_with_pairs(random),
    };
    if family == STORE {
        return (FAMILIES[family], Form::raw_list(list.n, list.entries));
    }
    // Now and then the cells are moved up to the highest there are.
    let up = random.one_of(&[0, 0, 0, MOST_CELLS - list.n]);
    let moved = |&[a, b, _]: &Entry| (a + up, b + up);
    let pairs = list.entries.iter().map(moved).collect();
    let mut run = order_of_runs(random, family, pairs);
    turn_some(random, &mut run);
    let entries = inputs::with_points(random, &run);
    (FAMILIES[family], Form::raw_list(list.n + up, entries))
}

// A valid list that has an entry.
fn list_with_pairs(random: &mut Random) -> Form {
    loop {
        let list = inputs::valid_list(random);
        if !list.entries.is_empty() {
            return list;
        }
    }
}

// The pairs of a list, lower cell first and ascending, in the order they are run in.
fn order_of_runs(
    random: &mut Random,
    family: usize,
    mut pairs: Vec<(u64, u64)>,
) -> Vec<(u64, u64)> {
    match family {
        2 => {}
        3 => pairs.reverse(),
        5 => {
            let count = pairs.len() + 1 + random.place(pairs.len());
            run_again(random, &mut pairs, count);
        }
        6 => {
            pairs.truncate(MOST_ENTRIES as usize / 2);
            pairs.extend(pairs.clone().iter().map(|&(a, b)| (b, a)));
        }
        7 => {
            random.shuffle(&mut pairs);
            pairs.truncate(random.one_of(&[1, 1, 2, 3, 8]) as usize);
            let count = pairs.len() + random.between(1, 200) as usize;
            run_again(random, &mut pairs, count);
        }
        FULL => {
            pairs.truncate(random.one_of(&[1, 40, 600, MOST_ENTRIES - 1]) as usize);
            run_again(random, &mut pairs, MOST_ENTRIES as usize);
        }
        _ => random.shuffle(&mut pairs),
    }
    pairs
}

// Runs some of the pairs again, until there are so many; half of the time in any order.
fn run_again(random: &mut Random, pairs: &mut Vec<(u64, u64)>, count: usize) {
    let different = pairs.len();
    while pairs.len() < count.min(MOST_ENTRIES as usize) {
        pairs.push(pairs[random.place(different)]);
    }
    if random.once_in(2) {
        random.shuffle(pairs);
    }
}

// Puts the other cell first: in no pair, in all or in some.
fn turn_some(random: &mut Random, pairs: &mut [(u64, u64)]) {
    let part = random.one_of(&[0, 1, 1, 1, 2]);
    for (a, b) in pairs {
        if random.below(2) < part {
            (*a, *b) = (*b, *a);
        }
    }
}

// Faults

// Spoils a raw list so that some clause of refusal 13 is likely to hold.
fn spoil(random: &mut Random, raw: &mut Form) {
    match random.below(10) {
        0..=2 => inputs::spoil_start(random, raw),
        3 | 4 => inputs::spoil_sizes(random, raw),
        5 => add_too_many_entries(random, raw),
        6 => inputs::spoil_length(random, raw),
        _ => spoil_cells(random, raw),
    }
}

// More than 4,096 entries, each of them right where there was one.
fn add_too_many_entries(random: &mut Random, raw: &mut Form) {
    let any = random.between(MOST_ENTRIES + 1, LARGEST_M);
    let count = random.one_of(&[MOST_ENTRIES + 1, any]) as usize;
    let entries = raw.entries.iter().copied();
    raw.entries = entries.cycle().take(count).collect();
    raw.count();
}

// One cell twice, or a cell that is not below n, in one entry.
fn spoil_cells(random: &mut Random, raw: &mut Form) {
    if raw.entries.is_empty() {
        raw.entries.push([0, 1, 0]);
        raw.count();
    }
    let place = inputs::end_or_any_place(random, raw.entries.len());
    let side = random.place(2);
    if random.once_in(3) {
        raw.entries[place][side] = raw.entries[place][1 - side];
    } else if raw.n <= LARGEST_CELL {
        let any = random.between(raw.n, LARGEST_CELL);
        raw.entries[place][side] = random.one_of(&[raw.n, any]);
    } else {
        let cells = raw.entries.iter().flat_map(|&[a, b, _]| [a, b]);
        raw.n = cells.max().unwrap_or(0);
    }
}

/// The bytes of a raw list as it is, or spoiled: for one clause, for two, by a
/// bit, or no raw list at all.
pub fn good_or_bad_list(random: &mut Random, mut raw: Form) -> Vec<u8> {
    match random.below(100) {
        0..=54 => {}
        55..=84 => spoil(random, &mut raw),
        85..=91 => {
            spoil(random, &mut raw);
            spoil(random, &mut raw);
        }
        92..=95 => return inputs::with_bits_flipped(random, raw.bytes()),
        96 | 97 => return inputs::random_file(random, &raw),
        _ => raw.kind = LIST_KIND,
    }
    raw.bytes()
}

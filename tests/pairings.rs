//! Pairings of what a slip leaves, for lift: of every kind, and faults put into
//! them on purpose.

use std::collections::BTreeMap;

use crate::graph::Left;
use crate::inputs::{self, Entry, Form, Random};
use crate::lifting;
use crate::reference::{Pair, MOST_SOLVED};

// Valid pairings

// What is left of n cells as a list, from which pairings are drawn.
fn list_of(n: u64, left: &Left) -> Form {
    let pairs = left.graph.pairs().into_iter();
    Form::list(n, pairs.map(|((a, b), points)| [a, b, points]).collect())
}

/// A valid pairing of what is left of a list: empty, a single pair, a single
/// pair that is no entry above zero points, a heaviest one, as full as chance
/// makes it, or a part of that.
pub fn valid_pairing(random: &mut Random, list: &Form, left: &Left) -> Form {
    let short = list_of(list.n, left);
    match random.below(14) {
        0 => Form::pairing(list.n, Vec::new()),
        1 => one_pair(random, list.n, &short.entries),
        2..=4 => one_pair(random, list.n, &made_by_steps(list, &short)),
        // By all cells that are left, not by groups: nearend.rs has digests of these pairings.
        5..=7 if left.graph.cells().count() <= MOST_SOLVED => {
            let pairs = lifting::solve(&left.graph).pairs();
            Form::pairing(list.n, pairs.iter().map(|&(a, b)| [a, b, 0]).collect())
        }
        _ => inputs::valid_pairing(random, &short),
    }
}

// The pairing of one of these entries, the empty one if there are none.
fn one_pair(random: &mut Random, n: u64, entries: &[Entry]) -> Form {
    let one = entries.get(random.place(entries.len()));
    Form::pairing(n, one.map(|&[a, b, _]| [a, b, 0]).into_iter().collect())
}

// The entries left that steps gave their points: those whose entry in the list
// has zero points, or, if there are none, those that are no entry there.
fn made_by_steps(list: &Form, short: &Form) -> Vec<Entry> {
    let entries = list.entries.iter();
    let points: BTreeMap<Pair, u64> = entries.map(|&[a, b, points]| ((a, b), points)).collect();
    let with_points = |wanted: Option<u64>| -> Vec<Entry> {
        let entries = short.entries.iter().copied();
        let is_wanted = |&[a, b, _]: &Entry| points.get(&(a, b)).copied() == wanted;
        entries.filter(is_wanted).collect()
    };
    let from_zero = with_points(Some(0));
    if from_zero.is_empty() {
        with_points(None)
    } else {
        from_zero
    }
}

// Faults

// Spoils a pairing so that refusal 10 is likely to hold: a cell twice, an absent
// pair, an entry of zero points, or an entry whose pair is no longer there.
fn spoil_pairs(random: &mut Random, pairing: &mut Form, list: &Form, left: &Left) {
    let is_left = |&[a, b, _]: &Entry| left.graph.points(a, b) > 0;
    let entries = list.entries.iter();
    let gone: Vec<Entry> = entries.filter(|entry| !is_left(entry)).copied().collect();
    let (zeros, vanished): (Vec<Entry>, Vec<Entry>) =
        gone.iter().partition(|&&[_, _, points]| points == 0);
    match random.below(4) {
        0 if !zeros.is_empty() => put(pairing, zeros[random.place(zeros.len())]),
        1 | 2 if !vanished.is_empty() => put(pairing, vanished[random.place(vanished.len())]),
        _ => inputs::spoil_pairing(random, pairing, &list_of(list.n, left), 10),
    }
}

// Puts the pair of an entry into a pairing, for those that have a cell in common with it.
fn put(pairing: &mut Form, entry: Entry) {
    let cells: Pair = (entry[0], entry[1]);
    let touches = |cell: u64| cell == cells.0 || cell == cells.1;
    pairing
        .entries
        .retain(|&[a, b, _]| !touches(a) && !touches(b));
    inputs::add_sorted(pairing, entry);
}

// Good and bad pairings, mixed

/// The bytes of a pairing for lift: of what is left of a valid list, spoiled, or
/// of no such pairing at all.
pub fn good_or_bad_pairing(random: &mut Random, list: &Form, left: &Left) -> Vec<u8> {
    let mut pairing = valid_pairing(random, list, left);
    let fault = random.below(100);
    if (58..=84).contains(&fault) {
        spoil_pairs(random, &mut pairing, list, left);
    }
    match fault {
        0..=79 => {}
        80..=91 => inputs::spoil_pairing(random, &mut pairing, &list_of(list.n, left), 9),
        92..=95 => return inputs::with_bits_flipped(random, pairing.bytes()),
        96 => return inputs::random_file(random, &pairing),
        97 => pairing.keep = Some(random.place(5)),
        98 => return list.bytes(),
        _ => return inputs::valid_pairing(random, list).bytes(),
    }
    pairing.bytes()
}

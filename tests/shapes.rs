//! Lists for the calls that write files, by the family of their shape: those in which
//! leaves, rings and chains come up in every way, and those without any step.
//!
//! A shape is drawn as a `Draft` whose cells are numbered as they come; the
//! numbers are mixed and the points given at the end.

use std::collections::BTreeSet;

use crate::graph::CHAIN;
use crate::inputs::{self, Entry, Form, Random, LARGEST_POINTS};
use crate::lifting::Taken;
use crate::reference::{Pair, MOST_CELLS, MOST_ENTRIES};
use crate::slips;

/// The families, in the order of `draw`.
pub const FAMILIES: [&str; 21] = [
    "no pairs",
    "path",
    "tree",
    "ring alone",
    "ring with tails",
    "rings at one cell",
    "rings hung on rings",
    "chains between two ends",
    "chains with a direct pair",
    "single cells between two ends",
    "core with leaves",
    "core with rings and chains",
    "core of chains",
    "several groups",
    "few pairs for the cells",
    "many pairs for the cells",
    "4,096 entries",
    "long ring or chain",
    "as for weigh",
    "core of about 12 cells",
    "cells with many leaves",
];
const GROUPS: usize = 13;
const FULL: usize = 16;
const LONG: usize = 17;
const AS_FOR_WEIGH: usize = 18;
const ABOUT_TWELVE: usize = 19;
const MANY_LEAVES: usize = 20;
/// Families that often leave pairs which no step takes, or have long rows.
const LEAVING: [usize; 6] = [11, 12, 15, LONG, ABOUT_TWELVE, ABOUT_TWELVE];
/// Families of rings and chains.
const OF_ROWS: [usize; 10] = [3, 4, 5, 6, 7, 8, 11, 12, GROUPS, LONG];
/// A family of large lists alone is taken once in so many times that it comes up.
const LARGE_ONCE_IN: u64 = 2;

/// The most cells of a core: so many have at most 4,095 pairs.
const MOST_CORE_CELLS: u64 = 91;

// Drafts

/// Pairs of cells that are numbered as they come.
#[derive(Default)]
pub struct Draft {
    pub cells: u64,
    pub pairs: BTreeSet<Pair>,
}

impl Draft {
    // One more cell.
    fn cell(&mut self) -> u64 {
        self.cells += 1;
        self.cells - 1
    }

    /// One more cell, with a pair to this one.
    pub fn cell_at(&mut self, cell: u64) -> u64 {
        let next = self.cell();
        self.pair(cell, next);
        next
    }

    /// A pair of two different cells.
    pub fn pair(&mut self, one: u64, other: u64) {
        if one != other {
            self.pairs.insert((one.min(other), one.max(other)));
        }
    }

    // A row of so many new cells from a cell, and the last of them.
    fn tail(&mut self, from: u64, length: u64) -> u64 {
        (0..length).fold(from, |last, _| self.cell_at(last))
    }

    /// A row of so many new cells between two cells.
    pub fn chain(&mut self, from: u64, inner: u64, to: u64) {
        let last = self.tail(from, inner);
        self.pair(last, to);
    }

    // Keeps so many cells, and the pairs of those.
    fn keep(&mut self, most: u64) {
        self.cells = self.cells.min(most);
        self.pairs.retain(|&(_, b)| b < most);
    }

    // Any cell that is there already.
    fn any(&self, random: &mut Random) -> u64 {
        random.below(self.cells)
    }
}

// A part of what is left, at least so many and at most so many where there are as many.
fn part(random: &mut Random, left: u64, fewest: u64, most: u64) -> u64 {
    let most = most.min(left).max(fewest);
    random.between(fewest, most)
}

// Shapes, each of about as many cells as it is given

// The shape of this family.
fn draft(random: &mut Random, family: usize, size: u64) -> Draft {
    let mut draft = Draft::default();
    draw(random, &mut draft, family, size.max(3));
    draft.keep(MOST_CELLS);
    draft
}

// Adds a shape of this family to a draft, with cells of its own.
fn draw(random: &mut Random, draft: &mut Draft, family: usize, size: u64) {
    match family {
        0 => draft.cells += random.one_of(&[0, size]),
        1 => draw_path(draft, size),
        2 => draw_tree(random, draft, size),
        3 => draw_ring(draft, size),
        4 => draw_ring_with_tails(random, draft, size),
        5 => draw_rings_at_one_cell(random, draft, size),
        6 => draw_rings_on_rings(random, draft, size),
        7 => draw_chains(random, draft, size),
        8 => draw_chains_with_direct_pair(random, draft, size),
        9 => draw_single_cells(random, draft, size),
        10 => draw_core_with_leaves(random, draft, size),
        11 => draw_core_with_rings_and_chains(random, draft, size),
        12 => draw_core_of_chains(random, draft, size),
        GROUPS => draw_groups(random, draft, size),
        14 => {
            let count = size * random.between(7, 16) / 10;
            draw_any(random, draft, size, count);
        }
        _ => {
            let most = MOST_ENTRIES.min(size * size / 2);
            let count = random.between(size.min(most), most);
            draw_any(random, draft, size, count);
        }
    }
}

// A path.
fn draw_path(draft: &mut Draft, size: u64) {
    let first = draft.cell();
    draft.tail(first, size - 1);
}

// A tree: every next cell hangs on any cell, one of the last, the first, or one of a row.
fn draw_tree(random: &mut Random, draft: &mut Draft, size: u64) {
    let first = draft.cell();
    let manner = random.below(4);
    let row = first + size / 2;
    for cell in first + 1..first + size {
        let parent = match manner {
            0 => random.between(first, cell - 1),
            1 => random.between(first.max(cell.saturating_sub(3)), cell - 1),
            2 => first,
            _ if cell <= row => cell - 1,
            _ => random.between(first, row),
        };
        draft.cell_at(parent);
    }
}

// A ring.
fn draw_ring(draft: &mut Draft, size: u64) {
    let first = draft.cell();
    draft.chain(first, size - 1, first);
}

// A ring with tails or trees at one of its cells, at some or at all.
fn draw_ring_with_tails(random: &mut Random, draft: &mut Draft, size: u64) {
    let first = draft.cell();
    let ring = part(random, size.saturating_sub(1), 3, size);
    draft.chain(first, ring - 1, first);
    let reach = random.one_of(&[1, 1, 2, ring]);
    while draft.cells < first + size {
        let left = first + size - draft.cells;
        let at = if random.once_in(4) {
            random.between(first, draft.cells - 1)
        } else {
            first + random.below(reach)
        };
        let length = part(random, left, 1, 4);
        draft.tail(at, length);
    }
}

// Rings that have one cell in common, now and then with a tail there.
fn draw_rings_at_one_cell(random: &mut Random, draft: &mut Draft, size: u64) {
    let first = draft.cell();
    let longest = random.one_of(&[2, 3, 5, size]);
    while draft.cells + 2 <= first + size {
        let left = first + size - draft.cells;
        let inner = part(random, left, 2, longest);
        draft.chain(first, inner, first);
    }
    if random.once_in(3) {
        draft.tail(first, 1);
    }
}

// Rings each of which hangs on any cell that is there already.
fn draw_rings_on_rings(random: &mut Random, draft: &mut Draft, size: u64) {
    let first = draft.cell();
    let longest = random.one_of(&[2, 3, 6]);
    while draft.cells + 2 <= first + size {
        let left = first + size - draft.cells;
        let at = random.between(first, draft.cells - 1);
        let inner = part(random, left, 2, longest);
        draft.chain(at, inner, at);
    }
}

// Chains that have both ends in common; now and then the ends have tails.
fn draw_chains(random: &mut Random, draft: &mut Draft, size: u64) {
    let first = draft.cell();
    let (u, v) = (first, draft.cell());
    let fewest = random.between(1, 2);
    let longest = random.one_of(&[2, 3, 4, size]);
    while draft.cells + 2 <= first + size {
        let left = first + size - draft.cells;
        let inner = part(random, left, fewest, longest);
        draft.chain(u, inner, v);
    }
    for end in [u, v] {
        if random.once_in(2) {
            draft.tail(end, 1);
        }
    }
}

// The same, with a pair of the two ends.
fn draw_chains_with_direct_pair(random: &mut Random, draft: &mut Draft, size: u64) {
    let u = draft.cells;
    draw_chains(random, draft, size);
    draft.pair(u, u + 1);
}

// Single cells between two ends: no chain has one inner cell.
fn draw_single_cells(random: &mut Random, draft: &mut Draft, size: u64) {
    let (u, v) = (draft.cell(), draft.cell());
    for _ in 0..size.max(5) - 2 {
        draft.chain(u, 1, v);
    }
    if random.once_in(3) {
        draft.pair(u, v);
    }
}

/// Cells with all pairs, or most of them, and the first and last of these cells.
pub fn draw_core(random: &mut Random, draft: &mut Draft, cells: u64) -> Pair {
    let first = draft.cells;
    let absent_once_in = random.between(2, 12);
    draft.cells += cells;
    for a in first..draft.cells {
        for b in a + 1..draft.cells {
            if !random.once_in(absent_once_in) {
                draft.pair(a, b);
            }
        }
    }
    (first, draft.cells - 1)
}

// The number of cells of a core in a shape of this size.
fn core_cells(random: &mut Random, size: u64) -> u64 {
    if random.once_in(3) {
        part(random, size.min(MOST_CORE_CELLS), 4, MOST_CORE_CELLS)
    } else {
        part(random, size, 4, 6)
    }
}

// A core with leaves and short tails.
fn draw_core_with_leaves(random: &mut Random, draft: &mut Draft, size: u64) {
    let cells = core_cells(random, size * 2 / 3);
    let (first, last) = draw_core(random, draft, cells);
    while draft.cells < first + size {
        let at = random.between(first, last);
        let length = random.one_of(&[1, 1, 1, 2]);
        draft.tail(at, length);
    }
}

// A core with rings at its cells and chains between them.
fn draw_core_with_rings_and_chains(random: &mut Random, draft: &mut Draft, size: u64) {
    let cells = core_cells(random, size / 2);
    let (first, last) = draw_core(random, draft, cells);
    while draft.cells < first + size {
        let left = first + size - draft.cells;
        let inner = part(random, left, 2, 5);
        let from = random.between(first, last);
        let to = if random.once_in(2) {
            from
        } else {
            random.between(first, last)
        };
        draft.chain(from, inner, to);
    }
}

// A core in which most pairs have become chains, so that chains lead to cells of three pairs.
fn draw_core_of_chains(random: &mut Random, draft: &mut Draft, size: u64) {
    let cells = (size / random.between(3, 6)).clamp(4, 160);
    let first = draft.cells;
    draft.cells += cells;
    for cell in first..first + cells {
        for _ in 0..random.between(1, 2) {
            let other = random.between(first, first + cells - 1);
            let left = (first + size).saturating_sub(draft.cells);
            let inner = random.one_of(&[0, 2, 2, 3, 5]).min(left);
            draft.chain(cell, inner, other);
        }
    }
}

// Several shapes beside each other.
fn draw_groups(random: &mut Random, draft: &mut Draft, size: u64) {
    let groups = random.between(2, 6);
    for _ in 0..groups {
        let family = random.place(GROUPS);
        draw(random, draft, family, (size / groups).max(3));
    }
}

// So many pairs of any of so many cells, or fewer where chance gives one twice.
fn draw_any(random: &mut Random, draft: &mut Draft, size: u64, count: u64) {
    draft.cells += size;
    for _ in 0..count {
        let (one, other) = (draft.any(random), draft.any(random));
        draft.pair(one, other);
    }
}

// Lists

/// A valid list of any family, and the family's name.
pub fn valid_list(random: &mut Random) -> (&'static str, Form) {
    let family = random.place(FAMILIES.len());
    list_of_family(random, family)
}

/// A valid list for solve, lift and pair: more often of a family that leaves
/// pairs to solve, and more often of few points, so that many are equal.
pub fn list_to_lift(random: &mut Random) -> (&'static str, Form) {
    let family = if random.once_in(2) {
        LEAVING[random.place(LEAVING.len())]
    } else {
        random.place(FAMILIES.len())
    };
    let (name, mut list) = list_of_family(random, family);
    if random.once_in(3) {
        give_few_points(random, &mut list);
    }
    if random.once_in(3) {
        put_direct_pair(random, &mut list);
    }
    (name, list)
}

/// A valid list of rings and chains with many equal points.
pub fn list_of_equals(random: &mut Random) -> Form {
    let family = OF_ROWS[random.place(OF_ROWS.len())];
    let (_, mut list) = list_of_family(random, family);
    give_few_points(random, &mut list);
    list
}

// Gives the entries above zero points two to four different numbers of points.
fn give_few_points(random: &mut Random, list: &mut Form) {
    let least = random.one_of(&[0, 1, 1, 1, 4]);
    let most = least + random.one_of(&[1, 1, 2, 3]);
    let entries = list.entries.iter_mut().filter(|entry| entry[2] > 0);
    entries.for_each(|entry| entry[2] = random.between(least, most));
}

// Gives the ends of a chain a direct pair: of zero points, or about as heavy as the chain.
fn put_direct_pair(random: &mut Random, list: &mut Form) {
    let graph = slips::graph_of(list);
    let mut chains = graph.steps();
    chains.retain(|step| step.named().rule == CHAIN);
    if chains.is_empty() || list.entries.len() as u64 == MOST_ENTRIES {
        return;
    }
    let taken = Taken::new(&graph, chains.swap_remove(random.place(chains.len())));
    let ([u, v], chain) = (taken.ends(), taken.points_of_chain());
    let points = random.one_of(&[0, 0, 0, chain.saturating_sub(1), chain, chain + 1]);
    list.entries.retain(|&[a, b, _]| (a, b) != (u, v));
    list.entries.push([u, v, points.min(LARGEST_POINTS)]);
    list.entries.sort();
    list.m = list.entries.len() as u64;
}

// A valid list of a family; of one that is taken seldom, often another.
fn list_of_family(random: &mut Random, family: usize) -> (&'static str, Form) {
    let list = match family {
        AS_FOR_WEIGH => inputs::valid_list(random),
        FULL | LONG if !random.once_in(LARGE_ONCE_IN) => return valid_list(random),
        FULL => full_list(random),
        LONG => long_list(random),
        ABOUT_TWELVE => list_of_about_twelve(random),
        MANY_LEAVES => list_of_many_leaves(random),
        _ => {
            let size = size(random);
            let draft = draft(random, family, size);
            list_of(random, &draft)
        }
    };
    (FAMILIES[family], list)
}

/// A valid list of a few cells, for what is worked out in every way there is.
pub fn small_list(random: &mut Random, most_cells: u64) -> Form {
    let family = random.place(FULL);
    let mut draft = draft(random, family, most_cells);
    draft.keep(most_cells);
    list_of(random, &draft)
}

// The cells of a shape: few most often, up to 1,024 once in a while.
fn size(random: &mut Random) -> u64 {
    match random.below(64) {
        0..=41 => random.between(3, 12),
        42..=57 => random.between(10, 40),
        58..=61 => random.between(40, 200),
        62 => random.between(200, MOST_CELLS),
        _ => random.between(1000, MOST_CELLS),
    }
}

/// A list of 4,096 entries: any, or a shape among entries of zero points.
pub fn full_list(random: &mut Random) -> Form {
    let mut draft = Draft {
        cells: random.between(MOST_CORE_CELLS + 1, MOST_CELLS),
        ..Draft::default()
    };
    if random.once_in(2) {
        return shape_among_zeros(random, draft.cells);
    }
    while draft.pairs.len() < MOST_ENTRIES as usize {
        let (one, other) = (draft.any(random), draft.any(random));
        draft.pair(one, other);
    }
    list_of(random, &draft)
}

// A list of 4,096 entries of so many cells, of which only those of a shape are above zero points.
fn shape_among_zeros(random: &mut Random, cells: u64) -> Form {
    let (family, size) = (random.place(GROUPS), size(random));
    let mut draft = draft(random, family, size);
    draft.cells = draft.cells.max(cells);
    let mut entries = with_points(random, &draft.pairs.iter().copied().collect::<Vec<_>>());
    while draft.pairs.len() < MOST_ENTRIES as usize {
        let (one, other) = (draft.any(random), draft.any(random));
        let (a, b) = (one.min(other), one.max(other));
        if a != b && draft.pairs.insert((a, b)) {
            entries.push([a, b, 0]);
        }
    }
    entries.truncate(MOST_ENTRIES as usize);
    numbered(random, draft.cells, entries)
}

// A core of 11 to 18 cells, alone or with leaves and rings at some of them.
fn list_of_about_twelve(random: &mut Random) -> Form {
    let mut draft = Draft::default();
    let cells = random.one_of(&[11, 12, 12, 12, 13, 13, 14, 18]);
    let (first, last) = draw_core(random, &mut draft, cells);
    let hung = match random.below(6) {
        0..=2 => 0,
        3 => random.between(1, 4),
        4 => random.between(1, 40),
        _ => random.between(100, 300),
    };
    let ring_once_in = random.one_of(&[2, 8, 1000]);
    for _ in 0..hung {
        let at = random.between(first, last);
        if random.once_in(ring_once_in) {
            draft.chain(at, 2, at);
        } else {
            draft.tail(at, 1);
        }
    }
    list_of(random, &draft)
}

// A list of one long ring or chain: alone, with one tail, or with a core at its ends.
fn long_list(random: &mut Random) -> Form {
    let mut draft = Draft::default();
    let (u, v) = match random.below(6) {
        0 => (draft.cell(), draft.cell()),
        1..=4 => draw_core(random, &mut draft, 5),
        _ => {
            let (u, _) = draw_core(random, &mut draft, 4);
            let (_, v) = draw_core(random, &mut draft, 4);
            (u, v)
        }
    };
    let inner = random.between(300, MOST_CELLS - draft.cells);
    match random.below(5) {
        0 | 1 => draft.chain(u, inner, v),
        2 | 3 => draft.chain(u, inner, u),
        _ => {
            draft.chain(u, inner - 1, u);
            draft.tail(u, 1);
        }
    }
    list_of(random, &draft)
}

// A few cells with many leaves each, joined to one another or not; some of the leaves have a second pair.
fn list_of_many_leaves(random: &mut Random) -> Form {
    let mut draft = Draft::default();
    let mut middles = Vec::new();
    for _ in 0..random.between(1, 4) {
        let middle = draft.cell();
        for _ in 0..random.between(14, 40) {
            draft.cell_at(middle);
        }
        if !middles.is_empty() && random.once_in(2) {
            draft.pair(middle, random.one_of(&middles));
        }
        middles.push(middle);
    }
    for _ in 0..random.one_of(&[0, 0, 1, 3, 9]) {
        let (one, other) = (draft.any(random), draft.any(random));
        draft.pair(one, other);
    }
    list_of(random, &draft)
}

// The list of a draft: its pairs get points, its cells new numbers.
fn list_of(random: &mut Random, draft: &Draft) -> Form {
    let mut pairs: Vec<Pair> = draft.pairs.iter().copied().collect();
    while pairs.len() > MOST_ENTRIES as usize {
        pairs.remove(random.place(pairs.len()));
    }
    let entries = with_points(random, &pairs);
    numbered(random, draft.cells, entries)
}

// The list of entries of so many cells, which get new numbers.
fn numbered(random: &mut Random, cells: u64, entries: Vec<Entry>) -> Form {
    renumbered(&numbers(random, cells), entries)
}

/// The list of entries whose cells get these new numbers.
pub fn renumbered(numbers: &[u64], mut entries: Vec<Entry>) -> Form {
    for [a, b, _] in &mut entries {
        let (one, other) = (numbers[*a as usize], numbers[*b as usize]);
        (*a, *b) = (one.min(other), one.max(other));
    }
    entries.sort();
    Form::list(numbers.len() as u64, entries)
}

// The new numbers of cells, then those of cells without pairs: as they are, turned round or mixed.
fn numbers(random: &mut Random, cells: u64) -> Vec<u64> {
    let most = MOST_CELLS - cells;
    let more = match random.below(24) {
        0..=5 => part(random, most, 0, 8),
        6 => random.below(most + 1),
        7 => most,
        _ => 0,
    };
    let mut numbers: Vec<u64> = (0..cells + more).collect();
    match random.below(5) {
        0 => {}
        1 => numbers.reverse(),
        _ => random.shuffle(&mut numbers),
    }
    numbers
}

// Points

/// Gives each pair its points: those of weigh's lists, all equal, few above
/// zero, the largest, rising in order, so that a path or star has as many leaves
/// as cells, or few where a cell has no other pair, so that leaves leave much.
pub fn with_points(random: &mut Random, pairs: &[Pair]) -> Vec<Entry> {
    let equal = random.one_of(&[1, 5, 1000, LARGEST_POINTS]);
    let ends = cells_of_one_pair(pairs);
    let mut rising = 0;
    match random.below(9) {
        0..=2 => inputs::with_points(random, pairs),
        3 => points_by(pairs, |_| equal),
        4 => points_by(pairs, |_| random.between(1, 3)),
        5 => points_by(pairs, |_| LARGEST_POINTS - random.below(3)),
        6 => points_by(pairs, |_| {
            rising += random.between(1, 200);
            rising
        }),
        _ => points_by(pairs, |(a, b)| {
            if ends.contains(&a) || ends.contains(&b) {
                random.below(8)
            } else {
                random.between(1, LARGEST_POINTS)
            }
        }),
    }
}

/// Entries whose points come from a function of the pair.
pub fn points_by(pairs: &[Pair], mut points: impl FnMut(Pair) -> u64) -> Vec<Entry> {
    let entry = |&(a, b): &Pair| [a, b, points((a, b))];
    pairs.iter().map(entry).collect()
}

// The cells that stand in one pair only.
fn cells_of_one_pair(pairs: &[Pair]) -> BTreeSet<u64> {
    let mut seen = BTreeSet::new();
    let mut again = BTreeSet::new();
    for cell in pairs.iter().flat_map(|&(a, b)| [a, b]) {
        if !seen.insert(cell) {
            again.insert(cell);
        }
    }
    &seen - &again
}

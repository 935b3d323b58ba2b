//! Lists of several groups of cells that were never run against one another, by
//! family, for solve and pair: groups of few cells and of many, of 12 and of 13,
//! and lists that come apart into groups where steps are taken.
//!
//! A list is drawn group after group; its cells are numbered at the end, so that
//! the groups stand in blocks, by turns or mixed.

use std::collections::BTreeSet;

use crate::inputs::{Entry, Form, Random, LARGEST_POINTS};
use crate::reference::{Pair, MOST_CELLS, MOST_ENTRIES, MOST_SOLVED};
use crate::shapes::{self, Draft};

/// The families, in the order of `drawn_groups`; those of `LARGE` have as many groups as fit.
pub const FAMILIES: [&str; 10] = [
    "groups of 2 to 6 cells",
    "groups of one size",
    "groups of any size up to 12",
    "several groups of 12 cells",
    "one group of 13 cells among others",
    "groups joined by what steps take",
    "512 groups of 2 cells",
    "256 groups, all pairs of 4 cells",
    "85 groups of 12 cells",
    "62 groups, all pairs of 12 cells",
];
/// The place of the family whose groups steps part.
pub const JOINED: usize = 5;
/// The number of groups of each large family, the cells of each group, and how far
/// apart the places of two cells of a pair may be.
const LARGE: [(u64, u64, u64); 4] = [(512, 2, 1), (256, 4, 3), (85, MOST, 4), (62, MOST, 11)];
const FIRST_LARGE: usize = FAMILIES.len() - LARGE.len();
/// A large family is taken once in so many times, else one of these.
const LARGE_ONCE_IN: u64 = 80;
const SMALL: [usize; 12] = [0, 0, 1, 1, 2, 2, 2, 3, 3, 4, JOINED, JOINED];

/// The most cells of a group that is solved.
const MOST: u64 = MOST_SOLVED as u64;

/// What becomes of most groups of a list: steps may take them, or do not.
#[derive(Clone, Copy, PartialEq, Eq)]
pub enum Fate {
    Any,
    Kept,
}

/// Groups as they are drawn: the number of cells of each, and the cells and pairs of all.
#[derive(Default)]
struct Groups {
    sizes: Vec<u64>,
    draft: Draft,
}

// Lists

/// A valid list of several groups, and its family's name. The groups of the joined
/// family are one at first, and steps part them, whatever the fate.
pub fn list_of_groups(random: &mut Random, fate: Fate) -> (&'static str, Form) {
    let family = if random.once_in(LARGE_ONCE_IN) {
        FIRST_LARGE + random.place(LARGE.len())
    } else {
        SMALL[random.place(SMALL.len())]
    };
    let list = match family {
        JOINED => joined_list(random),
        _ => {
            let groups = drawn_groups(random, family, fate);
            let pairs: Vec<Pair> = groups.draft.pairs.iter().copied().collect();
            let entries = with_points(random, &pairs);
            numbered(random, &groups.sizes, entries)
        }
    };
    (FAMILIES[family], list)
}

/// A valid list of two to four groups of two to four cells each, and of many equal
/// points, for what is worked out in every way there is.
pub fn small_list(random: &mut Random) -> Form {
    let mut groups = Groups::default();
    let count = random.between(2, 4);
    for _ in 0..count {
        let cells = random.between(2, if count == 4 { 3 } else { 4 });
        groups.draw(random, cells, Fate::Any);
    }
    let pairs: Vec<Pair> = groups.draft.pairs.iter().copied().collect();
    let mut entries = with_points(random, &pairs);
    let most = random.between(1, 3);
    entries.iter_mut().for_each(|entry| entry[2] %= most + 1);
    numbered(random, &groups.sizes, entries)
}

// The groups of a family, those of `JOINED` apart.
fn drawn_groups(random: &mut Random, family: usize, fate: Fate) -> Groups {
    let mut groups = Groups::default();
    if family >= FIRST_LARGE {
        groups.draw_large(LARGE[family - FIRST_LARGE]);
        return groups;
    }
    let most = if random.once_in(60) { 40 } else { 5 };
    let (count, one) = (random.between(2, most), random.between(2, MOST));
    let mut sizes: Vec<u64> = match family {
        0 => (0..count + 3).map(|_| random.between(2, 6)).collect(),
        1 => vec![one; count as usize],
        3 => vec![MOST; count as usize],
        _ => (0..count).map(|_| random.between(2, MOST)).collect(),
    };
    match family {
        3 => sizes.extend((0..random.below(3)).map(|_| random.between(2, MOST))),
        4 => sizes.push(MOST + 1),
        _ => {}
    }
    if family > 2 {
        random.shuffle(&mut sizes);
    }
    for cells in sizes {
        let fate = if random.once_in(8) { Fate::Any } else { fate };
        // The smallest groups are taken by steps, whatever their pairs.
        let is_taken = fate == Fate::Kept && cells < 4;
        groups.draw(random, if is_taken { cells + 3 } else { cells }, fate);
    }
    groups
}

// Shapes of one group

impl Groups {
    // One more group of so many cells, of any shape, or of one that no step takes.
    fn draw(&mut self, random: &mut Random, cells: u64, fate: Fate) {
        let shapes = match fate {
            Fate::Any => 9,
            Fate::Kept => 5,
        };
        let first = self.draft.cells;
        match random.below(shapes) {
            0 => self.near_places(cells, cells),
            1 | 2 => {
                shapes::draw_core(random, &mut self.draft, cells);
            }
            3 => self.near_places(cells, random.between(3, 5)),
            4 => self.between_two_ends(cells),
            5 => self.path(first..first + cells),
            6 => self.path_from_the_last(first, cells),
            7 => (1..cells).for_each(|place| self.draft.pair(first, first + place)),
            _ => self.near_places(cells, 1),
        }
        self.draft.cells = first + cells;
        self.sizes.push(cells);
    }

    // The pairs of new cells whose places lie at most so far apart, and that of the
    // first and the last.
    fn near_places(&mut self, cells: u64, reach: u64) {
        let first = self.draft.cells;
        for a in 0..cells {
            for b in (a + 1..cells).filter(|b| b - a <= reach) {
                self.draft.pair(first + a, first + b);
            }
        }
        self.draft.pair(first, first + cells - 1);
    }

    // The first and the second of new cells, each with all the others: no chain has
    // one inner cell.
    fn between_two_ends(&mut self, cells: u64) {
        let first = self.draft.cells;
        for place in 2..cells {
            self.draft.pair(first, first + place);
            self.draft.pair(first + 1, first + place);
        }
        if cells == 2 {
            self.draft.pair(first, first + 1);
        }
    }

    // A path through these cells.
    fn path(&mut self, cells: impl Iterator<Item = u64>) {
        let cells: Vec<u64> = cells.collect();
        for two in cells.windows(2) {
            self.draft.pair(two[0], two[1]);
        }
    }

    // A path from the first cell to the last and from there down to the second: the
    // pairs in their order lead away from the lowest cell as slowly as can be.
    fn path_from_the_last(&mut self, first: u64, cells: u64) {
        let down = (first + 1..first + cells).rev();
        self.path([first].into_iter().chain(down));
    }

    // As many groups as fit, all of one size.
    fn draw_large(&mut self, (count, cells, reach): (u64, u64, u64)) {
        for _ in 0..count {
            self.near_places(cells, reach);
            self.draft.cells += cells;
            self.sizes.push(cells);
        }
        assert!(self.draft.cells <= MOST_CELLS && self.draft.pairs.len() as u64 <= MOST_ENTRIES);
    }
}

// Groups that steps make

// A list of groups that are joined to one another, most often so that steps take
// what joins them: a cell with a leaf that is heavier than its other pairs,
// one with such a ring, or a chain whose inner pair is heavier than its ends.
fn joined_list(random: &mut Random) -> Form {
    let mut groups = Groups::default();
    let mut light = BTreeSet::new();
    for count in 0..random.between(2, 5) {
        let cells = random.between(5, MOST);
        groups.draw(random, cells, Fate::Kept);
        if count > 0 {
            groups.join(random, &mut light);
        }
    }
    let least = random.one_of(&[2, 4, 4, 4]);
    let most = random.one_of(&[least, least + 2, 1000, LARGEST_POINTS]);
    let pairs: Vec<Pair> = groups.draft.pairs.iter().copied().collect();
    let entries = shapes::points_by(&pairs, |pair| match light.contains(&pair) {
        true => random.between(1, 2),
        false => random.between(least, most),
    });
    numbered(random, &groups.sizes, entries)
}

impl Groups {
    // Joins the last group to one before it, by a cell with a leaf, a cell with a ring or
    // a chain; the pairs that are to be light are added.
    fn join(&mut self, random: &mut Random, light: &mut BTreeSet<Pair>) {
        let draft = &mut self.draft;
        let own = self.sizes[self.sizes.len() - 1];
        let start = draft.cells - own;
        let (from, to) = (random.between(start, draft.cells - 1), random.below(start));
        let first = draft.cells;
        match random.below(3) {
            0 => {
                draft.chain(from, 1, to);
                draft.cell_at(first);
                light.extend([(from, first), (to, first)]);
            }
            1 => {
                draft.chain(from, 1, to);
                draft.chain(first, 2, first);
                light.extend([(from, first), (to, first)]);
                light.extend([(first, first + 1), (first + 1, first + 2)]);
            }
            _ => {
                draft.chain(from, 2, to);
                light.extend([(from, first), (to, first + 1)]);
            }
        }
        // What joins them is numbered like a group of its own.
        self.sizes.push(draft.cells - first);
    }
}

// Numbers and points

// The list of entries of groups of these sizes, which were drawn one after the other:
// their cells are numbered in blocks, by turns or in any order.
fn numbered(random: &mut Random, sizes: &[u64], entries: Vec<Entry>) -> Form {
    let cells: u64 = sizes.iter().sum();
    let more = (MOST_CELLS - cells).min(random.one_of(&[0, 0, 0, 3]));
    let mut numbers: Vec<u64> = (0..cells + more).collect();
    match random.below(4) {
        0 => {}
        1 | 2 => numbers[..cells as usize].copy_from_slice(&by_turns(sizes)),
        _ => random.shuffle(&mut numbers),
    }
    shapes::renumbered(&numbers, entries)
}

// The number of each cell where the first cells of all groups come first, then their
// second ones, and so on.
fn by_turns(sizes: &[u64]) -> Vec<u64> {
    let groups = sizes.iter().enumerate();
    let mut turns: Vec<(u64, usize)> = groups
        .flat_map(|(group, &cells)| (0..cells).map(move |place| (place, group)))
        .collect();
    let drawn = turns.clone();
    turns.sort();
    let number = |cell| turns.binary_search(cell).expect("a cell") as u64;
    drawn.iter().map(number).collect()
}

// Gives each pair its points: all equal, of few numbers, any or the largest, and once
// in a while as for other lists.
fn with_points(random: &mut Random, pairs: &[Pair]) -> Vec<Entry> {
    let equal = random.one_of(&[1, 5, LARGEST_POINTS]);
    let most = random.one_of(&[2, 3, 4, LARGEST_POINTS]);
    match random.below(8) {
        0 => shapes::with_points(random, pairs),
        1 | 2 => shapes::points_by(pairs, |_| equal),
        3 => shapes::points_by(pairs, |_| LARGEST_POINTS - random.below(3)),
        _ => shapes::points_by(pairs, |_| random.between(1, most)),
    }
}

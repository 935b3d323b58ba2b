//! The inputs of the comparison: a random generator, valid files of many
//! shapes, and faults put into them on purpose, by the refusal they aim at.
//!
//! A file is built as a `Form`, spoiled there where a fault is wanted, and
//! packed into bytes last. Every choice comes from one `Random`, so that a
//! call can be made again from its seed.

use std::collections::BTreeSet;

use crate::reference::{
    Pack, HEADER_BITS, LIST_BITS, LIST_KIND, MOST_CELLS, MOST_ENTRIES, PAIRING_BITS, PAIRING_KIND,
    RAW_LIST_KIND, SLIP_BITS, SLIP_KIND,
};

/// The largest cell number that 10 bits hold, and the largest points of 20 bits.
pub const LARGEST_CELL: u64 = 1023;
pub const LARGEST_POINTS: u64 = 1_048_575;
/// The largest n that 11 bits hold, and the largest m of 13 bits.
const LARGEST_N: u64 = 2047;
pub const LARGEST_M: u64 = 8191;
/// Zero bits and kinds have four bits.
const FOUR_BITS: u64 = 16;
/// The fewest cells that have 4,096 pairs.
const CELLS_OF_A_FULL_LIST: u64 = 92;

// Random choice

/// A small deterministic generator (splitmix64).
pub struct Random {
    state: u64,
}

impl Random {
    /// The generator of this seed.
    pub fn new(seed: u64) -> Self {
        Random { state: seed }
    }

    /// The next word, any of 64 bits.
    pub fn word(&mut self) -> u64 {
        self.state = self.state.wrapping_add(0x9E37_79B9_7F4A_7C15);
        let mut word = self.state;
        word = (word ^ (word >> 30)).wrapping_mul(0xBF58_476D_1CE4_E5B9);
        word = (word ^ (word >> 27)).wrapping_mul(0x94D0_49BB_1331_11EB);
        word ^ (word >> 31)
    }

    /// A number below the limit; 0 if the limit is 0.
    pub fn below(&mut self, limit: u64) -> u64 {
        self.word() % limit.max(1)
    }

    /// A number from low to high, both included.
    pub fn between(&mut self, low: u64, high: u64) -> u64 {
        low + self.below(high - low + 1)
    }

    /// True once in so many times.
    pub fn once_in(&mut self, times: u64) -> bool {
        self.below(times) == 0
    }

    /// A place in something of this length; 0 if it is empty.
    pub fn place(&mut self, length: usize) -> usize {
        self.below(length as u64) as usize
    }

    /// One of the given numbers.
    pub fn one_of(&mut self, numbers: &[u64]) -> u64 {
        numbers[self.place(numbers.len())]
    }

    /// So many random bytes.
    pub fn bytes(&mut self, length: usize) -> Vec<u8> {
        (0..length).map(|_| self.below(256) as u8).collect()
    }

    /// Puts the items into a random order.
    pub fn shuffle<T>(&mut self, items: &mut [T]) {
        for end in (1..items.len()).rev() {
            let other = self.place(end + 1);
            items.swap(end, other);
        }
    }
}

// Forms

/// An entry's fields: cell a, cell b, then points or zero bits; of a slip's
/// step rule and cell, then nothing.
pub type Entry = [u64; 3];

/// A list, raw list, slip or pairing before it is packed. `extra` is appended to its bytes,
/// then only the first `keep` of them stay.
#[derive(Clone)]
pub struct Form {
    pub kind: u64,
    pub n: u64,
    pub m: u64,
    pub zero: u64,
    pub entry_bits: [usize; 3],
    pub entries: Vec<Entry>,
    pub extra: Vec<u8>,
    pub keep: Option<usize>,
}

impl Form {
    // A whole file of this kind, with the m of its entries.
    fn new(kind: u64, n: u64, entry_bits: [usize; 3], entries: Vec<Entry>) -> Form {
        let m = entries.len() as u64;
        Form {
            kind,
            n,
            m,
            zero: 0,
            entry_bits,
            entries,
            extra: Vec::new(),
            keep: None,
        }
    }

    /// A store list of these entries.
    pub fn list(n: u64, entries: Vec<Entry>) -> Form {
        Form::new(LIST_KIND, n, LIST_BITS, entries)
    }

    /// A raw list of these entries.
    pub fn raw_list(n: u64, entries: Vec<Entry>) -> Form {
        Form::new(RAW_LIST_KIND, n, LIST_BITS, entries)
    }

    /// A slip of these steps.
    pub fn slip(n: u64, steps: Vec<Entry>) -> Form {
        let [rule_bits, cell_bits] = SLIP_BITS;
        Form::new(SLIP_KIND, n, [rule_bits, cell_bits, 0], steps)
    }

    /// A pairing of these entries.
    pub fn pairing(n: u64, entries: Vec<Entry>) -> Form {
        Form::new(PAIRING_KIND, n, PAIRING_BITS, entries)
    }

    /// The file's bytes.
    pub fn bytes(&self) -> Vec<u8> {
        let mut pack = Pack::default();
        pack.fields([self.kind, self.n, self.m, self.zero], HEADER_BITS);
        for &entry in &self.entries {
            pack.fields(entry, self.entry_bits);
        }
        let mut bytes = pack.bytes();
        bytes.extend(&self.extra);
        bytes.truncate(self.keep.unwrap_or(bytes.len()));
        bytes
    }

    // The length of the header and the entries.
    fn whole_length(&self) -> usize {
        4 + self.entries.len() * self.entry_bytes()
    }

    // The bytes of one entry.
    fn entry_bytes(&self) -> usize {
        self.entry_bits.iter().sum::<usize>() / 8
    }

    /// Makes m the number of entries again.
    pub fn count(&mut self) {
        self.m = self.entries.len() as u64;
    }
}

// Valid lists

/// A valid list: small ones most often, large ones and full ones now and then.
pub fn valid_list(random: &mut Random) -> Form {
    let most = most_entries(random);
    let n = if most < MOST_ENTRIES as usize {
        cells(random)
    } else {
        random.between(CELLS_OF_A_FULL_LIST, MOST_CELLS)
    };
    let mut pairs = pairs_of_some_shape(random, n, most);
    pairs.truncate(MOST_ENTRIES as usize);
    Form::list(n, with_points(random, &pairs))
}

// The number of cells of a list.
fn cells(random: &mut Random) -> u64 {
    match random.below(16) {
        0 => random.below(3),
        1..=8 => random.between(2, 8),
        9..=11 => random.between(2, 40),
        12 => random.between(2, MOST_CELLS),
        13 => random.one_of(&[31, 32, 33, 64, 91, 92, 511, 512, 513]),
        14 => MOST_CELLS - 1,
        _ => MOST_CELLS,
    }
}

// How many entries a list may have: few most often, 4,096 once in a while.
fn most_entries(random: &mut Random) -> usize {
    match random.below(32) {
        0 => MOST_ENTRIES as usize,
        1..=3 => 600,
        4..=9 => 100,
        _ => 24,
    }
}

// Pairs of n cells in ascending order, about as many as given or fewer.
fn pairs_of_some_shape(random: &mut Random, n: u64, most: usize) -> Vec<(u64, u64)> {
    let last = n.saturating_sub(1);
    let part = if random.once_in(4) {
        n
    } else {
        n.min(most as u64 + 1)
    };
    let start = random.below(n - part + 1);
    let mut pairs = BTreeSet::new();
    match random.below(9) {
        0 if random.once_in(4) => {}
        0 | 1 => add_all_pairs(&mut pairs, 0, n, most),
        2 => add_all_pairs(&mut pairs, n.saturating_sub(random.between(2, 12)), n, most),
        3 => add_path(&mut pairs, start, start + part),
        4 => {
            add_path(&mut pairs, start, start + part);
            add_pair(&mut pairs, start, (start + part).saturating_sub(1));
        }
        5 => add_star(&mut pairs, random.below(n), start, start + part),
        6 => add_every_second_pair(&mut pairs, start, start + part),
        7 => {
            add_random_pairs(random, &mut pairs, n, most);
            add_pair(&mut pairs, random.below(n), last);
        }
        _ => add_random_pairs(random, &mut pairs, n, most),
    }
    pairs.into_iter().collect()
}

// Adds the pair of two different cells, the lower one first.
fn add_pair(pairs: &mut BTreeSet<(u64, u64)>, one: u64, other: u64) {
    if one != other {
        pairs.insert((one.min(other), one.max(other)));
    }
}

// Adds the pairs of all cells from start to below end, until there are enough.
fn add_all_pairs(pairs: &mut BTreeSet<(u64, u64)>, start: u64, end: u64, most: usize) {
    for a in start..end {
        for b in a + 1..end {
            if pairs.len() >= most {
                return;
            }
            add_pair(pairs, a, b);
        }
    }
}

// Adds the pair of each cell with the next one.
fn add_path(pairs: &mut BTreeSet<(u64, u64)>, start: u64, end: u64) {
    for cell in start + 1..end {
        add_pair(pairs, cell - 1, cell);
    }
}

// Adds the pairs of one cell with all others.
fn add_star(pairs: &mut BTreeSet<(u64, u64)>, middle: u64, start: u64, end: u64) {
    for cell in start..end {
        add_pair(pairs, middle, cell);
    }
}

// Adds pairs that have no cell in common, as many as there can be.
fn add_every_second_pair(pairs: &mut BTreeSet<(u64, u64)>, start: u64, end: u64) {
    for cell in (start + 1..end).step_by(2) {
        add_pair(pairs, cell - 1, cell);
    }
}

// Adds pairs of any two cells.
fn add_random_pairs(random: &mut Random, pairs: &mut BTreeSet<(u64, u64)>, n: u64, most: usize) {
    let count = if random.once_in(3) {
        most
    } else {
        random.place(most) + 1
    };
    for _ in 0..2 * count {
        if pairs.len() < count {
            add_pair(pairs, random.below(n), random.below(n));
        }
    }
}

/// Gives each pair its points: any, largest, zero, few, a single bit, or mixed.
pub fn with_points(random: &mut Random, pairs: &[(u64, u64)]) -> Vec<Entry> {
    let manner = random.below(7);
    pairs
        .iter()
        .map(|&(a, b)| [a, b, points(random, manner)])
        .collect()
}

// Points in the given manner.
fn points(random: &mut Random, manner: u64) -> u64 {
    match manner {
        0 => LARGEST_POINTS,
        1 => 0,
        2 => random.below(4),
        3 => 1 << random.below(20),
        4 => {
            let inner = random.below(4);
            points(random, inner)
        }
        _ => random.below(LARGEST_POINTS + 1),
    }
}

// Valid pairings

/// A valid pairing drawn from a valid list: as full as chance makes it, some of it, or empty.
pub fn valid_pairing(random: &mut Random, list: &Form) -> Form {
    let most = match random.below(12) {
        0 => 0,
        1..=3 => random.place(6) + 1,
        4..=6 => random.place(list.entries.len() + 1),
        _ => list.entries.len(),
    };
    let mut entries = list.entries.clone();
    random.shuffle(&mut entries);
    let mut taken = BTreeSet::new();
    let mut chosen = Vec::new();
    for [a, b, _] in entries {
        if chosen.len() < most && !taken.contains(&a) && !taken.contains(&b) {
            taken.extend([a, b]);
            chosen.push([a, b, 0]);
        }
    }
    chosen.sort();
    Form::pairing(list.n, chosen)
}

// Faults of lists

// Spoils a list so that the refusal of this number, 2 to 6, is likely to hold.
fn spoil_list(random: &mut Random, list: &mut Form, number: u32) {
    match number {
        2 => spoil_start(random, list),
        3 => spoil_sizes(random, list),
        4 => spoil_length(random, list),
        5 => spoil_cells(random, list),
        6 => spoil_order(random, list),
        _ => {}
    }
}

/// Fewer than 4 bytes, another kind, or a header zero bit.
pub fn spoil_start(random: &mut Random, form: &mut Form) {
    match random.below(4) {
        0 => form.keep = Some(random.place(4)),
        1 => form.kind ^= 1 << random.below(4),
        2 => form.kind = (form.kind + random.between(1, FOUR_BITS - 1)) % FOUR_BITS,
        _ => spoil_header_zero(random, form),
    }
}

// One header zero bit, or some.
fn spoil_header_zero(random: &mut Random, form: &mut Form) {
    form.zero = if random.once_in(2) {
        1 << random.below(4)
    } else {
        random.between(1, FOUR_BITS - 1)
    };
}

/// n above 1,024, m above 4,096, or both; m with a length that fits once in a while.
pub fn spoil_sizes(random: &mut Random, list: &mut Form) {
    let choice = random.below(5);
    if choice <= 2 {
        list.n = if random.once_in(2) {
            MOST_CELLS + 1
        } else {
            random.between(MOST_CELLS + 1, LARGEST_N)
        };
    }
    if choice >= 2 {
        list.m = if random.once_in(2) {
            MOST_ENTRIES + 1
        } else {
            random.between(MOST_ENTRIES + 1, LARGEST_M)
        };
        if random.once_in(6) {
            let missing = (list.m as usize).saturating_sub(list.entries.len());
            list.extra = vec![0; missing * list.entry_bytes()];
        }
    }
}

/// Another m, or bytes too few or too many.
pub fn spoil_length(random: &mut Random, form: &mut Form) {
    let whole = form.whole_length();
    let entry = form.entry_bytes();
    match random.below(8) {
        0 => form.m += 1,
        1 => form.m = form.m.saturating_sub(1),
        2 => form.m = random.below(MOST_ENTRIES + 1),
        3 => form.extra = bytes_between(random, 1, entry - 1),
        4 => form.extra = bytes_between(random, 1, 2 * entry),
        5 => form.extra = vec![0; entry],
        6 => form.keep = Some(whole.saturating_sub(1 + random.place(entry)).max(4)),
        _ => form.keep = Some(4 + random.place(whole - 4)),
    }
}

// Random bytes, from so few to so many.
fn bytes_between(random: &mut Random, fewest: usize, most: usize) -> Vec<u8> {
    let length = fewest + random.place(most - fewest + 1);
    random.bytes(length)
}

// A cell that is not below n, or an a that is not below b.
fn spoil_cells(random: &mut Random, list: &mut Form) {
    if list.entries.is_empty() {
        list.entries.push([0, 0, random.below(LARGEST_POINTS + 1)]);
        list.count();
    }
    let place = end_or_any_place(random, list.entries.len());
    let n = list.n;
    let [a, b, _] = list.entries[place];
    match random.below(8) {
        0 => list.entries[place][1] = a,
        1 => list.entries[place][0] = b,
        2 => list.entries[place] = [b, a, list.entries[place][2]],
        3 => list.entries[place][1] = n.min(LARGEST_CELL),
        4 => list.entries[place][1] = random.between(n.min(LARGEST_CELL), LARGEST_CELL),
        5 => list.n = list.entries.iter().map(|entry| entry[1]).max().unwrap_or(0),
        6 => list.n = b,
        _ => {
            let first = n.min(LARGEST_CELL);
            list.entries[place] = [
                random.between(first, LARGEST_CELL),
                random.between(first, LARGEST_CELL),
                0,
            ];
        }
    }
}

/// The first place, the last or any.
pub fn end_or_any_place(random: &mut Random, length: usize) -> usize {
    match random.below(4) {
        0 => 0,
        1 => length.saturating_sub(1),
        _ => random.place(length),
    }
}

// Entries in another order, or one of them twice.
fn spoil_order(random: &mut Random, list: &mut Form) {
    if list.entries.len() < 2 {
        list.entries = vec![[0, 1, random.below(LARGEST_POINTS + 1)]; 2];
        list.n = list.n.max(2);
        list.count();
        return;
    }
    let place = end_or_any_place(random, list.entries.len() - 1);
    let other = random.place(list.entries.len());
    let [a, b, _] = list.entries[place];
    match random.below(7) {
        0 | 1 => list.entries.swap(place, place + 1),
        2 => list.entries.swap(place, other),
        3 => list.entries[place + 1] = [a, b, random.below(LARGEST_POINTS + 1)],
        4 => list.entries.rotate_right(1),
        5 => list.entries.reverse(),
        _ => {
            list.entries
                .insert(place, [a, b, random.below(LARGEST_POINTS + 1)]);
            list.entries.truncate(MOST_ENTRIES as usize);
            list.count();
        }
    }
}

// Faults of pairings

/// Spoils a pairing of a list so that refusal 9 or 10 is likely to hold.
pub fn spoil_pairing(random: &mut Random, pairing: &mut Form, list: &Form, number: u32) {
    match number {
        9 => spoil_form(random, pairing, list),
        10 => spoil_pairs(random, pairing, list),
        _ => {}
    }
}

// Wrong start, n, length, zero bits, cell numbers or order.
fn spoil_form(random: &mut Random, pairing: &mut Form, list: &Form) {
    let choice = if pairing.entries.is_empty() {
        random.below(3)
    } else {
        random.below(10)
    };
    match choice {
        0 => spoil_start(random, pairing),
        1 => spoil_n(random, pairing),
        2 => spoil_length(random, pairing),
        3 | 4 => {
            let place = end_or_any_place(random, pairing.entries.len());
            pairing.entries[place][2] = 1 << random.below(4);
        }
        5 | 6 => spoil_pair_cells(random, pairing),
        7 => add_pair_with_same_a(random, pairing, list),
        _ => spoil_pairing_order(random, pairing),
    }
}

/// Another n: the next ones, one bit of it, or any.
pub fn spoil_n(random: &mut Random, form: &mut Form) {
    match random.below(4) {
        0 => form.n += 1,
        1 => form.n = form.n.saturating_sub(1),
        2 => form.n ^= 1 << random.below(11),
        _ => form.n = random.below(LARGEST_N + 1),
    }
}

// An a that is not below b, or a b that is not below n.
fn spoil_pair_cells(random: &mut Random, pairing: &mut Form) {
    let place = end_or_any_place(random, pairing.entries.len());
    let [a, b, _] = pairing.entries[place];
    let first = pairing.n.min(LARGEST_CELL);
    match random.below(5) {
        0 => pairing.entries[place][1] = a,
        1 => pairing.entries[place] = [b, a, 0],
        2 => pairing.entries[place][1] = first,
        3 => pairing.entries[place][1] = random.between(first, LARGEST_CELL),
        _ => {
            pairing.entries.push([
                random.between(first, LARGEST_CELL),
                random.between(first, LARGEST_CELL),
                0,
            ]);
            pairing.count();
        }
    }
}

// Adds an entry of the list whose a is that of a pair held already.
fn add_pair_with_same_a(random: &mut Random, pairing: &mut Form, list: &Form) {
    let same_a = |entry: &Entry| {
        pairing
            .entries
            .iter()
            .any(|pair| pair[0] == entry[0] && pair[1] != entry[1])
    };
    let found: Vec<Entry> = list
        .entries
        .iter()
        .filter(|entry| same_a(entry))
        .copied()
        .collect();
    if found.is_empty() {
        spoil_pairing_order(random, pairing);
    } else {
        add_sorted(pairing, found[random.place(found.len())]);
    }
}

// Entries in another order, or one of them twice.
fn spoil_pairing_order(random: &mut Random, pairing: &mut Form) {
    let count = pairing.entries.len();
    let place = end_or_any_place(random, count.saturating_sub(1));
    let other = random.place(count);
    match random.below(5) {
        0 | 1 if count >= 2 => pairing.entries.swap(place, place + 1),
        2 if count >= 2 => pairing.entries.swap(place, other),
        3 if count >= 2 => pairing.entries.reverse(),
        _ => {
            pairing.entries.insert(place, pairing.entries[place]);
            pairing.count();
        }
    }
}

// A pair that is not in the list, or a cell that stands twice in pairs of it.
fn spoil_pairs(random: &mut Random, pairing: &mut Form, list: &Form) {
    if random.once_in(2) {
        add_absent_pair(random, pairing, list);
    } else {
        add_touching_pair(random, pairing, list);
    }
}

// Puts a pair in that is not in the list, of cells that are not held yet; often
// it takes the place of a held pair, and lies next to an entry of the list.
fn add_absent_pair(random: &mut Random, pairing: &mut Form, list: &Form) {
    if !pairing.entries.is_empty() && random.once_in(2) {
        let place = random.place(pairing.entries.len());
        pairing.entries.remove(place);
    }
    for _ in 0..24 {
        let (a, b) = pair_near_the_list(random, list);
        let held = pairing.entries.iter().any(|pair| {
            [pair[0], pair[1]]
                .iter()
                .any(|&cell| cell == a || cell == b)
        });
        let listed = list
            .entries
            .iter()
            .any(|entry| (entry[0], entry[1]) == (a, b));
        if a < b && b < list.n && !held && !listed {
            add_sorted(pairing, [a, b, 0]);
            return;
        }
    }
    pairing.count();
}

// Two cells: any, or those of an entry with one of them changed.
fn pair_near_the_list(random: &mut Random, list: &Form) -> (u64, u64) {
    let any = (random.below(list.n), random.below(list.n));
    let entry = list.entries.get(random.place(list.entries.len()));
    match (entry, random.below(6)) {
        (Some(&[a, b, _]), 0) => (a, b + 1),
        (Some(&[a, b, _]), 1) => (a, b.saturating_sub(1)),
        (Some(&[a, b, _]), 2) => (a + 1, b),
        (Some(&[a, b, _]), 3) => (a.saturating_sub(1), b),
        (Some(&[a, _, _]), 4) => (a, any.1),
        _ => any,
    }
}

// Adds an entry of the list that has a cell in common with a held pair: b with
// b, a with b or b with a, but never a with a, which is an order fault.
fn add_touching_pair(random: &mut Random, pairing: &mut Form, list: &Form) {
    if pairing.entries.is_empty() {
        if let Some(&entry) = list.entries.get(random.place(list.entries.len())) {
            add_sorted(pairing, entry);
        }
    }
    let lower: BTreeSet<u64> = pairing.entries.iter().map(|pair| pair[0]).collect();
    let upper: BTreeSet<u64> = pairing.entries.iter().map(|pair| pair[1]).collect();
    let mut manners: [Vec<Entry>; 3] = Default::default();
    for &entry in list
        .entries
        .iter()
        .filter(|entry| !lower.contains(&entry[0]))
    {
        let [a, b, _] = entry;
        let touches = [upper.contains(&b), upper.contains(&a), lower.contains(&b)];
        for (manner, _) in manners
            .iter_mut()
            .zip(touches)
            .filter(|(_, touches)| *touches)
        {
            manner.push(entry);
        }
    }
    let found: Vec<&Vec<Entry>> = manners.iter().filter(|manner| !manner.is_empty()).collect();
    if !found.is_empty() {
        let manner = found[random.place(found.len())];
        add_sorted(pairing, manner[random.place(manner.len())]);
    }
}

/// Adds the pair of an entry where the order by a puts it.
pub fn add_sorted(pairing: &mut Form, [a, b, _]: Entry) {
    pairing.entries.push([a, b, 0]);
    pairing.entries.sort();
    pairing.count();
}

// Faults of any file

// Turns one bit round, anywhere; in the first bytes more often.
fn flip_a_bit(random: &mut Random, bytes: &mut [u8]) {
    let reach = if random.once_in(3) {
        bytes.len().min(16)
    } else {
        bytes.len()
    };
    let place = random.place(reach);
    if let Some(byte) = bytes.get_mut(place) {
        *byte ^= 1 << random.below(8);
    }
}

/// Random bytes of random length, now and then behind a header that is right for n cells.
pub fn random_file(random: &mut Random, whole: &Form) -> Vec<u8> {
    let count = random.place(12);
    if random.once_in(2) {
        return bytes_between(random, 0, 64);
    }
    let mut form = whole.clone();
    form.entries = Vec::new();
    form.m = count as u64;
    form.extra = random.bytes(count * form.entry_bytes());
    form.bytes()
}

// Good and bad files, mixed

/// The bytes of a list as it is, or spoiled: for one refusal, for two, for all,
/// by a bit, or no list at all.
pub fn good_or_bad_list(random: &mut Random, mut list: Form) -> Vec<u8> {
    match random.below(100) {
        0..=59 => {}
        60..=75 => spoil_list_for(random, &mut list, 1),
        76..=87 => spoil_list_for(random, &mut list, 2),
        88..=90 => spoil_list_for(random, &mut list, 5),
        91..=95 => return with_bits_flipped(random, list.bytes()),
        96..=97 => return random_file(random, &list),
        98 => list.keep = Some(random.place(5)),
        _ => return valid_pairing(random, &list).bytes(),
    }
    list.bytes()
}

/// The bytes of a list as it is, three times of four as `good_or_bad_list` has
/// it; once in a while only out of order, which other faults would hide.
pub fn seldom_bad_list(random: &mut Random, mut list: Form) -> Vec<u8> {
    if random.once_in(4) {
        return list.bytes();
    }
    if random.once_in(16) {
        spoil_order(random, &mut list);
        return list.bytes();
    }
    good_or_bad_list(random, list)
}

// Spoils a list for so many of the refusals 2 to 6. The header comes last, so
// that what aims at entries still sees the header they were made for.
fn spoil_list_for(random: &mut Random, list: &mut Form, count: usize) {
    let mut numbers = vec![6, 5, 4, 3, 2];
    while numbers.len() > count {
        numbers.remove(random.place(numbers.len()));
    }
    for number in numbers {
        spoil_list(random, list, number);
    }
}

/// The bytes of a pairing drawn from a valid list as it is, or spoiled, or of no
/// pairing of this list at all.
pub fn good_or_bad_pairing(random: &mut Random, list: &Form) -> Vec<u8> {
    let mut pairing = valid_pairing(random, list);
    match random.below(100) {
        0..=49 => {}
        50..=64 => spoil_pairing(random, &mut pairing, list, 9),
        65..=81 => spoil_pairing(random, &mut pairing, list, 10),
        82..=87 => {
            spoil_pairing(random, &mut pairing, list, 10);
            spoil_pairing(random, &mut pairing, list, 9);
        }
        88..=93 => return with_bits_flipped(random, pairing.bytes()),
        94..=96 => return random_file(random, &pairing),
        97 => pairing.keep = Some(random.place(5)),
        98 => return list.bytes(),
        _ => {
            let other = valid_list(random);
            return valid_pairing(random, &other).bytes();
        }
    }
    pairing.bytes()
}

/// The bytes with one bit turned round, seldom two.
pub fn with_bits_flipped(random: &mut Random, mut bytes: Vec<u8>) -> Vec<u8> {
    flip_a_bit(random, &mut bytes);
    if random.once_in(4) {
        flip_a_bit(random, &mut bytes);
    }
    bytes
}

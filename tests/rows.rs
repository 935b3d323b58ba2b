//! Worked rows of replay and reduce: calls with the answers that the document
//! gives or that follow from its words by hand. Lists are written as there.

use crate::graph::{Named, CHAIN, LEAF, RING};
use crate::inputs::{Entry, Form};
use crate::reference::{self, Answer, Pair, WORK_WORDS};
use crate::slips;

/// A call with its answer. `room` is that of each output; without it there is
/// exactly as much as the files need, or plenty where the call is refused.
pub struct Row {
    pub name: String,
    pub files: Vec<Vec<u8>>,
    pub work: [usize; 2],
    pub room: Vec<usize>,
    pub answer: Answer,
}

/// More room than any file needs.
pub const PLENTY: usize = 40_000;

impl Row {
    /// A row with work buffers that are long enough.
    pub fn new(name: &str, files: Vec<Vec<u8>>, outputs: usize, answer: Answer) -> Row {
        let room = match &answer {
            Ok(written) => written.iter().map(Vec::len).collect(),
            Err(_) => vec![PLENTY; outputs],
        };
        Row {
            name: name.to_string(),
            files,
            work: [WORK_WORDS; 2],
            room,
            answer,
        }
    }
}

// Notation

/// Pairs with points, written a-b:points and separated by commas.
pub fn pairs(text: &str) -> Vec<(Pair, u64)> {
    let number = |word: &str| word.trim().parse::<u64>().expect("a number");
    let pair = |word: &str| {
        let (cells, points) = word.split_once(':').expect("points");
        let (a, b) = cells.split_once('-').expect("two cells");
        ((number(a), number(b)), number(points))
    };
    text.split(',')
        .filter(|word| !word.is_empty())
        .map(pair)
        .collect()
}

/// The list of these pairs.
pub fn list(n: u64, text: &str) -> Vec<u8> {
    let entries = pairs(text).into_iter().map(|((a, b), p)| [a, b, p]);
    Form::list(n, entries.collect()).bytes()
}

/// The raw list of these pairs.
pub fn raw_list(n: u64, text: &str) -> Vec<u8> {
    of_raw_kind(&list(n, text))
}

/// A file with its kind changed to 6, that of a raw list.
pub fn of_raw_kind(file: &[u8]) -> Vec<u8> {
    [&[0x60 | file[0] & 0x0F], &file[1..]].concat()
}

// Steps, written as rule and cell and separated by commas.
fn steps(text: &str) -> Vec<Named> {
    let step = |word: &str| {
        let (name, cell) = word.trim().split_once(' ').expect("rule and cell");
        Named::new(rule(name), cell.parse().expect("a cell"))
    };
    text.split(',')
        .filter(|word| !word.is_empty())
        .map(step)
        .collect()
}

/// The rule of this name, or of this number.
pub fn rule(name: &str) -> u64 {
    match name {
        "leaf" => LEAF,
        "ring" => RING,
        "chain" => CHAIN,
        _ => name.parse().expect("a rule"),
    }
}

/// The slip of these steps.
pub fn slip(n: u64, text: &str) -> Vec<u8> {
    reference::slip_file(n, &steps(text))
}

// The short list of these pairs and carried points.
fn short(n: u64, carried: u64, text: &str) -> Vec<u8> {
    reference::short_list_file(n, carried, &pairs(text))
}

/// All pairs of so many cells, each of one point.
pub fn all_pairs(cells: u64) -> String {
    let pairs = (0..cells).flat_map(|a| (a + 1..cells).map(move |b| format!("{a}-{b}:1")));
    pairs.collect::<Vec<_>>().join(",")
}

// Files in bytes, so that the layout is fixed

/// The first list, 0-1:10, 1-2:1, 2-3:10.
pub const FIRST_LIST: [u8; 19] = [
    0x10, 0x08, 0x00, 0x30, 0x00, 0x00, 0x10, 0x00, 0x0A, 0x00, 0x40, 0x20, 0x00, 0x01, 0x00, 0x80,
    0x30, 0x00, 0x0A,
];
/// Leaf 0, leaf 2; and the short list after them, empty, carried 20.
pub const TWO_LEAVES: [u8; 8] = [0x30, 0x08, 0x00, 0x20, 0x04, 0x00, 0x04, 0x02];
const AFTER_TWO_LEAVES: [u8; 12] = [0x20, 0x08, 0, 0, 0, 0, 0, 0, 0, 0, 0, 0x14];
/// Chain 1; and the short list after it, 0-1:9, 0-3:19, 1-3:9, carried 1.
pub const CHAIN_ONE: [u8; 6] = [0x30, 0x08, 0x00, 0x10, 0x0C, 0x01];
const AFTER_CHAIN_ONE: [u8; 36] = [
    0x20, 0x08, 0x00, 0x30, 0, 0, 0, 0, 0, 0, 0, 0x01, // header and carried points
    0x00, 0x00, 0x10, 0, 0, 0, 0, 0x09, // 0-1:9
    0x00, 0x00, 0x30, 0, 0, 0, 0, 0x13, // 0-3:19
    0x00, 0x40, 0x30, 0, 0, 0, 0, 0x09, // 1-3:9
];
/// Ring 1; 0-1023:7 of 1,024 cells, leaf 0, and the short list after it.
pub const RING_ONE: [u8; 6] = [0x30, 0x06, 0x00, 0x10, 0x08, 0x01];
pub const WIDE_LIST: [u8; 9] = [0x18, 0x00, 0x00, 0x10, 0x00, 0x3F, 0xF0, 0x00, 0x07];
pub const WIDE_LEAF: [u8; 6] = [0x38, 0x00, 0x00, 0x10, 0x07, 0xFF];
const AFTER_WIDE_LEAF: [u8; 12] = [0x28, 0, 0, 0, 0, 0, 0, 0, 0, 0, 0, 0x07];
/// The short list of 1,024 cells, empty, carried 536,870,400.
const AFTER_COUPLES: [u8; 12] = [0x28, 0, 0, 0, 0, 0, 0, 0, 0x1F, 0xFF, 0xFE, 0];

// Reduce

/// The rows of reduce: outputs are the slip and the short list.
pub fn reduce_rows() -> Vec<Row> {
    let mut rows = reduce_rows_of_lists();
    rows.extend(reduce_rows_of_size());
    rows.extend(reduce_rows_of_refusals());
    rows.extend(rows_of_buffers(
        vec![FIRST_LIST.to_vec()],
        vec![TWO_LEAVES.to_vec(), AFTER_TWO_LEAVES.to_vec()],
    ));
    rows
}

// Reducing the list of a text gives the steps of a text, so much carried and a short list.
fn reduced(n: u64, text: &str, taken: &str, carried: u64, left: &str) -> Row {
    let written = vec![slip(n, taken), short(n, carried, left)];
    Row::new(text, vec![list(n, text)], 2, Ok(written))
}

// Lists of a few cells.
fn reduce_rows_of_lists() -> Vec<Row> {
    let single_cells = "0-2:1, 0-3:1, 0-4:1, 1-2:1, 1-3:1, 1-4:1";
    let two_rings = "0-5:1, 0-6:1, 1-2:1, 1-3:1, 2-3:1, 5-6:1";
    let chain_of_rings = "0-1:10, 0-2:10, 1-3:10, 2-4:5, 2-5:4, 3-6:9, 3-7:9, 4-5:3, 6-7:1";
    let taken_of_it = "ring 4, leaf 4, leaf 2, leaf 0, leaf 1, ring 6";
    vec![
        Row::new(
            "the first list in bytes",
            vec![FIRST_LIST.to_vec()],
            2,
            Ok(vec![TWO_LEAVES.to_vec(), AFTER_TWO_LEAVES.to_vec()]),
        ),
        reduced(3, "0-1:3, 1-2:8", "leaf 0, leaf 1", 8, ""),
        reduced(3, "0-1:5, 0-2:4, 1-2:3", "ring 1, leaf 0", 5, ""),
        reduced(4, "0-1:5, 0-3:5, 1-2:5, 2-3:5", "ring 1, leaf 0", 10, ""),
        reduced(0, "", "", 0, ""),
        reduced(5, "", "", 0, ""),
        reduced(2, "0-1:0", "", 0, ""),
        // The lower z and not the lower cell comes first, although its ring's pair is zero.
        reduced(7, two_rings, "ring 2, ring 5", 2, ""),
        reduced(3, "0-1:1, 0-2:1, 1-2:1", "ring 1", 1, ""),
        // A ring comes before a chain of a lower z.
        reduced(8, chain_of_rings, taken_of_it, 24, ""),
        // The search starts again at cell 0, with leaves.
        reduced(4, "0-2:5, 0-3:5, 1-2:9", "leaf 1, leaf 0", 14, ""),
        // No chain has one inner cell.
        reduced(5, single_cells, "", 0, single_cells),
        reduced(4, &all_pairs(4), "", 0, &all_pairs(4)),
        reduced(12, &all_pairs(12), "", 0, &all_pairs(12)),
        reduced(13, &all_pairs(13), "", 0, &all_pairs(13)),
    ]
}

/// The pairs of 1,024 cells in order, so many of them, each of one point.
pub fn first_pairs(count: usize) -> Vec<Entry> {
    let pairs = (0..1024).flat_map(|a| (a + 1..1024).map(move |b| [a, b, 1]));
    pairs.take(count).collect()
}

/// A path of 1,024 cells with the points 1, 2, 3 and so on.
pub fn rising_path() -> Vec<u8> {
    let entries = (1..1024).map(|cell| [cell - 1, cell, cell]);
    Form::list(1024, entries.collect()).bytes()
}

/// Leaf 0, leaf 1 and so on, as many as a slip of 1,024 cells can have.
pub fn leaves_of_path() -> Vec<u8> {
    let leaves = (0..1023).map(|cell| Named::new(LEAF, cell));
    reference::slip_file(1024, &leaves.collect::<Vec<_>>())
}

// The largest lists.
fn reduce_rows_of_size() -> Vec<Row> {
    let full = first_pairs(4096);
    let left: Vec<(Pair, u64)> = full.iter().map(|&[a, b, p]| ((a, b), p)).collect();
    // Every cell of them has pairs with cells 0 to 3, so that no step is allowed.
    let full_written = vec![slip(1024, ""), reference::short_list_file(1024, 0, &left)];
    let couples: Vec<Entry> = (0..512).map(|c| [2 * c, 2 * c + 1, 1_048_575]).collect();
    let leaves = couples.iter().map(|&[cell, ..]| Named::new(LEAF, cell));
    let couples_slip = reference::slip_file(1024, &leaves.collect::<Vec<_>>());
    vec![
        Row::new(
            "m = 4,096",
            vec![Form::list(1024, full).bytes()],
            2,
            Ok(full_written),
        ),
        Row::new(
            "m = 4,097",
            vec![Form::list(1024, first_pairs(4097)).bytes()],
            2,
            Err(3),
        ),
        Row::new(
            "512 pairs of the largest points",
            vec![Form::list(1024, couples).bytes()],
            2,
            Ok(vec![couples_slip, AFTER_COUPLES.to_vec()]),
        ),
        // Each leaf leaves the next pair something; the odd points, 512 x 512, are the heaviest.
        Row::new(
            "a path of 1,024 cells with rising points",
            vec![rising_path()],
            2,
            Ok(vec![leaves_of_path(), short(1024, 262_144, "")]),
        ),
        reduced(1024, "0-1023:7", "leaf 0", 7, ""),
    ]
}

// Lists that are refused.
fn reduce_rows_of_refusals() -> Vec<Row> {
    let refused = |name: &str, list: Vec<u8>, number| Row::new(name, vec![list], 2, Err(number));
    vec![
        refused("no list", vec![], 2),
        refused("a slip for a list", TWO_LEAVES.to_vec(), 2),
        refused("a raw list", of_raw_kind(&FIRST_LIST), 2),
        refused("n = 1,025", list(1025, "0-1023:7"), 3),
        refused("a byte too many", [&FIRST_LIST[..], &[0]].concat(), 4),
        refused("n = 1,023 with cell 1,023", list(1023, "0-1023:7"), 5),
        refused("5 before 6", list(4, "1-2:1, 0-1:1, 3-3:1"), 5),
        refused("an entry twice", list(4, "0-1:1, 0-1:1"), 6),
    ]
}

// Replay

/// The rows of replay: the output is the short list.
pub fn replay_rows() -> Vec<Row> {
    let mut rows = replay_rows_of_bytes();
    rows.extend(replay_rows_of_slips());
    rows.extend(replay_rows_of_chains());
    rows.extend(replay_rows_of_refusals());
    rows.extend(rows_of_buffers(
        vec![FIRST_LIST.to_vec(), CHAIN_ONE.to_vec()],
        vec![AFTER_CHAIN_ONE.to_vec()],
    ));
    rows
}

// Rows written byte by byte.
fn replay_rows_of_bytes() -> Vec<Row> {
    let row = |name: &str, list: &[u8], slip: &[u8], left: &[u8]| {
        let files = vec![list.to_vec(), slip.to_vec()];
        Row::new(name, files, 1, Ok(vec![left.to_vec()]))
    };
    vec![
        row(
            "first list, leaf 0, leaf 2",
            &FIRST_LIST,
            &TWO_LEAVES,
            &AFTER_TWO_LEAVES,
        ),
        row(
            "first list, chain 1",
            &FIRST_LIST,
            &CHAIN_ONE,
            &AFTER_CHAIN_ONE,
        ),
        row(
            "0-1023:7, leaf 1023",
            &WIDE_LIST,
            &WIDE_LEAF,
            &AFTER_WIDE_LEAF,
        ),
        row(
            "a path of 1,024 cells with rising points",
            &rising_path(),
            &leaves_of_path(),
            &short(1024, 262_144, ""),
        ),
        row(
            "0-1:5, 0-2:4, 1-2:3, ring 1",
            &list(3, "0-1:5, 0-2:4, 1-2:3"),
            &RING_ONE,
            &short(3, 3, "0-1:2"),
        ),
    ]
}

// Replaying a slip over a list leaves a short list, with so much carried.
fn replayed(n: u64, text: &str, taken: &str, carried: u64, left: &str) -> Row {
    let name = format!("{text}; {taken}");
    let files = vec![list(n, text), slip(n, taken)];
    Row::new(&name, files, 1, Ok(vec![short(n, carried, left)]))
}

// Replaying a slip over a list is refused.
fn not_replayed(n: u64, text: &str, taken: &str, number: u32) -> Row {
    let name = format!("{text}; {taken}");
    let files = vec![list(n, text), slip(n, taken)];
    Row::new(&name, files, 1, Err(number))
}

pub const FIRST: &str = "0-1:10, 1-2:1, 2-3:10";
pub const TRIANGLE: &str = "0-1:5, 0-2:4, 1-2:3";

// Slips of leaves and rings, in any order, that stop early or do not.
fn replay_rows_of_slips() -> Vec<Row> {
    let square = "0-1:5, 0-3:5, 1-2:5, 2-3:5";
    let ring_at_four = "0-4:1, 4-5:5, 4-7:5, 5-6:5, 6-7:5";
    vec![
        replayed(0, "", "", 0, ""),
        replayed(2, "0-1:0", "", 0, ""),
        replayed(4, FIRST, "", 0, FIRST),
        replayed(4, FIRST, "leaf 0", 10, "2-3:10"),
        replayed(4, FIRST, "leaf 3, leaf 1", 20, ""),
        // Both cells of a lone pair are leaves.
        replayed(2, "0-1:7", "leaf 0", 7, ""),
        replayed(2, "0-1:7", "leaf 1", 7, ""),
        replayed(3, "0-1:3, 1-2:8", "leaf 0", 3, "1-2:5"),
        replayed(3, "0-1:3, 1-2:8", "leaf 0, leaf 1", 8, ""),
        replayed(3, TRIANGLE, "ring 1", 3, "0-1:2"),
        replayed(3, TRIANGLE, "ring 1, leaf 1", 5, ""),
        replayed(4, square, "ring 1, leaf 0", 10, ""),
        replayed(3, "0-1:1, 0-2:1, 1-2:1", "ring 1", 1, ""),
        replayed(8, ring_at_four, "ring 5", 5, "0-4:1, 4-5:5"),
        // A row whose two ends are the same cell is a ring.
        replayed(4, "0-1:1, 1-2:5, 1-3:4, 2-3:3", "ring 2", 3, "0-1:1, 1-2:2"),
    ]
}

// Slips of chains.
fn replay_rows_of_chains() -> Vec<Row> {
    let largest = "0-1:1048575, 1-2:1, 2-3:1048575";
    let largest_left = "0-1:1048574, 0-3:2097149, 1-3:1048574";
    let heavier = "0-1:10, 0-3:25, 0-4:1, 1-2:1, 2-3:10, 3-5:1";
    let heavier_left = "0-1:9, 0-3:25, 0-4:1, 1-3:9, 3-5:1";
    let equal = "0-1:10, 0-3:19, 0-4:1, 1-2:1, 2-3:10, 3-5:1";
    let lighter = "0-1:10, 0-3:18, 0-4:1, 1-2:1, 2-3:10, 3-5:1";
    let equal_left = "0-1:9, 0-3:19, 0-4:1, 1-3:9, 3-5:1";
    vec![
        replayed(4, largest, "chain 1", 1, largest_left),
        replayed(6, heavier, "chain 1", 1, heavier_left),
        replayed(6, equal, "chain 1", 1, equal_left),
        replayed(6, lighter, "chain 1", 1, equal_left),
        // Pairs that come out zero leave in the same step.
        replayed(4, "0-1:1, 1-2:10, 2-3:1", "chain 1", 10, ""),
        replayed(4, "0-1:2, 1-2:3, 2-3:5", "chain 1", 3, "0-3:4, 1-3:2"),
        // Cell z lies below both ends.
        replayed(
            4,
            "0-1:1, 0-2:9, 1-3:9",
            "chain 0",
            1,
            "0-2:8, 0-3:8, 2-3:17",
        ),
        // What the chain made is a ring of degree two.
        replayed(4, FIRST, "chain 1, ring 1", 10, "0-1:10"),
    ]
}

// Slips that are refused.
fn replay_rows_of_refusals() -> Vec<Row> {
    let refused = |name: &str, slip: Vec<u8>, number| {
        Row::new(name, vec![FIRST_LIST.to_vec(), slip], 1, Err(number))
    };
    let many = vec![Named::new(LEAF, 0); 8191];
    let not_allowed = slip(4, "leaf 1");
    let mut without_room = refused("8 before 12", not_allowed, 8);
    without_room.room = vec![0];
    let mut zero_bit = slips::form(4, &steps("leaf 0"));
    zero_bit.zero = 1;
    let raw_and_slip = vec![of_raw_kind(&FIRST_LIST), TWO_LEAVES.to_vec()];
    vec![
        Row::new("a raw list", raw_and_slip, 1, Err(2)),
        refused("a slip of kind 6", of_raw_kind(&TWO_LEAVES), 7),
        // Only the very cell that the rule calls v or z is right.
        not_replayed(4, FIRST, "chain 2", 8),
        not_replayed(4, FIRST, "leaf 1", 8),
        not_replayed(4, FIRST, "ring 1", 8),
        not_replayed(3, TRIANGLE, "ring 0", 8),
        not_replayed(3, TRIANGLE, "ring 2", 8),
        not_replayed(4, "0-1:1, 1-2:5, 1-3:4, 2-3:3", "chain 2", 8),
        not_replayed(3, "0-1:1, 1-2:1", "chain 1", 8),
        not_replayed(2, "0-1:0", "leaf 0", 8),
        not_replayed(4, FIRST, "leaf 0, leaf 0", 8),
        not_replayed(4, FIRST, "leaf 4", 8),
        not_replayed(4, FIRST, "leaf 1023", 8),
        // A rule that is none comes before a step that is not allowed.
        not_replayed(4, FIRST, "leaf 1, 4 0", 7),
        not_replayed(4, FIRST, "leaf 0, 0 2", 7),
        not_replayed(4, FIRST, "63 0", 7),
        not_replayed(4, "1-2:1, 0-1:1", "63 0", 6),
        refused("another n", slip(5, "leaf 0"), 7),
        refused("no slip", vec![], 7),
        refused("three bytes", TWO_LEAVES[..3].to_vec(), 7),
        refused("a byte missing", TWO_LEAVES[..7].to_vec(), 7),
        refused("a step missing", TWO_LEAVES[..6].to_vec(), 7),
        refused("a list for a slip", FIRST_LIST.to_vec(), 7),
        refused("a header zero bit", zero_bit.bytes(), 7),
        refused("8,191 steps", reference::slip_file(4, &many), 8),
        without_room,
    ]
}

// Buffers

/// An accepted call with work buffers and outputs of several lengths.
pub fn rows_of_buffers(files: Vec<Vec<u8>>, written: Vec<Vec<u8>>) -> Vec<Row> {
    let mut rows = Vec::new();
    for short_by in [0, 1] {
        for output in 0..written.len() {
            for words in [WORK_WORDS, WORK_WORDS - 1] {
                let mut room: Vec<usize> = written.iter().map(Vec::len).collect();
                room[output] -= short_by;
                rows.push(Row {
                    name: format!("output {output} short by {short_by}, {words} words"),
                    files: files.clone(),
                    work: [words, WORK_WORDS + 5],
                    room,
                    answer: match (words < WORK_WORDS, short_by > 0) {
                        (true, _) => Err(1),
                        (_, true) => Err(12),
                        _ => Ok(written.clone()),
                    },
                });
            }
        }
    }
    let outputs = written.len();
    let mut no_room = Row::new("no outputs", files, outputs, Err(12));
    no_room.room = vec![0; outputs];
    rows.push(no_room);
    rows
}

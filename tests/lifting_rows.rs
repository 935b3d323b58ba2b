//! Worked rows of solve, lift and pair: calls with the answers that the
//! document gives or that follow from its words by hand. Lists, slips and
//! pairings are written as there, a pairing with its origins as
//! `0-3 short, 1-2 step 1 chain`.

use crate::graph::{CHAIN, LEAF, RING};
use crate::inputs::{Entry, Form};
use crate::lifting::Origin;
use crate::reference::{self, Pair};
use crate::rows::{
    self, all_pairs, first_pairs, list, of_raw_kind, slip, Row, FIRST, FIRST_LIST, PLENTY, TRIANGLE,
};

// Notation

// Pairs, written a-b and separated by commas.
fn cells(text: &str) -> Vec<Pair> {
    let with_points = text.split(',').filter(|word| !word.trim().is_empty());
    let with_points: Vec<String> = with_points.map(|word| format!("{word}:0")).collect();
    let pairs = rows::pairs(&with_points.join(","));
    pairs.into_iter().map(|(pair, _)| pair).collect()
}

// The pairing of these pairs.
fn pairing(n: u64, text: &str) -> Vec<u8> {
    reference::pairing_file(n, &cells(text))
}

// A pairing and its origin list: each pair is written with `short`, or with
// `step`, the step's number and its rule.
fn with_origins(n: u64, text: &str) -> Vec<Vec<u8>> {
    let origin = |words: &[&str]| match words {
        ["short"] => Origin::Short,
        ["step", number, rule] => Origin::Step {
            number: number.parse().expect("a step's number"),
            rule: rows::rule(rule),
        },
        _ => panic!("no origin: {words:?}"),
    };
    let pair_and_origin = |part: &str| {
        let words: Vec<&str> = part.split_whitespace().collect();
        (cells(words[0])[0], origin(&words[1..]))
    };
    let parts = text.split(',').filter(|part| !part.trim().is_empty());
    let pairs: Vec<(Pair, Origin)> = parts.map(pair_and_origin).collect();
    reference::lifted_files(n, &pairs)
}

// Each even cell with the next one, so many pairs in n cells.
fn first_couples(n: u64, count: u64) -> Vec<u8> {
    let pairs = (0..count).map(|couple| (2 * couple, 2 * couple + 1));
    reference::pairing_file(n, &pairs.collect::<Vec<_>>())
}

// The same, up to all cells.
fn couples(n: u64) -> Vec<u8> {
    first_couples(n, n / 2)
}

// The first so many of these pairs in n cells and their origin list, from the origin
// of each by its place, the first being 0.
fn couples_from(n: u64, count: u64, origin: impl Fn(u64) -> Origin) -> Vec<Vec<u8>> {
    let pairs = (0..count).map(|couple| ((2 * couple, 2 * couple + 1), origin(couple)));
    reference::lifted_files(n, &pairs.collect::<Vec<_>>())
}

// From the leaf step of this number.
fn leaf_step(number: u64) -> Origin {
    Origin::Step { number, rule: LEAF }
}

// 512 pairs that have no cell in common, of the largest points.
fn list_of_couples() -> Vec<u8> {
    let entries = (0..512).map(|couple| [2 * couple, 2 * couple + 1, 1_048_575]);
    Form::list(1024, entries.collect()).bytes()
}

// All pairs of so many cells with so many points each.
fn all_pairs_of(cells: u64, points: u64) -> Vec<Entry> {
    let pairs = (0..cells).flat_map(|a| (a + 1..cells).map(move |b| [a, b, points]));
    pairs.collect()
}

// Lists of groups

// The cells of groups of these sizes, one group after the other.
fn blocks(sizes: &[u64]) -> Vec<Vec<u64>> {
    let mut first = 0;
    let mut block = |&cells: &u64| {
        first += cells;
        (first - cells..first).collect()
    };
    sizes.iter().map(&mut block).collect()
}

// The cells of so many groups of so many cells, by turns: the first cells of all the
// groups come first.
fn by_turns(groups: u64, cells: u64) -> Vec<Vec<u64>> {
    let group = |first: u64| (0..cells).map(|place| first + place * groups).collect();
    (0..groups).map(group).collect()
}

// The list of entries of n cells, in order.
fn list_of(n: u64, mut entries: Vec<Entry>) -> Vec<u8> {
    entries.sort();
    Form::list(n, entries).bytes()
}

// All pairs of each group, one point each.
fn all_pairs_within(groups: &[Vec<u64>]) -> Vec<Entry> {
    let within = |cells: &Vec<u64>| -> Vec<Entry> {
        let pairs = all_pairs_of(cells.len() as u64, 1).into_iter();
        let cell = |place: u64| cells[place as usize];
        pairs
            .map(|[a, b, points]| [cell(a), cell(b), points])
            .collect()
    };
    groups.iter().flat_map(within).collect()
}

// The list of all pairs of 12 cells twice over and of other entries, in n cells.
fn twice_over_and(n: u64, others: &str) -> Vec<u8> {
    let others = rows::pairs(others).into_iter();
    let mut entries = all_pairs_within(&blocks(&[12, 12]));
    entries.extend(others.map(|((a, b), points)| [a, b, points]));
    list_of(n, entries)
}

// The list of all pairs of each of these groups, in as many cells as they have.
fn list_within(groups: &[Vec<u64>]) -> Vec<u8> {
    list_of(groups.concat().len() as u64, all_pairs_within(groups))
}

// The list of a path through the cells of each group, one point each.
fn paths_through(groups: &[Vec<u64>]) -> Vec<u8> {
    let pair = |two: &[u64]| [two[0].min(two[1]), two[0].max(two[1]), 1];
    let entries = groups.iter().flat_map(|cells| cells.windows(2).map(pair));
    list_of(groups.concat().len() as u64, entries.collect())
}

// 0, then the highest of so many cells and on down to 1: a path that the order of the
// entries goes against.
fn down_to_one(cells: u64) -> Vec<u64> {
    [0].into_iter().chain((1..cells).rev()).collect()
}

/// What joins all pairs of 12 cells to 12 others: a cell with a leaf, a cell with a
/// ring, and a chain; each goes with the steps that take it.
const BY_LEAF: &str = "0-24:1, 12-24:1, 24-25:1";
const BY_RING: &str = "11-24:1, 12-24:1, 24-25:5, 24-26:1, 25-26:1";
const BY_CHAIN: &str = "11-24:1, 12-25:1, 24-25:2";

// Lists

const SQUARE: &str = "0-1:5, 0-3:5, 1-2:5, 2-3:5";
/// A chain from 0 over 1 and 2 to 3, and a direct pair that is heavier, equal, lighter.
const HEAVIER: &str = "0-1:10, 0-3:25, 0-4:1, 1-2:1, 2-3:10, 3-5:1";
const EQUAL: &str = "0-1:10, 0-3:19, 0-4:1, 1-2:1, 2-3:10, 3-5:1";
const LIGHTER: &str = "0-1:10, 0-3:18, 0-4:1, 1-2:1, 2-3:10, 3-5:1";
const ZERO_DIRECT: &str = "0-1:10, 0-3:0, 1-2:1, 2-3:10";
const LARGEST: &str = "0-1:1048575, 1-2:1, 2-3:1048575";
/// A ring of equal points, 4, 5, 6, 7, at a cell that has a lower partner elsewhere.
const RING_AT_FOUR: &str = "0-4:1, 4-5:5, 4-7:5, 5-6:5, 6-7:5";
/// A ring read 0, 3, 2, 5.
const RING_TO_THREE: &str = "0-3:1, 0-5:1, 2-3:1, 2-5:1";
/// A chain read 0, 5, 4, 3, 1.
const CHAIN_FROM_FIVE: &str = "0-5:1, 1-3:1, 3-4:1, 4-5:1";
/// A chain read 0, 1, 2, 3, 4, 5 whose inner pairs are equal.
const HEAVY_ENDS: &str = "0-1:2, 1-2:1, 2-3:1, 3-4:1, 4-5:2";
/// Two chains between 0 and 3, over 1 and 2 and over 4 and 5, and a direct pair that
/// is heavier than both, or equal to each.
const TWO_CHAINS: &str = "0-1:10, 0-3:25, 0-4:10, 1-2:1, 2-3:10, 3-5:10, 4-5:1";
const TWO_EQUAL: &str = "0-1:10, 0-3:19, 0-4:10, 1-2:1, 2-3:10, 3-5:10, 4-5:1";
/// A chain that leaves nothing, beside a direct pair.
const LIGHT_CHAIN: &str = "0-1:1, 0-3:25, 0-4:1, 1-2:10, 2-3:1, 3-5:1";
/// Chains that come out with pairs of zero points.
const ALL_ZERO: &str = "0-1:1, 1-2:10, 2-3:1";
const ONE_ZERO: &str = "0-1:2, 1-2:3, 2-3:5";
/// A chain read 2, 0, 1, 3.
const LOW_INNER: &str = "0-1:1, 0-2:9, 1-3:9";
const EQUAL_TRIANGLE: &str = "0-1:1, 0-2:1, 1-2:1";
const TWO_RINGS: &str = "0-5:1, 0-6:1, 1-2:1, 1-3:1, 2-3:1, 5-6:1";
const SINGLE_CELLS: &str = "0-2:1, 0-3:1, 0-4:1, 1-2:1, 1-3:1, 1-4:1";
const CHAIN_OF_RINGS: &str = "0-1:10, 0-2:10, 1-3:10, 2-4:5, 2-5:4, 3-6:9, 3-7:9, 4-5:3, 6-7:1";

/// The first list's pairing, 0-1, 2-3.
const FIRST_PAIRING: [u8; 10] = [0x40, 0x08, 0x00, 0x20, 0x00, 0x00, 0x10, 0x00, 0x80, 0x30];
/// Its origins: step 1, leaf and step 2, leaf; and both step 1, chain.
const FROM_LEAVES: [u8; 14] = [
    0x50, 0x08, 0x00, 0x20, // kind 5, n = 4, m = 2
    0x00, 0x00, 0x10, 0x02, 0x40, // 0-1 step 1 leaf
    0x00, 0x80, 0x30, 0x04, 0x40, // 2-3 step 2 leaf
];
const FROM_CHAIN_ONE: [u8; 14] = [
    0x50, 0x08, 0x00, 0x20, // kind 5, n = 4, m = 2
    0x00, 0x00, 0x10, 0x02, 0xC0, // 0-1 step 1 chain
    0x00, 0x80, 0x30, 0x02, 0xC0, // 2-3 step 1 chain
];
/// Its pairing after chain 1, 0-3.
const ZERO_THREE: [u8; 7] = [0x40, 0x08, 0x00, 0x10, 0x00, 0x00, 0x30];
/// The pairing 0-1 of the triangle's three cells, and its origin, step 1, ring.
const ZERO_ONE: [u8; 7] = [0x40, 0x06, 0x00, 0x10, 0x00, 0x00, 0x10];
const FROM_RING_ONE: [u8; 9] = [0x50, 0x06, 0x00, 0x10, 0x00, 0x00, 0x10, 0x02, 0x80];
/// The pairing 0-1023 of 1,024 cells, its origin in the short pairing, and from step 1, leaf.
const WIDE_PAIRING: [u8; 7] = [0x48, 0x00, 0x00, 0x10, 0x00, 0x3F, 0xF0];
const WIDE_SHORT: [u8; 9] = [0x58, 0x00, 0x00, 0x10, 0x00, 0x3F, 0xF0, 0x00, 0x00];
const WIDE_LEAF_ONE: [u8; 9] = [0x58, 0x00, 0x00, 0x10, 0x00, 0x3F, 0xF0, 0x02, 0x40];

// Solve

/// The rows of solve: the output is a pairing of what the slip leaves.
pub fn solve_rows() -> Vec<Row> {
    let mut rows = solve_rows_of_lists();
    rows.extend(solve_rows_of_ties());
    rows.extend(solve_rows_of_twelve());
    rows.extend(solve_rows_of_groups());
    rows.extend(solve_rows_of_many_groups());
    rows.extend(solve_rows_of_refusals());
    rows.extend(rows::rows_of_buffers(
        vec![FIRST_LIST.to_vec(), rows::CHAIN_ONE.to_vec()],
        vec![ZERO_THREE.to_vec()],
    ));
    rows
}

// Solving what a slip leaves of a list gives a pairing.
fn solved(n: u64, text: &str, taken: &str, held: &str) -> Row {
    let name = format!("{text}; {taken}");
    let files = vec![list(n, text), slip(n, taken)];
    Row::new(&name, files, 1, Ok(vec![pairing(n, held)]))
}

// Lists of a few cells that have one heaviest pairing.
fn solve_rows_of_lists() -> Vec<Row> {
    vec![
        solved(4, FIRST, "", "0-1, 2-3"),
        solved(4, FIRST, "chain 1", "0-3"),
        solved(4, FIRST, "leaf 0", "2-3"),
        solved(4, FIRST, "leaf 0, leaf 2", ""),
        solved(4, FIRST, "chain 1, ring 1", "0-1"),
        solved(3, "0-1:3, 1-2:8", "", "1-2"),
        solved(3, "0-1:3, 1-2:8", "leaf 0", "1-2"),
        solved(4, "0-1:3, 1-2:8, 2-3:3", "", "1-2"),
        solved(3, TRIANGLE, "", "0-1"),
        solved(3, TRIANGLE, "ring 1", "0-1"),
        solved(4, LARGEST, "chain 1", "0-3"),
        solved(6, HEAVIER, "chain 1", "0-3"),
        solved(4, LOW_INNER, "chain 0", "2-3"),
        solved(4, ONE_ZERO, "chain 1", "0-3"),
        solved(4, ALL_ZERO, "chain 1", ""),
        solved(0, "", "", ""),
        solved(5, "", "", ""),
        solved(2, "0-1:0", "", ""),
        solved(1024, "0-1023:7", "", "0-1023"),
    ]
}

// Lists of several heaviest pairings: unpaired first, then the lower partner.
fn solve_rows_of_ties() -> Vec<Row> {
    vec![
        solved(3, EQUAL_TRIANGLE, "", "1-2"),
        // Not the tie of a row: that would take 0-1.
        solved(3, "0-1:1, 1-2:1", "", "1-2"),
        solved(3, "0-1:1, 0-2:1", "", "0-1"),
        solved(4, "0-1:4, 1-2:8, 2-3:4", "", "1-2"),
        solved(4, SQUARE, "", "0-1, 2-3"),
        solved(4, &all_pairs(4), "", "0-1, 2-3"),
        solved(5, SINGLE_CELLS, "", "0-2, 1-3"),
        solved(7, TWO_RINGS, "", "2-3, 5-6"),
        solved(6, CHAIN_FROM_FIVE, "", "1-3, 4-5"),
        solved(6, CHAIN_FROM_FIVE, "chain 3", "1-3"),
        solved(11, &all_pairs(11), "", "1-2, 3-4, 5-6, 7-8, 9-10"),
    ]
}

// A group of twelve cells is solved, one of thirteen is not.
fn solve_rows_of_twelve() -> Vec<Row> {
    let row = |name: &str, list: Vec<u8>, slip: Vec<u8>, answer| {
        Row::new(name, vec![list, slip], 1, answer)
    };
    let twelve = || Ok(vec![couples(12)]);
    let six_of = |n| reference::pairing_file(n, &cells("0-1, 2-3, 4-5, 6-7, 8-9, 10-11"));
    let with_leaf = || {
        let mut entries = all_pairs_of(12, 5);
        entries.push([0, 12, 1]);
        entries.sort();
        Form::list(13, entries).bytes()
    };
    let zeros = Form::list(13, all_pairs_of(13, 0)).bytes();
    let wide = Form::list(1024, all_pairs_of(12, 1)).bytes();
    vec![
        row("12 cells", list(12, &all_pairs(12)), slip(12, ""), twelve()),
        row("13 cells", list(13, &all_pairs(13)), slip(13, ""), Err(11)),
        row("12 of 1,024", wide, slip(1024, ""), Ok(vec![six_of(1024)])),
        row("13 with a leaf", with_leaf(), slip(13, ""), Err(11)),
        row(
            "12 after a leaf",
            with_leaf(),
            slip(13, "leaf 12"),
            Ok(vec![six_of(13)]),
        ),
        row(
            "13 cells, zero points",
            zeros,
            slip(13, ""),
            Ok(vec![pairing(13, "")]),
        ),
    ]
}

// Solving what a slip leaves of a list gives a pairing, or is refused.
fn solve_row(name: &str, list: Vec<u8>, taken: &str, answer: Result<Vec<u8>, u32>) -> Row {
    // The header's n stands behind four bits and has eleven.
    let n = u64::from(u16::from_be_bytes([list[0], list[1]])) >> 1 & 0x7FF;
    let answer = answer.map(|pairing| vec![pairing]);
    Row::new(name, vec![list, slip(n, taken)], 1, answer)
}

// Several groups: each is solved by itself, and 11 is by the largest.
fn solve_rows_of_groups() -> Vec<Row> {
    let row = solve_row;
    vec![
        solved(4, "0-3:1, 1-2:1", "", "0-3, 1-2"),
        // In each of two triangles by turns the lowest cell stays unpaired.
        solved(6, TURNED_TRIANGLES, "", "2-4, 3-5"),
        // 0-2 and 0-4 are equal, and so are 1-3 and 3-5: the lower partner, then unpaired.
        solved(6, "0-2:1, 0-4:1, 1-3:1, 3-5:1", "", "0-2, 3-5"),
        row(
            "12 cells twice over",
            twice_over_and(24, ""),
            "",
            Ok(couples(24)),
        ),
        row(
            "12 cells twice over, by turns",
            list_within(&by_turns(2, 12)),
            "",
            Ok(reference::pairing_file(24, &couples_by_turns(24))),
        ),
        row(
            "12 and 13 cells",
            list_within(&blocks(&[12, 13])),
            "",
            Err(11),
        ),
        row(
            "13 and 12 cells",
            list_within(&blocks(&[13, 12])),
            "",
            Err(11),
        ),
        row(
            "13 cells and a pair",
            list_within(&blocks(&[13, 2])),
            "",
            Err(11),
        ),
        row(
            "joined by a pair",
            twice_over_and(24, "11-12:1"),
            "",
            Err(11),
        ),
        row(
            "joined by an entry of zero points",
            twice_over_and(24, "11-12:0"),
            "",
            Ok(couples(24)),
        ),
        row("joined by a leaf", twice_over_and(26, BY_LEAF), "", Err(11)),
        row(
            "after the leaf",
            twice_over_and(26, BY_LEAF),
            "leaf 25",
            Ok(first_couples(26, 12)),
        ),
        row(
            "joined by a chain",
            twice_over_and(26, BY_CHAIN),
            "",
            Err(11),
        ),
        row(
            "after the chain",
            twice_over_and(26, BY_CHAIN),
            "chain 24",
            Ok(first_couples(26, 12)),
        ),
        row(
            "joined by a ring, which is a leaf now",
            twice_over_and(27, BY_RING),
            "ring 25",
            Err(11),
        ),
        row(
            "after the ring and its leaf",
            twice_over_and(27, BY_RING),
            "ring 25, leaf 25",
            Ok(first_couples(27, 12)),
        ),
    ]
}

const TURNED_TRIANGLES: &str = "0-2:1, 0-4:1, 1-3:1, 1-5:1, 2-4:1, 3-5:1";

// The couples of two groups of all pairs by turns: of the even cells 0-2, 4-6, and of the
// odd ones 1-3, 5-7, and so on.
fn couples_by_turns(n: u64) -> Vec<Pair> {
    let fours = (0..n / 4).map(|four| 4 * four);
    let pairs = fours.flat_map(|first| [(first, first + 2), (first + 1, first + 3)]);
    pairs.collect()
}

// As many groups as there can be, and long ones.
fn solve_rows_of_many_groups() -> Vec<Row> {
    let row = solve_row;
    // Each second pair of a path of 12 cells: no other six of its pairs make a pairing.
    let two_turns = (0..6).flat_map(|two| 170 * two..170 * two + 85);
    let of_paths: Vec<Pair> = two_turns.map(|cell| (cell, cell + 85)).collect();
    let down = pairing(12, "0-11, 1-2, 3-4, 5-6, 7-8, 9-10");
    let late = [vec![12; 60], vec![13]].concat();
    let mut without_room = row(
        "11 before 12 in the last group",
        list_within(&blocks(&late)),
        "",
        Err(11),
    );
    without_room.room = vec![0];
    vec![
        row("512 pairs", list_of_couples(), "", Ok(couples(1024))),
        row(
            "256 groups, all pairs of 4 cells",
            list_within(&blocks(&[4; 256])),
            "",
            Ok(couples(1024)),
        ),
        row(
            "85 paths of 12 cells by turns",
            paths_through(&by_turns(85, 12)),
            "",
            Ok(reference::pairing_file(1020, &of_paths)),
        ),
        row(
            "62 groups, all pairs of 12 cells",
            list_within(&blocks(&[12; 62])),
            "",
            Ok(couples(744)),
        ),
        row(
            "60 groups of 12 cells and one of 13",
            list_within(&blocks(&late)),
            "",
            Err(11),
        ),
        row(
            "a path of 12 cells down to 1",
            paths_through(&[down_to_one(12)]),
            "",
            Ok(down),
        ),
        row(
            "a path of 13 cells down to 1",
            paths_through(&[down_to_one(13)]),
            "",
            Err(11),
        ),
        row("a path of 1,024 cells", rows::rising_path(), "", Err(11)),
        without_room,
    ]
}

// Calls of solve that are refused.
fn solve_rows_of_refusals() -> Vec<Row> {
    let row = |name: &str, list: Vec<u8>, slip: Vec<u8>, number| {
        Row::new(name, vec![list, slip], 1, Err(number))
    };
    let thirteen = || list(13, &all_pairs(13));
    let mut eleven_without_room = row("11 before 12", thirteen(), slip(13, ""), 11);
    eleven_without_room.room = vec![0];
    let mut eight_without_room = row("8 before 12", FIRST_LIST.to_vec(), slip(4, "leaf 1"), 8);
    eight_without_room.room = vec![0];
    vec![
        row("8 before 11", thirteen(), slip(13, "leaf 0"), 8),
        row("7 before 11", thirteen(), slip(12, ""), 7),
        row("7 before 8", FIRST_LIST.to_vec(), slip(4, "leaf 1, 4 0"), 7),
        row("chain 2", FIRST_LIST.to_vec(), slip(4, "chain 2"), 8),
        row("no slip", FIRST_LIST.to_vec(), vec![], 7),
        row("no list", vec![], slip(4, ""), 2),
        row("a raw list", of_raw_kind(&FIRST_LIST), slip(4, ""), 2),
        row(
            "a slip of kind 6",
            FIRST_LIST.to_vec(),
            of_raw_kind(&slip(4, "")),
            7,
        ),
        row(
            "m = 4,097",
            Form::list(1024, first_pairs(4097)).bytes(),
            vec![],
            3,
        ),
        row(
            "m = 4,096",
            Form::list(1024, first_pairs(4096)).bytes(),
            slip(1024, ""),
            11,
        ),
        eleven_without_room,
        eight_without_room,
    ]
}

// Lift

/// The rows of lift: the outputs are a pairing of the list and its origin list.
pub fn lift_rows() -> Vec<Row> {
    let mut rows = lift_rows_of_bytes();
    rows.extend(lift_rows_of_leaves());
    rows.extend(lift_rows_of_rings());
    rows.extend(lift_rows_of_chains());
    rows.extend(lift_rows_of_direct_pairs());
    rows.extend(lift_rows_of_size());
    rows.extend(lift_rows_of_pairs());
    rows.extend(lift_rows_of_forms());
    rows.extend(lift_rows_of_order());
    rows.extend(rows::rows_of_buffers(
        vec![
            FIRST_LIST.to_vec(),
            rows::CHAIN_ONE.to_vec(),
            ZERO_THREE.to_vec(),
        ],
        vec![FIRST_PAIRING.to_vec(), FROM_CHAIN_ONE.to_vec()],
    ));
    rows
}

// A pairing of what a slip leaves of a list is lifted to one of the list, with its origins.
fn lifted(n: u64, text: &str, taken: &str, held: &str, to: &str) -> Row {
    let name = format!("{text}; {taken}; {held}");
    let files = vec![list(n, text), slip(n, taken), pairing(n, held)];
    Row::new(&name, files, 2, Ok(with_origins(n, to)))
}

// A pairing is refused for what a slip leaves of a list.
fn not_lifted(n: u64, text: &str, taken: &str, held: &str, number: u32) -> Row {
    let name = format!("{text}; {taken}; {held}");
    let files = vec![list(n, text), slip(n, taken), pairing(n, held)];
    Row::new(&name, files, 2, Err(number))
}

// Rows written byte by byte.
fn lift_rows_of_bytes() -> Vec<Row> {
    let row = |name: &str, files: [&[u8]; 3], written: [&[u8]; 2]| {
        let files = files.map(<[u8]>::to_vec).to_vec();
        Row::new(name, files, 2, Ok(written.map(<[u8]>::to_vec).to_vec()))
    };
    let triangle = list(3, TRIANGLE);
    vec![
        row(
            "first list, leaf 0, leaf 2",
            [&FIRST_LIST, &rows::TWO_LEAVES, &pairing(4, "")],
            [&FIRST_PAIRING, &FROM_LEAVES],
        ),
        row(
            "first list, chain 1, 0-3",
            [&FIRST_LIST, &rows::CHAIN_ONE, &ZERO_THREE],
            [&FIRST_PAIRING, &FROM_CHAIN_ONE],
        ),
        row(
            "0-1:5, 0-2:4, 1-2:3, ring 1, 0-1",
            [&triangle, &rows::RING_ONE, &ZERO_ONE],
            [&ZERO_ONE, &FROM_RING_ONE],
        ),
        row(
            "0-1023:7, no step",
            [&rows::WIDE_LIST, &slip(1024, ""), &WIDE_PAIRING],
            [&WIDE_PAIRING, &WIDE_SHORT],
        ),
        row(
            "0-1023:7, leaf 1023",
            [&rows::WIDE_LIST, &rows::WIDE_LEAF, &pairing(1024, "")],
            [&WIDE_PAIRING, &WIDE_LEAF_ONE],
        ),
    ]
}

// No steps, and leaves.
fn lift_rows_of_leaves() -> Vec<Row> {
    vec![
        lifted(0, "", "", "", ""),
        lifted(4, FIRST, "", "0-1, 2-3", "0-1 short, 2-3 short"),
        lifted(4, FIRST, "", "1-2", "1-2 short"),
        lifted(4, FIRST, "", "", ""),
        lifted(4, &all_pairs(4), "", "0-2, 1-3", "0-2 short, 1-3 short"),
        lifted(
            4,
            FIRST,
            "leaf 0, leaf 2",
            "",
            "0-1 step 1 leaf, 2-3 step 2 leaf",
        ),
        lifted(
            4,
            FIRST,
            "leaf 3, leaf 1",
            "",
            "0-1 step 2 leaf, 2-3 step 1 leaf",
        ),
        lifted(4, FIRST, "leaf 0", "", "0-1 step 1 leaf"),
        lifted(4, FIRST, "leaf 0", "2-3", "0-1 step 1 leaf, 2-3 short"),
        // In slip order the leaves would put cell 1 in twice.
        lifted(3, "0-1:3, 1-2:8", "leaf 0, leaf 1", "", "1-2 step 2 leaf"),
        lifted(3, "0-1:3, 1-2:8", "leaf 0", "1-2", "1-2 short"),
        lifted(3, "0-1:3, 1-2:8", "leaf 0", "", "0-1 step 1 leaf"),
        lifted(2, "0-1:7", "leaf 0", "", "0-1 step 1 leaf"),
        lifted(2, "0-1:7", "leaf 1", "", "0-1 step 1 leaf"),
    ]
}

// Rings.
fn lift_rows_of_rings() -> Vec<Row> {
    vec![
        // The leaf puts 0-1 in, then the ring puts it in place of itself.
        lifted(3, TRIANGLE, "ring 1, leaf 0", "", "0-1 step 1 ring"),
        lifted(3, TRIANGLE, "ring 1, leaf 1", "", "0-1 step 1 ring"),
        lifted(3, TRIANGLE, "ring 1", "0-1", "0-1 step 1 ring"),
        lifted(3, TRIANGLE, "ring 1", "", "1-2 step 1 ring"),
        lifted(
            4,
            SQUARE,
            "ring 1, leaf 0",
            "",
            "0-1 step 1 ring, 2-3 step 1 ring",
        ),
        lifted(
            4,
            SQUARE,
            "ring 1",
            "0-1",
            "0-1 step 1 ring, 2-3 step 1 ring",
        ),
        // Of 1-2 and 2-3 the first one read is taken.
        lifted(4, SQUARE, "ring 1", "", "1-2 step 1 ring"),
        lifted(3, EQUAL_TRIANGLE, "ring 1", "", "1-2 step 1 ring"),
        lifted(
            7,
            TWO_RINGS,
            "ring 2, ring 5",
            "",
            "2-3 step 1 ring, 5-6 step 2 ring",
        ),
        lifted(
            7,
            TWO_RINGS,
            "ring 5, ring 2",
            "",
            "2-3 step 2 ring, 5-6 step 1 ring",
        ),
        // From u towards its lower neighbour in the ring, 5 and not 0.
        lifted(
            8,
            RING_AT_FOUR,
            "ring 5",
            "4-5",
            "4-5 step 1 ring, 6-7 step 1 ring",
        ),
        lifted(
            8,
            RING_AT_FOUR,
            "ring 5",
            "0-4",
            "0-4 short, 5-6 step 1 ring",
        ),
        lifted(8, RING_AT_FOUR, "ring 5", "", "5-6 step 1 ring"),
        // From u towards 3, which is not z.
        lifted(
            6,
            RING_TO_THREE,
            "ring 2",
            "0-2",
            "0-3 step 1 ring, 2-5 step 1 ring",
        ),
        lifted(6, RING_TO_THREE, "ring 2", "", "2-3 step 1 ring"),
        lifted(8, CHAIN_OF_RINGS, TAKEN_OF_RINGS, "", LIFTED_OF_RINGS),
        lifted(
            8,
            CHAIN_OF_RINGS,
            "ring 4, leaf 4, leaf 2, leaf 0",
            "3-7",
            // 2-4 is from leaf 4, until the ring puts it in place of itself.
            "0-1 step 4 leaf, 2-4 step 1 ring, 3-7 short",
        ),
    ]
}

const TAKEN_OF_RINGS: &str = "ring 4, leaf 4, leaf 2, leaf 0, leaf 1, ring 6";
const LIFTED_OF_RINGS: &str = "0-2 step 3 leaf, 1-3 step 5 leaf, 4-5 step 1 ring, 6-7 step 6 ring";

// Chains without a direct pair.
fn lift_rows_of_chains() -> Vec<Row> {
    vec![
        lifted(4, FIRST, "chain 1", "0-3", BOTH_ENDS),
        // 0-1 is put in place of itself.
        lifted(4, FIRST, "chain 1", "0-1", "0-1 step 1 chain"),
        lifted(4, FIRST, "chain 1", "1-3", "2-3 step 1 chain"),
        lifted(4, FIRST, "chain 1", "", "1-2 step 1 chain"),
        lifted(4, LARGEST, "chain 1", "0-3", BOTH_ENDS),
        lifted(4, ALL_ZERO, "chain 1", "", "1-2 step 1 chain"),
        lifted(4, ONE_ZERO, "chain 1", "0-3", BOTH_ENDS),
        lifted(4, ONE_ZERO, "chain 1", "1-3", "2-3 step 1 chain"),
        lifted(4, ONE_ZERO, "chain 1", "", "1-2 step 1 chain"),
        // Cell z lies below both ends, u is 2.
        lifted(
            4,
            LOW_INNER,
            "chain 0",
            "2-3",
            "0-2 step 1 chain, 1-3 step 1 chain",
        ),
        lifted(4, LOW_INNER, "chain 0", "0-2", "0-2 step 1 chain"),
        lifted(4, LOW_INNER, "chain 0", "0-3", "1-3 step 1 chain"),
        lifted(4, LOW_INNER, "chain 0", "", "0-1 step 1 chain"),
        // From the lower end, not from z: 4-5 is read before 3-4.
        lifted(6, CHAIN_FROM_FIVE, "chain 3", "", "4-5 step 1 chain"),
        lifted(
            6,
            CHAIN_FROM_FIVE,
            "chain 3",
            "0-1",
            "0-5 step 1 chain, 3-4 step 1 chain",
        ),
        lifted(
            6,
            CHAIN_FROM_FIVE,
            "chain 3",
            "0-3",
            "0-5 step 1 chain, 3-4 step 1 chain",
        ),
        lifted(
            6,
            CHAIN_FROM_FIVE,
            "chain 3",
            "1-3",
            "1-3 step 1 chain, 4-5 step 1 chain",
        ),
        // Of 2-3 and 3-4 beside 0-1, and of 1-2 and 2-3 beside 4-5, the first one read is taken.
        lifted(
            6,
            HEAVY_ENDS,
            "chain 1",
            "0-1",
            "0-1 step 1 chain, 2-3 step 1 chain",
        ),
        lifted(
            6,
            HEAVY_ENDS,
            "chain 1",
            "1-5",
            "1-2 step 1 chain, 4-5 step 1 chain",
        ),
        // What the chain made is a ring; that is undone first.
        lifted(4, FIRST, "chain 1, ring 1", "0-1", BOTH_ENDS),
        lifted(4, FIRST, "chain 1, ring 1", "", "2-3 step 1 chain"),
    ]
}

const BOTH_ENDS: &str = "0-1 step 1 chain, 2-3 step 1 chain";

// Chains beside a direct pair.
fn lift_rows_of_direct_pairs() -> Vec<Row> {
    vec![
        lifted(6, HEAVIER, "chain 1", "0-3", "0-3 short, 1-2 step 1 chain"),
        lifted(6, EQUAL, "chain 1", "0-3", BOTH_ENDS),
        lifted(6, LIGHTER, "chain 1", "0-3", BOTH_ENDS),
        // An entry of zero points is no direct pair, but the chain makes one of it.
        lifted(4, ZERO_DIRECT, "chain 1", "0-3", BOTH_ENDS),
        lifted(4, ZERO_DIRECT, "chain 1, ring 1", "0-1", BOTH_ENDS),
        lifted(6, HEAVIER, "chain 1", "0-1", "0-1 step 1 chain"),
        lifted(
            6,
            HEAVIER,
            "chain 1",
            "0-1, 3-5",
            "0-1 step 1 chain, 3-5 short",
        ),
        lifted(
            6,
            HEAVIER,
            "chain 1",
            "0-4, 1-3",
            "0-4 short, 2-3 step 1 chain",
        ),
        lifted(
            6,
            HEAVIER,
            "chain 1",
            "0-4, 3-5",
            "0-4 short, 1-2 step 1 chain, 3-5 short",
        ),
        lifted(6, HEAVIER, "chain 1", "0-4", "0-4 short, 1-2 step 1 chain"),
        lifted(6, HEAVIER, "chain 1", "", "1-2 step 1 chain"),
        // The direct pair that is kept was put in by a ring, or by a leaf.
        lifted(
            6,
            HEAVIER,
            "chain 1, leaf 4, leaf 5, ring 1, leaf 0",
            "",
            "0-3 step 4 ring, 1-2 step 1 chain",
        ),
        lifted(
            6,
            LIGHT_CHAIN,
            "chain 1, leaf 4, leaf 5, leaf 0",
            "",
            "0-3 step 4 leaf, 1-2 step 1 chain",
        ),
        // It is kept by both chains, or replaced by the one that is undone first.
        lifted(
            6,
            TWO_CHAINS,
            "chain 1, chain 4",
            "0-3",
            "0-3 short, 1-2 step 1 chain, 4-5 step 2 chain",
        ),
        lifted(
            6,
            TWO_EQUAL,
            "chain 1, chain 4",
            "0-3",
            "0-4 step 2 chain, 1-2 step 1 chain, 3-5 step 2 chain",
        ),
    ]
}

// The largest lists.
fn lift_rows_of_size() -> Vec<Row> {
    let nothing = pairing(1024, "");
    vec![
        Row::new(
            "a path of 1,024 cells with rising points",
            vec![rows::rising_path(), rows::leaves_of_path(), nothing],
            2,
            // Leaf 1022 is undone first, and then every second one puts a pair in.
            Ok(couples_from(1024, 512, |couple| leaf_step(2 * couple + 1))),
        ),
        Row::new(
            "512 pairs, no step",
            vec![list_of_couples(), slip(1024, ""), couples(1024)],
            2,
            Ok(couples_from(1024, 512, |_| Origin::Short)),
        ),
        Row::new(
            "m = 4,096, no step",
            vec![
                Form::list(1024, first_pairs(4096)).bytes(),
                slip(1024, ""),
                pairing(1024, "0-1023, 1-2"),
            ],
            2,
            Ok(with_origins(1024, "0-1023 short, 1-2 short")),
        ),
    ]
}

// Pairs that are not in the graph that the slip leaves, or a cell twice.
fn lift_rows_of_pairs() -> Vec<Row> {
    vec![
        not_lifted(2, "0-1:0", "", "0-1", 10),
        not_lifted(4, FIRST, "", "0-3", 10),
        not_lifted(4, ZERO_DIRECT, "", "0-3", 10),
        not_lifted(4, FIRST, "leaf 0", "0-1", 10),
        not_lifted(4, FIRST, "leaf 0", "1-2", 10),
        not_lifted(4, FIRST, "leaf 0, leaf 2", "2-3", 10),
        not_lifted(4, FIRST, "chain 1", "1-2", 10),
        not_lifted(4, FIRST, "chain 1", "2-3", 10),
        not_lifted(4, FIRST, "chain 1", "0-1, 2-3", 10),
        not_lifted(3, TRIANGLE, "ring 1", "0-2", 10),
        not_lifted(3, EQUAL_TRIANGLE, "ring 1", "0-1", 10),
        not_lifted(4, ALL_ZERO, "chain 1", "0-3", 10),
        not_lifted(4, ONE_ZERO, "chain 1", "0-1", 10),
        not_lifted(3, TRIANGLE, "", "0-2, 1-2", 10),
        not_lifted(3, TRIANGLE, "", "0-1, 1-2", 10),
        not_lifted(4, FIRST, "chain 1", "0-3, 1-3", 10),
    ]
}

// Pairings of wrong form.
fn lift_rows_of_forms() -> Vec<Row> {
    let row = |name: &str, pairing: Vec<u8>| {
        let files = vec![FIRST_LIST.to_vec(), slip(4, ""), pairing];
        Row::new(name, files, 2, Err(9))
    };
    let with_zero_bits = |header: u64, entry: u64| {
        let mut form = Form::pairing(4, vec![[0, 1, entry]]);
        form.zero = header;
        form.bytes()
    };
    vec![
        row("no pairing", vec![]),
        row("three bytes", FIRST_PAIRING[..3].to_vec()),
        row("a byte missing", FIRST_PAIRING[..9].to_vec()),
        row("a byte too many", [&FIRST_PAIRING[..], &[0]].concat()),
        row("another n", pairing(5, "0-1")),
        row("a slip for a pairing", rows::TWO_LEAVES.to_vec()),
        row("an origin list for a pairing", FROM_LEAVES.to_vec()),
        row("a header zero bit", with_zero_bits(8, 0)),
        row("an entry zero bit", with_zero_bits(0, 1)),
        row("a cell not below n", pairing(4, "0-4")),
        row("a not below b", pairing(4, "1-0")),
        row("a cell with itself", pairing(4, "1-1")),
        row("not ascending", pairing(4, "2-3, 0-1")),
        row("a twice", pairing(4, "0-1, 0-2")),
        row("a pair twice", pairing(4, "0-1, 0-1")),
    ]
}

// The order of the refusals.
fn lift_rows_of_order() -> Vec<Row> {
    let row = |name: &str, list: Vec<u8>, slip: Vec<u8>, pairing: Vec<u8>, number| {
        Row::new(name, vec![list, slip, pairing], 2, Err(number))
    };
    let first = || FIRST_LIST.to_vec();
    let with_room = |mut row: Row, room: [usize; 2]| {
        row.room = room.to_vec();
        row
    };
    let of_kind_six = |place: usize, number| {
        let mut row = lifted(4, FIRST, "", "0-1", "0-1 short");
        row.name = format!("file {place} of kind 6");
        row.files[place] = of_raw_kind(&row.files[place]);
        Row::new(&row.name, row.files, 2, Err(number))
    };
    let refused = || not_lifted(4, FIRST, "", "0-3", 10);
    let too_long = || not_lifted(4, FIRST, "leaf 0, leaf 2", "", 12);
    vec![
        of_kind_six(0, 2),
        of_kind_six(1, 7),
        of_kind_six(2, 9),
        row("6 before 7", list(4, "1-2:1, 0-1:1"), vec![], vec![], 6),
        row(
            "5 before 6",
            list(4, "1-2:1, 0-1:1, 3-3:1"),
            vec![],
            vec![],
            5,
        ),
        row("7 before 8", first(), slip(4, "leaf 1, 0 0"), vec![], 7),
        row("8 before 9", first(), slip(4, "leaf 0, leaf 0"), vec![], 8),
        row(
            "8 before 10",
            first(),
            slip(4, "chain 2"),
            pairing(4, "0-3"),
            8,
        ),
        row(
            "9 before 10",
            first(),
            slip(4, ""),
            pairing(4, "0-3, 0-1"),
            9,
        ),
        // A group of more than 12 cells is no matter for lift.
        row(
            "10 of 13 cells",
            list(13, &all_pairs(13)),
            slip(13, ""),
            pairing(13, "0-1, 1-2"),
            10,
        ),
        with_room(refused(), [0, 0]),
        with_room(refused(), [PLENTY, 0]),
        // The pairing has 10 bytes, its origin list 14.
        with_room(too_long(), [9, 14]),
        with_room(too_long(), [10, 13]),
        with_room(too_long(), [9, 13]),
        with_room(too_long(), [PLENTY, 0]),
        with_room(too_long(), [0, PLENTY]),
    ]
}

// Pair

/// The rows of pair: the outputs are a pairing of the list and its origin list.
pub fn pair_rows() -> Vec<Row> {
    let mut rows = pair_rows_of_lists();
    rows.extend(pair_rows_of_size());
    rows.extend(pair_rows_of_groups());
    rows.extend(pair_rows_of_refusals());
    rows.extend(rows::rows_of_buffers(
        vec![FIRST_LIST.to_vec()],
        vec![FIRST_PAIRING.to_vec(), FROM_LEAVES.to_vec()],
    ));
    rows
}

// Pairing a list gives a pairing of it with its origins.
fn paired(n: u64, text: &str, held: &str) -> Row {
    Row::new(text, vec![list(n, text)], 2, Ok(with_origins(n, held)))
}

// Lists of a few cells.
fn pair_rows_of_lists() -> Vec<Row> {
    vec![
        Row::new(
            "the first list in bytes",
            vec![FIRST_LIST.to_vec()],
            2,
            Ok(vec![FIRST_PAIRING.to_vec(), FROM_LEAVES.to_vec()]),
        ),
        Row::new(
            "the triangle in bytes",
            vec![list(3, TRIANGLE)],
            2,
            Ok(vec![ZERO_ONE.to_vec(), FROM_RING_ONE.to_vec()]),
        ),
        paired(4, LARGEST, "0-1 step 1 leaf, 2-3 step 2 leaf"),
        paired(3, "0-1:3, 1-2:8", "1-2 step 2 leaf"),
        // Leaf 0 puts 0-1 in, then ring 1 puts it in place of itself.
        paired(3, TRIANGLE, "0-1 step 1 ring"),
        paired(4, SQUARE, "0-1 step 1 ring, 2-3 step 1 ring"),
        paired(3, EQUAL_TRIANGLE, "1-2 step 1 ring"),
        paired(7, TWO_RINGS, "2-3 step 1 ring, 5-6 step 2 ring"),
        paired(8, CHAIN_OF_RINGS, LIFTED_OF_RINGS),
        paired(4, "0-2:5, 0-3:5, 1-2:9", "0-3 step 2 leaf, 1-2 step 1 leaf"),
        paired(4, LOW_INNER, "0-2 step 1 leaf, 1-3 step 2 leaf"),
        // Leaves 4 and 5, then a ring of which two are best at 19.
        paired(6, HEAVIER, "0-3 step 3 ring, 1-2 step 3 ring"),
        paired(6, EQUAL, "0-1 step 3 ring, 2-3 step 3 ring"),
        paired(6, LIGHTER, "0-1 step 3 ring, 2-3 step 3 ring"),
        paired(8, RING_AT_FOUR, "4-5 step 2 ring, 6-7 step 2 ring"),
        paired(6, RING_TO_THREE, "0-3 step 1 ring, 2-5 step 1 ring"),
        // No step: the tie is that of solve.
        paired(5, SINGLE_CELLS, "0-2 short, 1-3 short"),
        paired(4, &all_pairs(4), "0-1 short, 2-3 short"),
        paired(0, "", ""),
        paired(5, "", ""),
        paired(2, "0-1:0", ""),
    ]
}

// Lists that leave a group of 12 cells, and lists of the most cells.
fn pair_rows_of_size() -> Vec<Row> {
    let with_leaf = {
        let mut entries = all_pairs_of(12, 5);
        entries.push([0, 12, 1]);
        entries.sort();
        Form::list(13, entries).bytes()
    };
    let row = |name: &str, list: Vec<u8>, written: Vec<Vec<u8>>| {
        Row::new(name, vec![list], 2, Ok(written))
    };
    let six_of = |n| couples_from(n, 6, |_| Origin::Short);
    let couples = couples_from(1024, 512, |couple| leaf_step(couple + 1));
    let path = couples_from(1024, 512, |couple| leaf_step(2 * couple + 1));
    let zeros = Form::list(13, all_pairs_of(13, 0)).bytes();
    vec![
        row("12 cells", list(12, &all_pairs(12)), six_of(12)),
        // The leaf is undone with its partner paired.
        row("12 after a leaf", with_leaf, six_of(13)),
        row("13 cells, zero points", zeros, with_origins(13, "")),
        row("512 pairs", list_of_couples(), couples),
        row("a path of rising points", rows::rising_path(), path),
        row(
            "0-1023:7",
            rows::WIDE_LIST.to_vec(),
            vec![WIDE_PAIRING.to_vec(), WIDE_LEAF_ONE.to_vec()],
        ),
    ]
}

// Lists that leave several groups.
fn pair_rows_of_groups() -> Vec<Row> {
    let row = |name: &str, list: Vec<u8>, answer: Result<Vec<Vec<u8>>, u32>| {
        Row::new(name, vec![list], 2, answer)
    };
    let short = |n| Ok(couples_from(n, n / 2, |_| Origin::Short));
    // The couples of both groups, and 24-25 from the step that took it first.
    let and_one_of = |n, rule| {
        let first = Origin::Step { number: 1, rule };
        let origin = |couple| if couple == 12 { first } else { Origin::Short };
        Ok(couples_from(n, 13, origin))
    };
    let turns = couples_by_turns(24).into_iter();
    let turns: Vec<(Pair, Origin)> = turns.map(|pair| (pair, Origin::Short)).collect();
    vec![
        row("12 cells twice over", twice_over_and(24, ""), short(24)),
        row(
            "12 cells twice over, by turns",
            list_within(&by_turns(2, 12)),
            Ok(reference::lifted_files(24, &turns)),
        ),
        row("12 and 13 cells", list_within(&blocks(&[12, 13])), Err(11)),
        row("13 and 12 cells", list_within(&blocks(&[13, 12])), Err(11)),
        row("joined by a pair", twice_over_and(24, "11-12:1"), Err(11)),
        row(
            "joined by a leaf",
            twice_over_and(26, BY_LEAF),
            and_one_of(26, LEAF),
        ),
        row(
            "joined by a chain",
            twice_over_and(26, BY_CHAIN),
            and_one_of(26, CHAIN),
        ),
        // Leaf 25 puts 24-25 in, then ring 25 puts it in place of itself.
        row(
            "joined by a ring",
            twice_over_and(27, BY_RING),
            and_one_of(27, RING),
        ),
        row(
            "256 groups, all pairs of 4 cells",
            list_within(&blocks(&[4; 256])),
            short(1024),
        ),
        row(
            "62 groups, all pairs of 12 cells",
            list_within(&blocks(&[12; 62])),
            short(744),
        ),
        row(
            "60 groups of 12 cells and one of 13",
            list_within(&blocks(&[vec![12; 60], vec![13]].concat())),
            Err(11),
        ),
    ]
}

// Lists that are refused.
fn pair_rows_of_refusals() -> Vec<Row> {
    let refused = |name: &str, list: Vec<u8>, number| Row::new(name, vec![list], 2, Err(number));
    let mut without_room = refused("11 before 12", list(13, &all_pairs(13)), 11);
    without_room.room = vec![0, 0];
    let mut both_short = refused("both outputs short by one", FIRST_LIST.to_vec(), 12);
    both_short.room = vec![9, 13];
    vec![
        refused("13 cells", list(13, &all_pairs(13)), 11),
        refused("m = 4,096", Form::list(1024, first_pairs(4096)).bytes(), 11),
        refused("m = 4,097", Form::list(1024, first_pairs(4097)).bytes(), 3),
        refused("no list", vec![], 2),
        refused("a pairing for a list", FIRST_PAIRING.to_vec(), 2),
        refused("an origin list for a list", FROM_LEAVES.to_vec(), 2),
        refused("a raw list", of_raw_kind(&FIRST_LIST), 2),
        refused("n = 1,025", list(1025, "0-1023:7"), 3),
        refused("a byte too many", [&FIRST_LIST[..], &[0]].concat(), 4),
        refused("n = 1,023 with cell 1,023", list(1023, "0-1023:7"), 5),
        refused("an entry twice", list(4, "0-1:1, 0-1:1"), 6),
        without_room,
        both_short,
    ]
}

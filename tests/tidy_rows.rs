//! Worked rows of tidy: calls with the answers that follow from the words of
//! the document by hand. Raw lists are written as lists are, in the order run.

use crate::inputs::{Entry, Form};
use crate::reference::WORK_WORDS;
use crate::rows::{
    first_pairs, list, of_raw_kind, raw_list, rows_of_buffers, Row, FIRST_LIST, PLENTY,
};

/// Four cells, 3-1:5, 0-1:7, 1-3:9; and the store list 0-1:7, 1-3:9.
const RUN_AGAIN: [u8; 19] = [
    0x60, 0x08, 0x00, 0x30, 0x00, 0xC0, 0x10, 0x00, 0x05, 0x00, 0x00, 0x10, 0x00, 0x07, 0x00, 0x40,
    0x30, 0x00, 0x09,
];
const RUN_AGAIN_STORE: [u8; 14] = [
    0x10, 0x08, 0x00, 0x20, 0x00, 0x00, 0x10, 0x00, 0x07, 0x00, 0x40, 0x30, 0x00, 0x09,
];
/// 1,024 cells, 1023-0:1048575; and the store list 0-1023:1048575.
const WIDE: [u8; 9] = [0x68, 0x00, 0x00, 0x10, 0xFF, 0xC0, 0x0F, 0xFF, 0xFF];
const WIDE_STORE: [u8; 9] = [0x18, 0x00, 0x00, 0x10, 0x00, 0x3F, 0xFF, 0xFF, 0xFF];
/// Two cells, 0-1:4095.
const LAST_OF_MANY: [u8; 9] = [0x10, 0x04, 0x00, 0x10, 0x00, 0x00, 0x10, 0x0F, 0xFF];

/// The rows of tidy: the output is the store list.
pub fn rows() -> Vec<Row> {
    let mut rows = rows_in_bytes();
    rows.extend(rows_of_runs());
    rows.extend(rows_of_size());
    rows.extend(rows_of_headers());
    rows.extend(rows_of_cells());
    rows.extend(rows_of_order());
    rows.extend(rows_of_buffers(
        vec![RUN_AGAIN.to_vec()],
        vec![RUN_AGAIN_STORE.to_vec()],
    ));
    rows
}

// A raw list comes out as this store list.
fn written(name: &str, raw: &[u8], store: &[u8]) -> Row {
    Row::new(name, vec![raw.to_vec()], 1, Ok(vec![store.to_vec()]))
}

// A raw list is refused with 13.
fn refused(name: &str, raw: Vec<u8>) -> Row {
    Row::new(name, vec![raw], 1, Err(13))
}

// Rows written byte by byte.
fn rows_in_bytes() -> Vec<Row> {
    vec![
        written("3-1:5, 0-1:7, 1-3:9", &RUN_AGAIN, &RUN_AGAIN_STORE),
        written("n = 0, m = 0", &[0x60, 0, 0, 0], &[0x10, 0, 0, 0]),
        written("n = 1,024, m = 0", &[0x68, 0, 0, 0], &[0x18, 0, 0, 0]),
        written("the first list", &of_raw_kind(&FIRST_LIST), &FIRST_LIST),
        written("n = 1,024 with cell 1,023", &WIDE, &WIDE_STORE),
    ]
}

// The pairs of one text, run in its order, come out as those of the other.
fn tidied(n: u64, run: &str, store: &str) -> Row {
    written(run, &raw_list(n, run), &list(n, store))
}

// Pairs run once and again; the last points stand, whatever they are.
fn rows_of_runs() -> Vec<Row> {
    vec![
        tidied(2, "1-0:3", "0-1:3"),
        tidied(2, "0-1:0", "0-1:0"),
        tidied(2, "0-1:9, 0-1:3", "0-1:3"),
        tidied(2, "0-1:3, 0-1:9", "0-1:9"),
        tidied(2, "0-1:9, 1-0:3", "0-1:3"),
        tidied(2, "1-0:9, 0-1:3", "0-1:3"),
        tidied(2, "1-0:1048575, 0-1:5, 1-0:0", "0-1:0"),
        tidied(3, "0-1:1, 1-2:2, 1-0:3, 2-1:4, 0-1:5", "0-1:5, 1-2:4"),
        tidied(
            4,
            "2-3:1, 1-2:2, 0-3:3, 0-1:4",
            "0-1:4, 0-3:3, 1-2:2, 2-3:1",
        ),
        // By cells, and not by the points or the cell that comes first.
        tidied(6, "5-0:1, 4-1:2, 3-2:3", "0-5:1, 1-4:2, 2-3:3"),
        tidied(6, "1-5:9, 0-5:9, 1-0:9", "0-1:9, 0-5:9, 1-5:9"),
    ]
}

// The longest lists.
fn rows_of_size() -> Vec<Row> {
    let one_pair = (0..4096).map(|place| [place % 2, 1 - place % 2, place]);
    let one_pair = Form::raw_list(2, one_pair.collect()).bytes();
    let pairs = first_pairs(4096);
    let turned: Vec<Entry> = pairs.iter().rev().map(|&[a, b, p]| [b, a, p]).collect();
    let backwards = Form::raw_list(1024, turned).bytes();
    let too_many = Form::raw_list(1024, first_pairs(4097)).bytes();
    let mut cut_short = too_many.clone();
    cut_short.truncate(20_484);
    vec![
        written("4,096 entries of one pair", &one_pair, &LAST_OF_MANY),
        written(
            "4,096 pairs backwards",
            &backwards,
            &Form::list(1024, pairs).bytes(),
        ),
        refused("m = 4,097", too_many),
        refused("m = 4,097, cut short", cut_short),
        refused(
            "4,097 entries of one pair",
            Form::raw_list(2, vec![[0, 1, 1]; 4097]).bytes(),
        ),
    ]
}

// Headers and lengths that are wrong.
fn rows_of_headers() -> Vec<Row> {
    let changed = |name: &str, change: &dyn Fn(&mut Vec<u8>)| {
        let mut raw = RUN_AGAIN.to_vec();
        change(&mut raw);
        refused(name, raw)
    };
    let mut rows = vec![
        refused("a store list", FIRST_LIST.to_vec()),
        refused("n = 1,025", raw_list(1025, "0-1:1")),
        refused("n = 1,025, m = 0", raw_list(1025, "")),
        refused("n = 2,047", raw_list(2047, "0-1:1")),
        changed("m = 2", &|raw| raw[3] = 0x20),
        changed("m = 4", &|raw| raw[3] = 0x40),
        changed("a byte missing", &|raw| raw.truncate(18)),
        changed("a byte too many", &|raw| raw.push(0)),
    ];
    for length in 0..4 {
        rows.push(changed("fewer than 4 bytes", &|raw| raw.truncate(length)));
    }
    for kind in (0..16).filter(|&kind| kind != 6) {
        rows.push(changed("another kind", &|raw| raw[0] = kind << 4));
    }
    for bit in 0..4 {
        rows.push(changed("a header zero bit", &|raw| raw[3] |= 1 << bit));
    }
    rows
}

// Entries that are wrong: the only one, the first or the last.
fn rows_of_cells() -> Vec<Row> {
    let row = |n: u64, text: &str| refused(text, raw_list(n, text));
    vec![
        row(0, "0-1:1"),
        row(1, "0-0:1"),
        row(4, "0-1:1, 1-2:1, 3-3:1"),
        row(4, "2-2:1, 0-1:1"),
        row(4, "0-1:1, 0-4:1"),
        row(4, "4-0:1, 0-1:1"),
        // A later run of the same pair does not mend it.
        row(4, "5-0:1, 0-5:1, 0-1:1"),
        row(1023, "0-1023:1"),
        row(1023, "1023-0:1"),
        row(1024, "1023-1023:1"),
    ]
}

// The order of the refusals, and room between the length written and that of the raw list.
fn rows_of_order() -> Vec<Row> {
    let lent = |name: &str, raw: &[u8], work: [usize; 2], room: usize, number: u32| {
        let mut row = Row::new(name, vec![raw.to_vec()], 1, Err(number));
        (row.work, row.room) = (work, vec![room]);
        row
    };
    let (enough, short) = ([WORK_WORDS; 2], WORK_WORDS - 1);
    let mut rows = vec![
        lent("1 before 13", &FIRST_LIST, [short, WORK_WORDS], PLENTY, 1),
        lent("1 before 13", &FIRST_LIST, [WORK_WORDS, short], PLENTY, 1),
        lent("nothing given or lent", &[], [0, 0], 0, 1),
        lent("1 before 12", &RUN_AGAIN, [0, 9000], 0, 1),
        lent("13 before 12", &FIRST_LIST, enough, 0, 13),
        lent("nothing given", &[], enough, 0, 13),
    ];
    for room in [15, 18, 19, PLENTY] {
        let mut row = written("more room than needed", &RUN_AGAIN, &RUN_AGAIN_STORE);
        row.room = vec![room];
        rows.push(row);
    }
    rows
}

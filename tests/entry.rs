//! The comparison of entry: the call over the C interface, its inputs, worked
//! rows, and the check of one call against the reference.

use std::array;
use std::ops::Range;
use std::process::exit;

use crate::counts::Tally;
use crate::inputs::{self, Entry, Form, Random, LARGEST_M, LARGEST_POINTS};
use crate::lent::{hexadecimal, Files};
use crate::reference;
use crate::rows::{self, FIRST_LIST, WIDE_LIST};

/// The answers, and how often each must be met at least.
const ANSWERS: [&str; 2] = ["served", "none"];
const FEWEST_ANSWERED: u64 = 300;

/// Why none is answered: the first refusal that holds, or else the place.
const REASONS: [&str; 6] = [
    "none, the place is not below m",
    "none, refusal 2",
    "none, refusal 3",
    "none, refusal 4",
    "none, refusal 5",
    "none, refusal 6",
];
const FEWEST_REASONS: u64 = 50;

/// Refusals without which the entry would be served: no other one holds and
/// the place is that of an entry.
const ALONE: [&str; 5] = [
    "refusal 2 alone, at an entry",
    "refusal 3 alone, at an entry",
    "refusal 4 alone, at an entry",
    "refusal 5 alone, at an entry",
    "refusal 6 alone, at an entry",
];
const FEWEST_ALONE: u64 = 10;

/// Special places of accepted lists.
const PLACES: [&str; 11] = [
    "the first place",
    "a place between",
    "the last place",
    "place m",
    "place m + 1",
    "a place above that, below 8,192",
    "low 16 bits below m",
    "low 32 bits below m",
    "start within the list in 64 bits",
    "2^63 or more",
    "a list of no entries",
];
const FEWEST_SPECIAL: u64 = 20;

// The call

extern "C" {
    fn cells_entry(
        list: *const u8,
        list_len: usize,
        place: u64,
        a: *mut u64,
        b: *mut u64,
        points: *mut u64,
    ) -> u32;
}

/// The three numbers that are written, with a word before, between and after them.
type Words = [u64; 7];

// Calls entry: 1 with the three numbers written, or 0.
fn call_entry(list: &[u8], place: u64, words: &mut Words) -> u32 {
    let [_, a, _, b, _, points, _] = words;
    // The pointers and the length are those of places that live through the call.
    unsafe { cells_entry(list.as_ptr(), list.len(), place, a, b, points) }
}

// Inputs

/// What one call is given.
struct Input {
    list: Vec<u8>,
    place: u64,
}

/// What is served: cell a, cell b and points; or none.
type Served = Option<Entry>;

impl Input {
    // A random input: the list is good or bad, the place low or high.
    fn random(random: &mut Random) -> Input {
        let list = inputs::valid_list(random);
        let m = list.m;
        let list = inputs::good_or_bad_list(random, list);
        let m = if random.once_in(3) { room(&list) } else { m };
        let place = random_place(random, m);
        Input { list, place }
    }

    // The answer of the reference.
    fn answer(&self) -> Served {
        reference::entry(&self.list, self.place)
    }

    // Every refusal that holds, by the reference.
    fn refusals(&self) -> Vec<u32> {
        reference::list_refusals(&self.list)
    }
}

// How many entries the bytes of a list have room for; m, if the list is accepted.
fn room(list: &[u8]) -> u64 {
    list.len().saturating_sub(4) as u64 / 5
}

// A place for a list of m entries: below m half of the time, else at m, above or far above.
fn random_place(random: &mut Random, m: u64) -> u64 {
    let low = random.below(m);
    match random.below(16) {
        0 => 0,
        1 => m.saturating_sub(1),
        2..=7 => low,
        8 => m,
        9 => m + 1,
        10 => m + random.below(LARGEST_M),
        11 | 12 => low + (1 << random.between(12, 63)),
        13 => place_beyond(random, low),
        14 => random.word() >> random.below(64),
        _ => u64::MAX - random.below(8),
    }
}

// A place whose start 4 + 5 × place, kept in 32 or in 64 bits, is a low one.
fn place_beyond(random: &mut Random, low: u64) -> u64 {
    let turns = u128::from(random.between(1, 4));
    let bits = random.one_of(&[32, 64]);
    ((turns << bits) / 5) as u64 + 1 + low
}

// Worked rows

/// A call of entry with the answer that the document gives, and the refusals
/// that hold of its list.
struct WorkedRow {
    name: &'static str,
    input: Input,
    served: Served,
    refusals: Vec<u32>,
}

/// Places that no list has, and that are low ones in 32 bits, signed or in part.
const FAR_PLACES: [u64; 8] = [
    8192,
    1 << 16,
    1 << 32,
    (1 << 32) + 1,
    u64::MAX / 5 + 1,
    1 << 63,
    u64::MAX - 1,
    u64::MAX,
];

// The worked rows; the first ones are in bytes, so that they fix the layout of the list.
fn worked_rows() -> Vec<WorkedRow> {
    let mut rows = rows_in_bytes();
    rows.extend(rows_of_damage());
    rows.extend(rows_of_size());
    rows.extend(rows_of_every_place());
    rows
}

// A row for each place of an accepted list that is given, and none at the far places.
fn accepted(name: &'static str, list: &[u8], answers: &[(u64, Served)]) -> Vec<WorkedRow> {
    let far = FAR_PLACES.map(|place| (place, None));
    let row = |&(place, served): &(u64, Served)| WorkedRow {
        name,
        input: Input {
            list: list.to_vec(),
            place,
        },
        served,
        refusals: Vec::new(),
    };
    answers.iter().chain(&far).map(row).collect()
}

// Rows of a list of which this refusal alone holds: none at any place.
fn refused(name: &'static str, list: &[u8], number: u32) -> Vec<WorkedRow> {
    let mut rows = accepted(
        name,
        list,
        &[0, 1, 2, 3, 4095, 4096].map(|place| (place, None)),
    );
    for row in &mut rows {
        row.refusals = vec![number];
    }
    rows
}

// Rows of lists written byte by byte.
fn rows_in_bytes() -> Vec<WorkedRow> {
    let first = [
        (0, Some([0, 1, 10])),
        (1, Some([1, 2, 1])),
        (2, Some([2, 3, 10])),
        (3, None),
        (4, None),
    ];
    let zero_list = [0x10, 0x04, 0x00, 0x10, 0x00, 0x00, 0x10, 0x00, 0x00];
    let all_ones = [0x18, 0x00, 0x00, 0x10, 0xFF, 0xBF, 0xFF, 0xFF, 0xFF];
    let mixed_bits = [0x18, 0x00, 0x00, 0x10, 0x55, 0x6A, 0xAA, 0x5C, 0x3F];
    let one = |served: Entry| [(0, Some(served)), (1, None)];
    [
        accepted("the first list", &FIRST_LIST, &first),
        accepted("n = 0, m = 0", &[0x10, 0, 0, 0], &[(0, None), (1, None)]),
        accepted("n = 1,024, m = 0", &[0x18, 0, 0, 0], &[(0, None)]),
        accepted("0-1:0", &zero_list, &one([0, 1, 0])),
        accepted("0-1023:7", &WIDE_LIST, &one([0, 1023, 7])),
        accepted("all ones", &all_ones, &one([1022, 1023, 1_048_575])),
        accepted("mixed bits", &mixed_bits, &one([341, 682, 0xA5C3F])),
    ]
    .into_iter()
    .flatten()
    .collect()
}

// The first list with other bytes in its header.
fn first_with_header(header: [u8; 4]) -> Vec<u8> {
    [&header[..], &FIRST_LIST[4..]].concat()
}

// Rows of lists damaged in one way each.
fn rows_of_damage() -> Vec<WorkedRow> {
    let header = first_with_header;
    let long = [&FIRST_LIST[..], &[0]].concat();
    let many = Form::list(1024, rows::first_pairs(4097)).bytes();
    let late_equal = rows::list(4, "0-1:10, 1-2:1, 3-3:10");
    let turned = rows::list(4, "0-1:10, 2-1:1, 2-3:10");
    let late_order = rows::list(4, "0-1:10, 2-3:10, 1-2:1");
    let order_of_b = rows::list(4, "0-2:10, 0-1:10, 2-3:1");
    let twice = rows::list(4, "0-1:10, 2-3:10, 2-3:10");
    [
        refused("no bytes", &[], 2),
        refused("three bytes", &FIRST_LIST[..3], 2),
        refused("kind 0", &header([0x00, 0x08, 0x00, 0x30]), 2),
        refused("kind 4", &header([0x40, 0x08, 0x00, 0x30]), 2),
        refused("a raw list", &header([0x60, 0x08, 0x00, 0x30]), 2),
        refused("a zero bit set", &header([0x10, 0x08, 0x00, 0x31]), 2),
        refused("n = 1,025", &header([0x18, 0x02, 0x00, 0x30]), 3),
        refused("n = 2,047", &header([0x1F, 0xFE, 0x00, 0x30]), 3),
        refused("m = 4,097", &many, 3),
        refused("m = 2", &header([0x10, 0x08, 0x00, 0x20]), 4),
        refused("m = 4", &header([0x10, 0x08, 0x00, 0x40]), 4),
        refused("a byte too few", &FIRST_LIST[..18], 4),
        refused("a byte too many", &long, 4),
        refused("the header alone", &FIRST_LIST[..4], 4),
        refused("n = 3", &header([0x10, 0x06, 0x00, 0x30]), 5),
        refused("0-1, 1-2, 3-3", &late_equal, 5),
        refused("0-1, 2-1, 2-3", &turned, 5),
        refused("0-1, 2-3, 1-2", &late_order, 6),
        refused("0-2, 0-1, 2-3", &order_of_b, 6),
        refused("0-1, 2-3, 2-3", &twice, 6),
    ]
    .into_iter()
    .flatten()
    .collect()
}

// Entries with the largest points and down, so that no two have the same.
fn with_falling_points(pairs: impl Iterator<Item = (u64, u64)>) -> Vec<Entry> {
    let points = (0..=LARGEST_POINTS).rev();
    pairs.zip(points).map(|((a, b), p)| [a, b, p]).collect()
}

// The pairs of the cells from first to below end, in order.
fn pairs(first: u64, end: u64) -> impl Iterator<Item = (u64, u64)> {
    (first..end).flat_map(move |a| (a + 1..end).map(move |b| (a, b)))
}

// Rows of the longest lists: the first 4,096 pairs of 1,024 cells, and the last.
fn rows_of_size() -> Vec<WorkedRow> {
    let lowest = Form::list(1024, with_falling_points(pairs(0, 1024).take(4096)));
    // 92 cells have 4,186 pairs; the first 90 of them are 932-933 to 932-1022.
    let highest = Form::list(1024, with_falling_points(pairs(932, 1024).skip(90)));
    let of_lowest = [
        (0, Some([0, 1, 1_048_575])),
        (1022, Some([0, 1023, 1_047_553])),
        (1023, Some([1, 2, 1_047_552])),
        (4094, Some([4, 13, 1_044_481])),
        (4095, Some([4, 14, 1_044_480])),
        (4096, None),
        (4097, None),
        (8191, None),
        ((1 << 32) + 4095, None),
    ];
    let of_highest = [
        (0, Some([932, 1023, 1_048_575])),
        (1, Some([933, 934, 1_048_574])),
        (4095, Some([1022, 1023, 1_044_480])),
        (4096, None),
    ];
    let mut rows = accepted("m = 4,096, lowest pairs", &lowest.bytes(), &of_lowest);
    rows.extend(accepted(
        "m = 4,096, highest pairs",
        &highest.bytes(),
        &of_highest,
    ));
    rows
}

// Every place of the list of all pairs of 12 cells, and one more.
fn rows_of_every_place() -> Vec<WorkedRow> {
    let list = Form::list(12, with_falling_points(pairs(0, 12)));
    let at = |place: u64| (place, list.entries.get(place as usize).copied());
    let answers: Vec<(u64, Served)> = (0..=66).map(at).collect();
    accepted("all pairs of 12 cells", &list.bytes(), &answers)
}

// The comparison

// Makes one call and says all that is wrong about it.
fn compare(random: &mut Random, input: &Input, expected: Served) -> Vec<String> {
    let files = Files::new(random, &[&input.list]);
    let before: Words = array::from_fn(|_| random.word());
    let mut words = before;
    let number = call_entry(files.file(0), input.place, &mut words);

    let mut wrong = Vec::new();
    let expected_number = u32::from(expected.is_some());
    if number != expected_number {
        wrong.push(format!("the answer is {number} and not {expected_number}"));
    }
    let expected_words = after(before, expected);
    if words != expected_words {
        wrong.push(format!(
            "the three numbers, with the words round them, are {words:?} and not {expected_words:?}"
        ));
    }
    files.differences(&mut wrong);
    wrong
}

// The words after a call: those before it, with the numbers where there are any.
fn after(mut words: Words, served: Served) -> Words {
    for (place, number) in served.into_iter().flatten().enumerate() {
        words[2 * place + 1] = number;
    }
    words
}

// Makes one call and ends the comparison if anything is wrong about it.
fn check(random: &mut Random, name: &str, input: &Input, expected: Served) {
    let wrong = compare(random, input, expected);
    if !wrong.is_empty() {
        report(name, input, expected, &wrong);
    }
}

// Prints a call that went wrong, whole, and ends the comparison.
fn report(name: &str, input: &Input, expected: Served, wrong: &[String]) -> ! {
    println!("MISMATCH in entry, {name}");
    println!(
        "list ({} bytes): {}",
        input.list.len(),
        hexadecimal(&input.list)
    );
    println!("place: {}", input.place);
    match expected {
        Some([a, b, points]) => println!("expected: {a}-{b}:{points}"),
        None => println!("expected: none"),
    }
    for line in wrong {
        println!("came: {line}");
    }
    println!("FAIL");
    exit(1)
}

// What is special

// What is special about a place of an accepted list.
fn special_places(list: &[u8], place: u64) -> Vec<&'static str> {
    let m = room(list);
    if place < m {
        return vec![match place {
            0 => "the first place",
            _ if place + 1 < m => "a place between",
            _ => "the last place",
        }];
    }
    let start = place.wrapping_mul(5).wrapping_add(4);
    let cases = [
        ("place m", place == m),
        ("place m + 1", place == m + 1),
        (
            "a place above that, below 8,192",
            place > m + 1 && place <= LARGEST_M,
        ),
        ("low 16 bits below m", place & 0xFFFF < m),
        ("low 32 bits below m", place & 0xFFFF_FFFF < m),
        (
            "start within the list in 64 bits",
            start < list.len() as u64,
        ),
        ("2^63 or more", place >= 1 << 63),
        ("a list of no entries", m == 0),
    ];
    let met = cases.into_iter().filter(|&(_, holds)| holds);
    met.map(|(name, _)| name).collect()
}

// The whole run

/// What was met of entry so far; the tallies are of the random calls alone.
pub struct Entries {
    answers: Tally,
    reasons: Tally,
    alone: Tally,
    places: Tally,
    rows: usize,
    longest: usize,
}

impl Entries {
    // Nothing met yet.
    fn new() -> Entries {
        Entries {
            answers: Tally::at_least(FEWEST_ANSWERED, "answers", &ANSWERS),
            reasons: Tally::at_least(FEWEST_REASONS, "why none", &REASONS),
            alone: Tally::at_least(FEWEST_ALONE, "none for one reason", &ALONE),
            places: Tally::at_least(FEWEST_SPECIAL, "places of accepted lists", &PLACES),
            rows: 0,
            longest: 0,
        }
    }

    /// Compares the worked rows, then the random calls of these numbers; ends at
    /// the first difference.
    pub fn run(seed: u64, calls: Range<u64>) -> Entries {
        let mut entries = Entries::new();
        entries.run_worked_rows(seed);
        entries.run_random_calls(seed, calls);
        entries
    }

    // Compares the worked rows, the reference with them too.
    fn run_worked_rows(&mut self, seed: u64) {
        let mut random = Random::new(seed);
        for row in worked_rows() {
            let (answer, refusals) = (row.input.answer(), row.input.refusals());
            if (answer, &refusals) != (row.served, &row.refusals) {
                let line = format!("the reference answers {answer:?}, refusals {refusals:?}");
                report(row.name, &row.input, row.served, &[line]);
            }
            check(&mut random, row.name, &row.input, row.served);
            self.rows += 1;
        }
    }

    // Compares random calls, each made from the seed and its own number.
    fn run_random_calls(&mut self, seed: u64, calls: Range<u64>) {
        for call in calls {
            let mut random = Random::new(Random::new(seed ^ call.rotate_left(32)).word());
            let input = Input::random(&mut random);
            let name = format!("random call {call} of seed {seed}");
            let served = input.answer();
            check(&mut random, &name, &input, served);
            let refusals = input.refusals();
            match refusals.first() {
                None => self.accept(&input, served),
                Some(&first) => self.refuse(&input, first as usize, refusals.len()),
            }
        }
    }

    // Counts a call over an accepted list.
    fn accept(&mut self, input: &Input, served: Served) {
        match served {
            Some(_) => self.answers.meet(ANSWERS[0]),
            None => {
                self.answers.meet(ANSWERS[1]);
                self.reasons.meet(REASONS[0]);
            }
        }
        for name in special_places(&input.list, input.place) {
            self.places.meet(name);
        }
        self.longest = self.longest.max(input.list.len());
    }

    // Counts a call over a refused list: the first refusal and how many hold.
    fn refuse(&mut self, input: &Input, first: usize, holding: usize) {
        self.answers.meet(ANSWERS[1]);
        self.reasons.meet(REASONS[first - 1]);
        if holding == 1 && input.place < room(&input.list) {
            self.alone.meet(ALONE[first - 2]);
        }
    }

    /// Prints the tables, and says what was met too seldom.
    pub fn print(&self) -> Vec<String> {
        println!("entry");
        let tallies = [&self.answers, &self.reasons, &self.alone, &self.places];
        for tally in tallies {
            tally.print();
        }
        println!(
            "worked rows {}, longest accepted list {} bytes",
            self.rows, self.longest
        );
        let short = tallies.into_iter().flat_map(Tally::shortfalls);
        short.map(|line| format!("entry: {line}")).collect()
    }
}

//! The comparison of weigh: the call over the C interface, its inputs, worked
//! rows, and the check of one call against the reference.

use std::process::exit;

use crate::counts::Counts;
use crate::inputs::{self, Entry, Form, Random};
use crate::lent::{self, hexadecimal, Files, Work, WORK_LENGTHS};
use crate::reference::{self, WORK_WORDS};
use crate::rows::of_raw_kind;

/// The refusals that weighing has.
const REFUSALS: [u32; 8] = [1, 2, 3, 4, 5, 6, 9, 10];

// The call

extern "C" {
    fn cells_weigh(
        list: *const u8,
        list_len: usize,
        pairing: *const u8,
        pairing_len: usize,
        work_a: *mut u64,
        work_a_len: usize,
        work_b: *mut u64,
        work_b_len: usize,
        points: *mut u64,
    ) -> u32;
}

/// Calls weigh: 0 with the points written, or the refusal's number.
pub fn call_weigh(
    list: &[u8],
    pairing: &[u8],
    work_a: &mut [u64],
    work_b: &mut [u64],
    points: &mut u64,
) -> u32 {
    // The pointers and lengths are those of slices that live through the call.
    unsafe {
        cells_weigh(
            list.as_ptr(),
            list.len(),
            pairing.as_ptr(),
            pairing.len(),
            work_a.as_mut_ptr(),
            work_a.len(),
            work_b.as_mut_ptr(),
            work_b.len(),
            points,
        )
    }
}

// Inputs

/// What one call is given, the words of the work buffers apart.
struct Input {
    list: Vec<u8>,
    pairing: Vec<u8>,
    work: [usize; 2],
}

impl Input {
    // A random input: list, pairing and buffers are good or bad independently of each other.
    fn random(random: &mut Random) -> Input {
        let list = inputs::valid_list(random);
        let pairing = inputs::good_or_bad_pairing(random, &list);
        let list = inputs::good_or_bad_list(random, list);
        let work = lent::work_lengths(random);
        Input {
            list,
            pairing,
            work,
        }
    }

    // The answer of the reference.
    fn answer(&self) -> Result<u64, u32> {
        reference::weigh(&self.list, &self.pairing, self.work[0], self.work[1])
    }

    // Every refusal that holds, by the reference.
    fn refusals(&self) -> Vec<u32> {
        reference::weigh_refusals(&self.list, &self.pairing, self.work[0], self.work[1])
    }
}

// Worked rows

/// A call of weigh with the answer that the document gives.
struct WorkedRow {
    name: &'static str,
    input: Input,
    answer: Result<u64, u32>,
}

// A worked row with work buffers that are long enough.
fn row(name: &'static str, list: Vec<u8>, pairing: Vec<u8>, answer: Result<u64, u32>) -> WorkedRow {
    WorkedRow {
        name,
        input: Input {
            list,
            pairing,
            work: [WORK_WORDS; 2],
        },
        answer,
    }
}

// The worked rows; the first ones are in bytes, so that they fix the layout of the files.
fn worked_rows() -> Vec<WorkedRow> {
    let mut rows = rows_in_bytes();
    rows.extend(rows_of_order());
    rows.extend(rows_of_size());
    rows.extend(rows_of_buffers());
    rows
}

/// The first list, 0-1:10, 1-2:1, 2-3:10, and its pairing 0-1, 2-3.
const FIRST_LIST: [u8; 19] = [
    0x10, 0x08, 0x00, 0x30, 0x00, 0x00, 0x10, 0x00, 0x0A, 0x00, 0x40, 0x20, 0x00, 0x01, 0x00, 0x80,
    0x30, 0x00, 0x0A,
];
const FIRST_PAIRING: [u8; 10] = [0x40, 0x08, 0x00, 0x20, 0x00, 0x00, 0x10, 0x00, 0x80, 0x30];

// Rows written byte by byte.
fn rows_in_bytes() -> Vec<WorkedRow> {
    let zero_list = vec![0x10, 0x04, 0x00, 0x10, 0x00, 0x00, 0x10, 0x00, 0x00];
    let zero_pairing = vec![0x40, 0x04, 0x00, 0x10, 0x00, 0x00, 0x10];
    let wide_entry = [0x00, 0x3F, 0xF0, 0x00, 0x07];
    let wide_list = |header: [u8; 4]| [&header[..], &wide_entry].concat();
    let wide_pairing = vec![0x48, 0x00, 0x00, 0x10, 0x00, 0x3F, 0xF0];
    vec![
        row(
            "the first list",
            FIRST_LIST.to_vec(),
            FIRST_PAIRING.to_vec(),
            Ok(20),
        ),
        row(
            "n = 0, m = 0",
            vec![0x10, 0, 0, 0],
            vec![0x40, 0, 0, 0],
            Ok(0),
        ),
        row("0-1:0, pairing 0-1", zero_list, zero_pairing, Ok(0)),
        row(
            "n = 1,024 with cell 1,023",
            wide_list([0x18, 0x00, 0x00, 0x10]),
            wide_pairing.clone(),
            Ok(7),
        ),
        row(
            "n = 1,023 with cell 1,023",
            wide_list([0x17, 0xFE, 0x00, 0x10]),
            wide_pairing.clone(),
            Err(5),
        ),
        row(
            "n = 1,025",
            wide_list([0x18, 0x02, 0x00, 0x10]),
            wide_pairing,
            Err(3),
        ),
        row("an empty list", vec![], FIRST_PAIRING.to_vec(), Err(2)),
        row("an empty pairing file", FIRST_LIST.to_vec(), vec![], Err(9)),
        row(
            "a raw list",
            of_raw_kind(&FIRST_LIST),
            FIRST_PAIRING.to_vec(),
            Err(2),
        ),
        row(
            "a pairing of kind 6",
            FIRST_LIST.to_vec(),
            of_raw_kind(&FIRST_PAIRING),
            Err(9),
        ),
    ]
}

// Rows on the order of refusals, 5 before 6 and 9 before 10.
fn rows_of_order() -> Vec<WorkedRow> {
    let late_cell = vec![[1, 2, 1], [0, 1, 1], [3, 3, 1]];
    let triangle = Form::list(3, vec![[0, 1, 5], [0, 2, 4], [1, 2, 3]]).bytes();
    let of_triangle = |name, pairs: Vec<Entry>, answer| {
        row(
            name,
            triangle.clone(),
            Form::pairing(3, pairs).bytes(),
            answer,
        )
    };
    vec![
        row(
            "n = 4: 1-2, 0-1, 3-3",
            Form::list(4, late_cell).bytes(),
            FIRST_PAIRING.to_vec(),
            Err(5),
        ),
        of_triangle("0-1, 0-2", vec![[0, 1, 0], [0, 2, 0]], Err(9)),
        of_triangle("0-2, 1-2", vec![[0, 2, 0], [1, 2, 0]], Err(10)),
        of_triangle("0-1, 1-2", vec![[0, 1, 0], [1, 2, 0]], Err(10)),
        of_triangle("0-2", vec![[0, 2, 0]], Ok(4)),
    ]
}

// Rows on the largest lists and the most points.
fn rows_of_size() -> Vec<WorkedRow> {
    let all = |count| {
        all_pairs(1024)
            .take(count)
            .map(|(a, b)| [a, b, 1])
            .collect()
    };
    let last = all_pairs(1024).nth(4095).map(|(a, b)| [a, b, 0]);
    let last_pairing = Form::pairing(1024, last.into_iter().collect()).bytes();
    let mut short_of_bytes = Form::list(1024, all(4097));
    short_of_bytes.keep = Some(20_485);
    let couples: Vec<Entry> = (0..512)
        .map(|couple| [2 * couple, 2 * couple + 1, 1_048_575])
        .collect();
    let couples_pairing = couples.iter().map(|&[a, b, _]| [a, b, 0]).collect();
    vec![
        row(
            "m = 4,096",
            Form::list(1024, all(4096)).bytes(),
            last_pairing.clone(),
            Ok(1),
        ),
        row(
            "m = 4,097",
            Form::list(1024, all(4097)).bytes(),
            last_pairing.clone(),
            Err(3),
        ),
        row(
            "m = 4,097, cut short",
            short_of_bytes.bytes(),
            last_pairing,
            Err(3),
        ),
        row(
            "512 pairs of the largest points",
            Form::list(1024, couples).bytes(),
            Form::pairing(1024, couples_pairing).bytes(),
            Ok(536_870_400),
        ),
    ]
}

// The pairs of n cells in order.
fn all_pairs(n: u64) -> impl Iterator<Item = (u64, u64)> {
    (0..n).flat_map(move |a| (a + 1..n).map(move |b| (a, b)))
}

// The first list in every two lengths of work buffers, and an empty one in short buffers.
fn rows_of_buffers() -> Vec<WorkedRow> {
    let mut rows = Vec::new();
    for a in WORK_LENGTHS {
        for b in WORK_LENGTHS {
            let answer = if a < WORK_WORDS || b < WORK_WORDS {
                Err(1)
            } else {
                Ok(20)
            };
            let input = Input {
                list: FIRST_LIST.to_vec(),
                pairing: FIRST_PAIRING.to_vec(),
                work: [a, b],
            };
            rows.push(WorkedRow {
                name: "the first list in lent buffers",
                input,
                answer,
            });
        }
    }
    let nothing = Input {
        list: vec![],
        pairing: vec![],
        work: [WORK_WORDS, 0],
    };
    rows.push(WorkedRow {
        name: "empty files and an empty buffer",
        input: nothing,
        answer: Err(1),
    });
    rows
}

// The comparison

// Makes one call and says all that is wrong about it.
fn compare(random: &mut Random, input: &Input, expected: Result<u64, u32>) -> Vec<String> {
    let files = Files::new(random, &[&input.list, &input.pairing]);
    let mut work = Work::new(random, input.work);
    let before = [random.word(), random.word(), random.word()];
    let mut words = before;
    let (work_a, work_b) = work.buffers();
    let number = call_weigh(files.file(0), files.file(1), work_a, work_b, &mut words[1]);

    let mut wrong = Vec::new();
    let (expected_number, expected_points) = match expected {
        Ok(points) => (0, points),
        Err(number) => (number, before[1]),
    };
    if number != expected_number {
        wrong.push(format!("the answer is {number} and not {expected_number}"));
    }
    if words[1] != expected_points {
        wrong.push(format!(
            "the points are {} and not {expected_points}; before the call {}",
            words[1], before[1]
        ));
    }
    if words[0] != before[0] || words[2] != before[2] {
        wrong.push("a word beside the points was changed".to_string());
    }
    files.differences(&mut wrong);
    work.differences(&mut wrong);
    wrong
}

// Prints a call that went wrong, whole, and ends the comparison.
fn report(name: &str, input: &Input, expected: Result<u64, u32>, wrong: &[String]) -> ! {
    println!("MISMATCH in weigh, {name}");
    println!(
        "list ({} bytes): {}",
        input.list.len(),
        hexadecimal(&input.list)
    );
    println!(
        "pairing ({} bytes): {}",
        input.pairing.len(),
        hexadecimal(&input.pairing)
    );
    println!(
        "work buffers: {} and {} words",
        input.work[0], input.work[1]
    );
    match expected {
        Ok(points) => println!("expected: accepted, {points} points"),
        Err(number) => println!("expected: refusal {number}"),
    }
    for line in wrong {
        println!("came: {line}");
    }
    println!("FAIL");
    exit(1)
}

// The whole run

/// What was met of weigh so far, with sums over the accepted calls.
pub struct Weighing {
    counts: Counts,
    nonzero: u64,
    largest: u64,
    sum: u64,
    longest: [usize; 2],
}

impl Weighing {
    // Nothing met yet.
    fn new() -> Weighing {
        Weighing {
            counts: Counts::new(&REFUSALS),
            nonzero: 0,
            largest: 0,
            sum: 0,
            longest: [0; 2],
        }
    }

    /// Compares the worked rows, then so many random calls; ends at the first difference.
    pub fn run(seed: u64, calls: u64) -> Weighing {
        let mut weighing = Weighing::new();
        weighing.run_worked_rows(seed);
        weighing.run_random_calls(seed, calls);
        weighing
    }

    // Compares the worked rows, the reference with them too.
    fn run_worked_rows(&mut self, seed: u64) {
        let mut random = Random::new(seed);
        for row in worked_rows() {
            let answer = row.input.answer();
            if answer != row.answer {
                let line = format!("the reference answers {answer:?}");
                report(row.name, &row.input, row.answer, &[line]);
            }
            self.run_call(&mut random, row.name, &row.input, row.answer);
        }
    }

    // Compares random calls, each made from the seed and its own number.
    fn run_random_calls(&mut self, seed: u64, calls: u64) {
        for call in 0..calls {
            let mut random = Random::new(Random::new(seed ^ call.rotate_left(32)).word());
            let input = Input::random(&mut random);
            let name = format!("random call {call} of seed {seed}");
            self.run_call(&mut random, &name, &input, input.answer());
        }
    }

    // Compares one call and counts it.
    fn run_call(
        &mut self,
        random: &mut Random,
        name: &str,
        input: &Input,
        expected: Result<u64, u32>,
    ) {
        let wrong = compare(random, input, expected);
        if !wrong.is_empty() {
            report(name, input, expected, &wrong);
        }
        match expected {
            Ok(points) => self.accept(input, points),
            Err(number) => self.counts.refuse(input.work, number, &input.refusals()),
        }
    }

    // Counts an accepted call.
    fn accept(&mut self, input: &Input, points: u64) {
        self.counts.accept(input.work);
        self.nonzero += u64::from(points > 0);
        self.largest = self.largest.max(points);
        self.sum += points;
        self.longest[0] = self.longest[0].max(input.list.len());
        self.longest[1] = self.longest[1].max(input.pairing.len());
    }

    /// Prints the tables and the sums, and says what was met too seldom.
    pub fn print(&self) -> Vec<String> {
        println!("weigh");
        self.counts.print();
        println!("accepted with points above zero {}", self.nonzero);
        println!(
            "largest points {}, sum of points {}",
            self.largest, self.sum
        );
        let [list, pairing] = self.longest;
        println!("longest accepted list {list} bytes, longest accepted pairing {pairing} bytes");
        self.counts.shortfalls()
    }
}

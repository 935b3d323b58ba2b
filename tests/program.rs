//! The test of the program: what it prints for what it is given on standard
//! input, against the document's text and the independent implementation.
//!
//!     program [PROGRAM [SEED [LISTS]]]
//!
//! Every run must end with status 0 and leave standard error empty. Exit status
//! 1 at the first run that differs, or if some answer was met too seldom.

// Of the files that are shared with the comparison, only a part is used here.
#![allow(dead_code)]

use std::collections::BTreeMap;
use std::env;
use std::fs;
use std::io::Write;
use std::process::{exit, Command, Output, Stdio};
use std::thread;
use std::time::{Duration, Instant};

mod graph;
mod groups;
mod inputs;
mod lifting;
mod printed;
mod reference;
mod rows;
mod shapes;
mod slips;

use groups::Fate;
use inputs::{Entry, Form, Random};
use printed::{printed, MOST_READ};
use rows::{all_pairs, first_pairs, list, raw_list, FIRST_LIST};

const PROGRAM: &str = "crates/pairing/out/pairing";
const SEED: u64 = 20_180_820;
const LISTS: u64 = 450;
/// The pause between two pieces of an input.
const PAUSE: Duration = Duration::from_millis(15);
/// How often each answer must be met at least.
const FEWEST: u64 = 5;

/// The text for the first list, as the document has it.
const FIRST_TEXT: &str = "steps 2
carried 20
short 0
pair 0 1 10
pair 2 3 10
total 20
";

/// The whole text for the sample of two makes by turns, twelve cells of each.
const TEXT_OF_TWICE: &str = "steps 0
carried 0
short 132
pair 0 2 1
pair 1 3 1
pair 4 6 1
pair 5 7 1
pair 8 10 1
pair 9 11 1
pair 12 14 1
pair 13 15 1
pair 16 18 1
pair 17 19 1
pair 20 22 1
pair 21 23 1
total 12
";

/// The samples with the end of their text, as samples/README.md has them.
const SAMPLES: [(&str, &str); 9] = [
    ("first", "total 20\n"),
    ("triangle", "total 5\n"),
    ("ring-of-four", "pair 0 1 5\npair 2 3 5\ntotal 10\n"),
    ("workshop", "total 11427\n"),
    ("store", "total 306341482\n"),
    ("rig", "total 2750\n"),
    ("twice", TEXT_OF_TWICE),
    ("thirteen", "refused 11\n"),
    ("damaged", "refused 4\n"),
];

/// The runs so far: the program, and how often each first word and number was met.
struct Runs {
    program: String,
    met: BTreeMap<String, u64>,
    runs: u64,
}

// One run

// Gives the program the pieces one after the other and waits until it ends. It
// may end before it has read all of them.
fn run(program: &str, pieces: &[&[u8]]) -> Output {
    let mut command = Command::new(program);
    command.stdin(Stdio::piped());
    command.stdout(Stdio::piped()).stderr(Stdio::piped());
    let mut child = command.spawn().unwrap_or_else(|error| {
        println!("{program} does not start: {error}");
        println!("FAIL");
        exit(1)
    });
    let mut input = child.stdin.take().expect("a pipe");
    thread::scope(|scope| {
        scope.spawn(move || {
            for (place, piece) in pieces.iter().enumerate() {
                if place > 0 {
                    thread::sleep(PAUSE);
                }
                if input.write_all(piece).is_err() {
                    return;
                }
            }
        });
        child.wait_with_output().expect("an output")
    })
}

impl Runs {
    // Runs the program on the pieces of an input, and compares what it prints.
    fn compare(&mut self, name: &str, pieces: &[&[u8]], text: &str) {
        let output = run(&self.program, pieces);
        let right = output.status.code() == Some(0)
            && output.stderr.is_empty()
            && output.stdout == text.as_bytes();
        if !right {
            report(name, &pieces.concat(), text, &output);
        }
        self.runs += 1;
        *self.met.entry(answer_of(text)).or_default() += 1;
    }

    // The same in one piece, with the text of the reference.
    fn compare_whole(&mut self, name: &str, given: &[u8]) {
        self.compare(name, &[given], &printed(given));
    }

    // The same with a text that was worked out by hand, the reference with it too.
    fn compare_worked(&mut self, name: &str, given: &[u8], text: &str) {
        let by_reference = printed(given);
        if by_reference != text {
            println!("FAULT of the reference: {name}: {by_reference}and not\n{text}");
            println!("FAIL");
            exit(1);
        }
        self.compare(name, &[given], text);
    }
}

// The answer of a text: paired, or its line if it is refused.
fn answer_of(text: &str) -> String {
    let line = text.lines().next().unwrap_or("");
    if line.starts_with("refused") {
        line.to_string()
    } else {
        "paired".to_string()
    }
}

// Prints a run that went wrong, whole, and ends the test.
fn report(name: &str, given: &[u8], text: &str, output: &Output) -> ! {
    let hexadecimal: String = given.iter().map(|byte| format!("{byte:02X}")).collect();
    println!("MISMATCH in the program, {name}");
    println!("input ({} bytes): {hexadecimal}", given.len());
    println!("expected:\n{text}");
    println!("came:\n{}", String::from_utf8_lossy(&output.stdout));
    println!("status: {}", output.status);
    println!("error: {}", String::from_utf8_lossy(&output.stderr));
    println!("FAIL");
    exit(1)
}

// Worked inputs

// Lists whose text follows from the document by hand.
fn run_worked_lists(runs: &mut Runs) {
    let triangle = list(3, "0-1:5, 0-2:4, 1-2:3");
    let heaviest_last = list(3, "0-1:3, 1-2:8");
    let four = list(4, &all_pairs(4));
    let nothing = "steps 0\ncarried 0\nshort 0\ntotal 0\n";
    let of_triangle = "steps 2\ncarried 5\nshort 0\npair 0 1 5\ntotal 5\n";
    let of_last = "steps 2\ncarried 8\nshort 0\npair 1 2 8\ntotal 8\n";
    let of_four = "steps 0\ncarried 0\nshort 6\npair 0 1 1\npair 2 3 1\ntotal 2\n";
    runs.compare_worked("the first list", &FIRST_LIST, FIRST_TEXT);
    runs.compare_worked("the empty list", &[0x10, 0, 0, 0], nothing);
    runs.compare_worked("no pairs", &list(1024, ""), nothing);
    runs.compare_worked("zero points", &list(2, "0-1:0"), nothing);
    runs.compare_worked("a triangle", &triangle, of_triangle);
    runs.compare_worked("0-1:3, 1-2:8", &heaviest_last, of_last);
    runs.compare_worked("all pairs of four cells", &four, of_four);
    runs.compare_worked("12 cells", &beside(&[12]), &text_of_twelve(1));
    runs.compare_worked("12 cells twice", &beside(&[12, 12]), &text_of_twelve(2));
    runs.compare_worked("12 cells 62 times", &beside(&[12; 62]), &text_of_twelve(62));
    runs.compare_worked("512 pairs", &couples(), &text_of_couples());
}

// The list of all pairs of so many cells with one point each, beside all pairs of so
// many others, and so on.
fn beside(sizes: &[u64]) -> Vec<u8> {
    let mut entries: Vec<Entry> = Vec::new();
    let mut first = 0;
    for cells in sizes {
        let end = first + cells;
        entries.extend((first..end).flat_map(|a| (a + 1..end).map(move |b| [a, b, 1])));
        first = end;
    }
    Form::list(first, entries).bytes()
}

// The text of all pairs of 12 cells with one point each, so many times over.
fn text_of_twelve(times: u64) -> String {
    let pairs = (0..6 * times).map(|pair| format!("pair {} {} 1\n", 2 * pair, 2 * pair + 1));
    format!(
        "steps 0\ncarried 0\nshort {}\n{}total {}\n",
        66 * times,
        pairs.collect::<String>(),
        6 * times
    )
}

// 512 pairs of the largest points that have no cell in common.
fn couples() -> Vec<u8> {
    let entries: Vec<Entry> = (0..512).map(|c| [2 * c, 2 * c + 1, 1_048_575]).collect();
    Form::list(1024, entries).bytes()
}

// The text of them: 512 leaves.
fn text_of_couples() -> String {
    let pairs = (0..512).map(|pair| format!("pair {} {} 1048575\n", 2 * pair, 2 * pair + 1));
    format!(
        "steps 512\ncarried 536870400\nshort 0\n{}total 536870400\n",
        pairs.collect::<String>()
    )
}

// Inputs that are refused.
fn run_worked_refusals(runs: &mut Runs) {
    let first = |change: &dyn Fn(&mut Form)| {
        let mut form = Form::list(4, vec![[0, 1, 10], [1, 2, 1], [2, 3, 10]]);
        change(&mut form);
        form.bytes()
    };
    let refused: [(&str, Vec<u8>, u32); 21] = [
        ("no input", vec![], 2),
        ("three bytes", FIRST_LIST[..3].to_vec(), 2),
        ("kind 2", first(&|form| form.kind = 2), 2),
        ("kind 0", first(&|form| form.kind = 0), 2),
        ("kind 6", first(&|form| form.kind = 6), 2),
        ("a raw list", raw_list(4, "3-1:5, 0-1:7, 1-3:9"), 2),
        ("a header zero bit", first(&|form| form.zero = 1), 2),
        ("n = 1,025", first(&|form| form.n = 1025), 3),
        ("m = 4,097", first(&|form| form.m = 4097), 3),
        ("m = 2", first(&|form| form.m = 2), 4),
        ("m = 4", first(&|form| form.m = 4), 4),
        ("a byte missing", FIRST_LIST[..18].to_vec(), 4),
        ("a byte too many", [&FIRST_LIST[..], &[0]].concat(), 4),
        ("n = 3", first(&|form| form.n = 3), 5),
        ("3-3", first(&|form| form.entries[2] = [3, 3, 1]), 5),
        ("5 before 6", list(4, "1-2:1, 0-1:1, 3-3:1"), 5),
        (
            "an entry twice",
            first(&|form| form.entries[1] = [0, 1, 1]),
            6,
        ),
        ("not ascending", first(&|form| form.entries.swap(0, 1)), 6),
        ("13 cells", list(13, &all_pairs(13)), 11),
        ("12 and 13 cells", beside(&[12, 13]), 11),
        ("13 and 12 cells", beside(&[13, 12]), 11),
    ];
    for (name, given, number) in refused {
        runs.compare_worked(name, &given, &format!("refused {number}\n"));
    }
}

// The longest inputs: at most 20,485 bytes are read.
fn run_long_inputs(runs: &mut Runs) {
    let mut among_zeros = first_pairs(4096);
    among_zeros.iter_mut().for_each(|entry| entry[2] = 0);
    among_zeros[4095][2] = 7;
    let [a, b, _] = among_zeros[4095];
    let text = format!("steps 1\ncarried 7\nshort 0\npair {a} {b} 7\ntotal 7\n");
    let among_zeros = Form::list(1024, among_zeros).bytes();
    runs.compare_worked("m = 4,096", &among_zeros, &text);
    let full = Form::list(1024, first_pairs(4096)).bytes();
    runs.compare_worked("m = 4,096, no step", &full, "refused 11\n");
    let more = Form::list(1024, first_pairs(4097)).bytes();
    runs.compare_worked("m = 4,097", &more, "refused 3\n");
    let mut slip = among_zeros.clone();
    slip[0] = 0x38;
    for length in [MOST_READ, MOST_READ + 1, MOST_READ + 4, 30_000, 400_000] {
        let longer = |list: &[u8]| [list, &vec![0; length - list.len()]].concat();
        runs.compare_worked("too long", &longer(&among_zeros), "refused 4\n");
        runs.compare_worked("first list, too long", &longer(&FIRST_LIST), "refused 4\n");
        runs.compare_worked("a slip, too long", &longer(&slip), "refused 2\n");
    }
    for length in [30_000, 400_000] {
        let longer = [&more[..], &vec![0; length - more.len()]].concat();
        runs.compare_worked("m = 4,097, too long", &longer, "refused 3\n");
    }
}

// Every bit of the first list turned round, and every length it can be cut to.
fn run_damaged_lists(runs: &mut Runs) {
    for bit in 0..8 * FIRST_LIST.len() {
        let mut given = FIRST_LIST;
        given[bit / 8] ^= 0x80 >> (bit % 8);
        runs.compare_whole(&format!("bit {bit} turned round"), &given);
    }
    for length in 0..FIRST_LIST.len() {
        runs.compare_whole(&format!("{length} bytes"), &FIRST_LIST[..length]);
    }
}

// Inputs that come in pieces, which end within the header, an entry or a number.
fn run_pieces(runs: &mut Runs) {
    let bytes: Vec<&[u8]> = FIRST_LIST.chunks(1).collect();
    let (head, tail) = FIRST_LIST.split_at(7);
    runs.compare("in two pieces", &[head, tail], FIRST_TEXT);
    runs.compare("with an empty piece", &[head, &[], tail], FIRST_TEXT);
    runs.compare("nothing first", &[&[], &FIRST_LIST], FIRST_TEXT);
    runs.compare("byte by byte", &bytes, FIRST_TEXT);
    runs.compare(
        "stopped within an entry",
        &[head, &tail[..5]],
        "refused 4\n",
    );
    let couples = couples();
    let pieces: Vec<&[u8]> = couples.chunks(1000).collect();
    runs.compare("512 pairs in pieces", &pieces, &text_of_couples());
    let mut full = Form::list(1024, first_pairs(4096)).bytes();
    let pieces: Vec<&[u8]> = full.chunks(4099).collect();
    runs.compare("m = 4,096 in pieces", &pieces, "refused 11\n");
    full.extend([0; 300]);
    let pieces: Vec<&[u8]> = full.chunks(20_484).collect();
    runs.compare("too long in pieces", &pieces, "refused 4\n");
}

// The samples: the ends that their README has, and the reference's text.
fn run_samples(runs: &mut Runs) {
    for (name, end) in SAMPLES {
        let path = format!("samples/{name}.bin");
        let given = fs::read(&path).unwrap_or_else(|wrong| panic!("{path}: {wrong}"));
        let text = printed(&given);
        if !text.ends_with(end) {
            println!("FAULT of the reference: {path}: {text}and not\n{end}");
            println!("FAIL");
            exit(1);
        }
        runs.compare(&path, &[&given], &text);
    }
}

// Random inputs

// Random lists, good and bad, some of them in pieces.
fn run_random_lists(runs: &mut Runs, seed: u64, lists: u64) {
    for number in 0..lists {
        let mut random = Random::new(Random::new(seed ^ number.rotate_left(32)).word());
        let (family, list) = match number % 3 {
            0 => groups::list_of_groups(&mut random, Fate::Kept),
            _ => shapes::list_to_lift(&mut random),
        };
        let given = inputs::seldom_bad_list(&mut random, list);
        let name = format!("random list {number} of seed {seed}, {family}");
        let (one, two) = given.split_at(random.place(given.len() + 1));
        let pieces = if random.once_in(4) {
            vec![one, two]
        } else {
            vec![&given[..]]
        };
        runs.compare(&name, &pieces, &printed(&given));
    }
}

// The whole test

// Prints how often each answer was met; whether that is often enough.
fn print_met(runs: &Runs) -> bool {
    let refusals = [2, 3, 4, 5, 6, 11].map(|number| format!("refused {number}"));
    let mut enough = true;
    for answer in ["paired".to_string()].iter().chain(&refusals) {
        let met = runs.met.get(answer).copied().unwrap_or(0);
        println!("  {answer:<12}{met:>8}");
        enough &= met >= FEWEST;
    }
    enough
}

// Runs the test and ends with 0, 1 for a difference or too few runs, 2 for bad arguments.
fn main() {
    let words: Vec<String> = env::args().skip(1).collect();
    let number = |place: usize, usual: u64| match words.get(place) {
        None => Some(usual),
        Some(word) => word.parse().ok(),
    };
    let (Some(seed), Some(lists), true) = (number(1, SEED), number(2, LISTS), words.len() <= 3)
    else {
        println!("usage: program [PROGRAM [SEED [LISTS]]]");
        exit(2);
    };
    let mut runs = Runs {
        program: words.first().map_or(PROGRAM, String::as_str).to_string(),
        met: BTreeMap::new(),
        runs: 0,
    };
    let start = Instant::now();
    run_worked_lists(&mut runs);
    run_worked_refusals(&mut runs);
    run_long_inputs(&mut runs);
    run_damaged_lists(&mut runs);
    run_pieces(&mut runs);
    run_samples(&mut runs);
    run_random_lists(&mut runs, seed, lists);
    let seconds = start.elapsed().as_secs_f64();
    println!("program: {} runs, {seconds:.2} seconds", runs.runs);
    let enough = print_met(&runs);
    println!("{}", if enough { "PASS" } else { "FAIL" });
    exit(i32::from(!enough));
}

//! The comparison of the calls that write files, replay, reduce, solve, lift,
//! pair and tidy: worked rows, random calls, and the check of one call against the
//! reference.

use std::ops::Range;
use std::process::exit;
use std::time::{Duration, Instant};

use crate::cases;
use crate::counts::{Counts, Tally};
use crate::inputs::Random;
use crate::lent::{self, Files, Outputs, Work};
use crate::reference::{Answer, Input, WORK_WORDS};
use crate::rows::{Row, PLENTY};
use crate::shapes;

/// A call that writes files.
pub trait Call {
    const NAME: &'static str;
    /// The refusals of the call in checking order.
    const REFUSALS: &'static [u32];
    /// The families of the lists of random calls.
    const FAMILIES: &'static [&'static str] = &shapes::FAMILIES;
    /// The cases that must be met, in groups, beside those of every call.
    const CASES: &'static [&'static [&'static str]];
    /// How often each family must be accepted and each case met at least.
    const FEWEST: u64 = 5;
    /// Cases that the comparison is made for, and how often each must be met at least.
    const MADE_FOR: (u64, &'static [&'static str]) = (0, &[]);

    /// The worked rows.
    fn rows() -> Vec<Row>;
    /// Files for a random call, good or bad, and the family of their list.
    fn files(random: &mut Random) -> (&'static str, Vec<Vec<u8>>);
    /// The reference over these files.
    fn input(files: &[Vec<u8>]) -> Input;
    /// Makes the call: 0 with a length for each output, or the refusal's number.
    fn call(
        files: &Files,
        work: (&mut [u64], &mut [u64]),
        outputs: Vec<&mut [u8]>,
        lengths: &mut [u64],
    ) -> u32;
    /// The cases that hold of a call, with what it was lent and its answer.
    fn cases(
        input: &Input,
        work: [usize; 2],
        room: &[usize],
        answer: &Answer,
    ) -> Vec<&'static str> {
        cases::cases(input, work, room, answer)
    }
}

/// What one call is given, the words of the work buffers and outputs apart.
struct Given {
    name: String,
    files: Vec<Vec<u8>>,
    work: [usize; 2],
    room: Vec<usize>,
}

// The numbers that a call answers

/// The lengths that a call writes, with a word before, between and after them.
struct Lengths {
    words: Vec<u64>,
    before: Vec<u64>,
}

impl Lengths {
    // Random words, one for each length and one round each.
    fn new(random: &mut Random, count: usize) -> Lengths {
        let words: Vec<u64> = (0..2 * count + 1).map(|_| random.word()).collect();
        Lengths {
            before: words.clone(),
            words,
        }
    }

    // Says if a length is not that of its file, or any other word not what it was.
    fn differences(&self, files: &[Vec<u8>], wrong: &mut Vec<String>) {
        let mut expected = self.before.clone();
        for (place, file) in files.iter().enumerate() {
            expected[2 * place + 1] = file.len() as u64;
        }
        if self.words != expected {
            wrong.push(format!(
                "the lengths, with the words round them, are {:?} and not {expected:?}",
                self.words
            ));
        }
    }
}

// The comparison

/// What was met of a call so far, and the time spent in it.
pub struct Comparison<C: Call> {
    counts: Counts,
    families: Tally,
    accepted_families: Tally,
    cases: Tally,
    made_for: Tally,
    steps: usize,
    most_steps: usize,
    time: Duration,
    call: std::marker::PhantomData<C>,
}

impl<C: Call> Comparison<C> {
    // Nothing met yet.
    fn new() -> Self {
        let names = [&cases::OF_LENT[..], &C::CASES.concat()].concat();
        let tally = |title, names| Tally::at_least(C::FEWEST, title, names);
        Comparison {
            counts: Counts::new(C::REFUSALS),
            families: tally("calls by family of the list", C::FAMILIES),
            accepted_families: tally("accepted calls by family", C::FAMILIES),
            cases: tally("special cases", &names),
            made_for: Tally::at_least(C::MADE_FOR.0, "what the calls are made for", C::MADE_FOR.1),
            steps: 0,
            most_steps: 0,
            time: Duration::ZERO,
            call: std::marker::PhantomData,
        }
    }

    /// Compares the worked rows, then the random calls of these numbers; ends at
    /// the first difference.
    pub fn run(seed: u64, calls: Range<u64>) -> Self {
        let mut comparison = Self::new();
        comparison.run_worked_rows(seed);
        comparison.run_random_calls(seed, calls);
        comparison
    }

    // Compares the worked rows, with their own answers.
    fn run_worked_rows(&mut self, seed: u64) {
        let mut random = Random::new(seed);
        for row in C::rows() {
            let given = Given {
                name: row.name,
                files: row.files,
                work: row.work,
                room: row.room,
            };
            let mut input = C::input(&given.files);
            input.lend(given.work, &given.room);
            self.run_call(&mut random, &given, &input, &row.answer);
        }
    }

    // Compares random calls, each made from the seed and its own number.
    fn run_random_calls(&mut self, seed: u64, calls: Range<u64>) {
        for call in calls {
            let mut random = Random::new(Random::new(seed ^ call.rotate_left(32)).word());
            let (family, files) = C::files(&mut random);
            let mut input = C::input(&files);
            let work = lent::work_lengths(&mut random);
            let lengths = input.lengths();
            let room = lengths
                .iter()
                .map(|&length| lent::room(&mut random, length));
            let given = Given {
                name: format!("random call {call} of seed {seed}, {family}"),
                room: room.collect(),
                files,
                work,
            };
            input.lend(given.work, &given.room);
            let answer = input.answer();
            self.run_call(&mut random, &given, &input, &answer);
            self.families.meet(family);
            if answer.is_ok() {
                self.accepted_families.meet(family);
            }
        }
    }

    // Compares one call and counts it.
    fn run_call(&mut self, random: &mut Random, given: &Given, input: &Input, answer: &Answer) {
        let wrong = self.compare(random, given, input, answer);
        if !wrong.is_empty() {
            report::<C>(given, answer, &wrong);
        }
        match answer {
            Ok(_) => self.counts.accept(given.work),
            Err(number) => self.counts.refuse(given.work, *number, &input.refusals()),
        }
        for case in C::cases(input, given.work, &given.room, answer) {
            match self.made_for.has(case) {
                true => self.made_for.meet(case),
                false => self.cases.meet(case),
            }
        }
        if answer.is_ok() {
            self.steps += input.steps.len();
            self.most_steps = self.most_steps.max(input.steps.len());
        }
    }

    // Makes one call and says all that is wrong about it.
    fn compare(
        &mut self,
        random: &mut Random,
        given: &Given,
        input: &Input,
        answer: &Answer,
    ) -> Vec<String> {
        let files: Vec<&[u8]> = given.files.iter().map(Vec::as_slice).collect();
        let files = Files::new(random, &files);
        let mut work = Work::new(random, given.work);
        let mut outputs = Outputs::new(random, &given.room, &input.lengths());
        let mut lengths = Lengths::new(random, given.room.len());

        let start = Instant::now();
        let number = C::call(
            &files,
            work.buffers(),
            outputs.buffers(),
            &mut lengths.words,
        );
        self.time += start.elapsed();

        let (expected, written) = match answer {
            Ok(written) => (0, &written[..]),
            Err(number) => (*number, &[][..]),
        };
        let mut wrong = Vec::new();
        if number != expected {
            wrong.push(format!("the answer is {number} and not {expected}"));
        }
        lengths.differences(written, &mut wrong);
        outputs.differences(written, &mut wrong);
        files.differences(&mut wrong);
        work.differences(&mut wrong);
        wrong
    }

    /// Prints the tables and the sums, and says what was met too seldom.
    pub fn print(&self) -> Vec<String> {
        println!("{}", C::NAME);
        self.counts.print();
        self.families.print();
        self.accepted_families.print();
        self.cases.print();
        if !C::MADE_FOR.1.is_empty() {
            self.made_for.print();
        }
        if self.steps > 0 {
            println!(
                "steps of accepted calls {}, most in one {}",
                self.steps, self.most_steps
            );
        }
        println!("seconds in the calls {:.2}", self.time.as_secs_f64());
        let mut short = self.counts.shortfalls();
        short.extend(self.accepted_families.shortfalls());
        short.extend(self.cases.shortfalls());
        short.extend(self.made_for.shortfalls());
        short
            .iter()
            .map(|line| format!("{}: {line}", C::NAME))
            .collect()
    }
}

/// What a call answers on these files, with enough lent, and the files it writes; of
/// a call that writes one file the second is empty.
pub fn answer_of<C: Call>(random: &mut Random, files: &[&[u8]]) -> (u32, [Vec<u8>; 2]) {
    let files = Files::new(random, files);
    let mut work = Work::new(random, [WORK_WORDS; 2]);
    let mut written = [vec![0; PLENTY], vec![0; PLENTY]];
    let mut lengths = [0; 5];
    let lent = written.iter_mut().map(Vec::as_mut_slice).collect();
    let number = C::call(&files, work.buffers(), lent, &mut lengths);
    for (file, place) in written.iter_mut().zip([1, 3]) {
        file.truncate(lengths[place] as usize);
    }
    (number, written)
}

// Prints a call that went wrong, whole, and ends the comparison.
fn report<C: Call>(given: &Given, answer: &Answer, wrong: &[String]) -> ! {
    println!("MISMATCH in {}, {}", C::NAME, given.name);
    for (place, file) in given.files.iter().enumerate() {
        println!("file {place}: {}", lent::hexadecimal(file));
    }
    println!("work buffers: {:?} words", given.work);
    println!("outputs: {:?} bytes", given.room);
    match answer {
        Ok(files) => {
            for (place, file) in files.iter().enumerate() {
                println!("expected output {place}: {}", lent::hexadecimal(file));
            }
        }
        Err(number) => println!("expected: refusal {number}"),
    }
    for line in wrong {
        println!("came: {line}");
    }
    println!("FAIL");
    exit(1)
}

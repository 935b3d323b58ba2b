//! Counting what was met, so that a comparison which met too little fails.

use std::collections::BTreeMap;

use crate::lent::WORK_LENGTHS;

/// How often acceptance, each refusal and each refusal beside each later one must
/// be met at least.
const FEWEST_ACCEPTED: u64 = 1000;
const FEWEST_REFUSED: u64 = 100;
const FEWEST_BESIDE: u64 = 20;

/// What was met of one call so far; `refusals` are those that the call has, in
/// checking order.
pub struct Counts {
    refusals: &'static [u32],
    calls: u64,
    accepted: u64,
    refused: BTreeMap<u32, u64>,
    beside: BTreeMap<(u32, u32), u64>,
    work: BTreeMap<[usize; 2], u64>,
}

impl Counts {
    /// Nothing met yet.
    pub fn new(refusals: &'static [u32]) -> Counts {
        Counts {
            refusals,
            calls: 0,
            accepted: 0,
            refused: BTreeMap::new(),
            beside: BTreeMap::new(),
            work: BTreeMap::new(),
        }
    }

    /// Counts an accepted call.
    pub fn accept(&mut self, work: [usize; 2]) {
        self.calls += 1;
        self.accepted += 1;
        *self.work.entry(work).or_default() += 1;
    }

    /// Counts a refused call, with every refusal that holds of it.
    pub fn refuse(&mut self, work: [usize; 2], number: u32, holding: &[u32]) {
        self.calls += 1;
        *self.refused.entry(number).or_default() += 1;
        *self.work.entry(work).or_default() += 1;
        for &other in holding {
            *self.beside.entry((number, other)).or_default() += 1;
        }
    }

    /// Prints the tables.
    pub fn print(&self) {
        self.print_answers();
        self.print_order();
        self.print_work();
    }

    // Prints how often each answer was met.
    fn print_answers(&self) {
        println!("  {:<12}{:>8}", "calls", self.calls);
        println!("  {:<12}{:>8}", "accepted", self.accepted);
        for &number in self.refusals {
            let name = format!("refusal {number}");
            println!("  {name:<12}{:>8}", self.refused(number));
        }
    }

    // Prints how often a refusal was the answer while a later one held too.
    fn print_order(&self) {
        println!("later refusals (column) that held beside the one answered (row)");
        println!("  {:>4}{}", "", columns(self.refusals));
        for (place, &first) in self.refusals.iter().enumerate() {
            let row = self.refusals.iter().enumerate().map(|(at, &other)| {
                if at > place {
                    self.beside(first, other).to_string()
                } else {
                    String::new()
                }
            });
            println!("  {first:>4}{}", columns(&row.collect::<Vec<String>>()));
        }
    }

    // Prints how many calls had each two lengths of work buffers, and each one.
    fn print_work(&self) {
        println!("calls by words of work buffer a (row) and b (column)");
        println!("  {:>4}{}{:>8}", "", columns(&WORK_LENGTHS), "all");
        for a in WORK_LENGTHS {
            let row = WORK_LENGTHS.map(|b| self.with_work(|work| work == [a, b]));
            let all = self.with_work(|work| work[0] == a);
            println!("  {a:>4}{}{all:>8}", columns(&row));
        }
        let row = WORK_LENGTHS.map(|b| self.with_work(|work| work[1] == b));
        println!("  {:>4}{}{:>8}", "all", columns(&row), self.calls);
    }

    // How many calls had work buffers of such lengths.
    fn with_work(&self, wanted: impl Fn([usize; 2]) -> bool) -> u64 {
        let found = self.work.iter().filter(|(&lengths, _)| wanted(lengths));
        found.map(|(_, count)| count).sum()
    }

    // How many calls were refused with this number.
    fn refused(&self, number: u32) -> u64 {
        self.refused.get(&number).copied().unwrap_or(0)
    }

    // How many calls were refused with the first number while the other refusal held too.
    fn beside(&self, first: u32, other: u32) -> u64 {
        self.beside.get(&(first, other)).copied().unwrap_or(0)
    }

    /// Says what was met too seldom for the comparison to mean much.
    pub fn shortfalls(&self) -> Vec<String> {
        let mut short = Vec::new();
        need(&mut short, "acceptance", self.accepted, FEWEST_ACCEPTED);
        for (place, &first) in self.refusals.iter().enumerate() {
            let name = format!("refusal {first}");
            need(&mut short, &name, self.refused(first), FEWEST_REFUSED);
            for &other in &self.refusals[place + 1..] {
                let name = format!("refusal {first} beside {other}");
                need(&mut short, &name, self.beside(first, other), FEWEST_BESIDE);
            }
        }
        short
    }
}

/// How often each of some names was met: families of lists, or special cases.
pub struct Tally {
    fewest: u64,
    title: &'static str,
    names: Vec<&'static str>,
    counts: BTreeMap<&'static str, u64>,
}

impl Tally {
    /// Nothing met yet of these names, each of which must be met so often.
    pub fn at_least(fewest: u64, title: &'static str, names: &[&'static str]) -> Tally {
        Tally {
            fewest,
            title,
            names: names.to_vec(),
            counts: BTreeMap::new(),
        }
    }

    /// Counts a name; one that is not of this tally is an error of the comparison.
    pub fn meet(&mut self, name: &'static str) {
        assert!(self.has(name), "no name of a tally: {name}");
        *self.counts.entry(name).or_default() += 1;
    }

    /// Whether a name is of this tally.
    pub fn has(&self, name: &str) -> bool {
        self.names.contains(&name)
    }

    // How often a name was met.
    fn met(&self, name: &str) -> u64 {
        self.counts.get(name).copied().unwrap_or(0)
    }

    /// Prints the table.
    pub fn print(&self) {
        println!("{}", self.title);
        for name in &self.names {
            println!("  {name:<40}{:>8}", self.met(name));
        }
    }

    /// Says which names were met too seldom.
    pub fn shortfalls(&self) -> Vec<String> {
        let mut short = Vec::new();
        for name in &self.names {
            need(&mut short, name, self.met(name), self.fewest);
        }
        short
    }
}

// Says that something was met too seldom, if it was.
fn need(short: &mut Vec<String>, name: &str, count: u64, fewest: u64) {
    if count < fewest {
        short.push(format!("{name} was met {count} times, fewer than {fewest}"));
    }
}

// The items in columns of eight places.
fn columns<T: ToString>(items: &[T]) -> String {
    let fields = items.iter().map(|item| format!("{:>8}", item.to_string()));
    fields.collect()
}

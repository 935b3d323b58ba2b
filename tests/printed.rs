//! What the program prints, by the independent implementation.

use crate::reference::{Input, WORK_WORDS};

/// The most bytes that the program reads.
pub const MOST_READ: usize = 20_485;

/// What the program prints for what it is given on standard input.
pub fn printed(given: &[u8]) -> String {
    let read = &given[..given.len().min(MOST_READ)];
    let mut input = Input::pair(read);
    let room = input.lengths();
    input.lend([WORK_WORDS; 2], &room);
    match input.answer() {
        Err(number) => format!("refused {number}\n"),
        Ok(_) => lines(&input),
    }
}

// The lines of a list that is paired: steps in the slip, carried points, entries
// in the short list, each pair with its cells and list points, and the total.
fn lines(input: &Input) -> String {
    let points = input.entries();
    let mut lines = vec![
        format!("steps {}", input.steps.len()),
        format!("carried {}", input.left.carried),
        format!("short {}", input.left.graph.pairs().len()),
    ];
    let mut total = 0;
    for (a, b) in input.lifted().held.pairs() {
        let points = points[&(a, b)];
        total += points;
        lines.push(format!("pair {a} {b} {points}"));
    }
    lines.push(format!("total {total}"));
    lines.iter().map(|line| format!("{line}\n")).collect()
}

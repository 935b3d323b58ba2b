//! Slips for replay, solve and lift: steps that are allowed where they stand, drawn at random
//! from all that are, and faults put into them on purpose.

use crate::graph::{self, Graph, Named, Step, CHAIN, LEAF, RING};
use crate::inputs::{self, Form, Random, LARGEST_CELL, LARGEST_M};

const RULES: [u64; 3] = [LEAF, RING, CHAIN];
/// The largest rule that 6 bits hold.
const LARGEST_RULE: u64 = 63;

// Allowed slips

/// The working graph of a list that is valid.
pub fn graph_of(list: &Form) -> Graph {
    let entries = list.entries.iter();
    Graph::new(entries.map(|&[a, b, points]| ((a, b), points)))
}

/// Steps that are allowed where they stand: drawn from all, of one rule before
/// the others, or those of reduce; as many as there are, or fewer.
pub fn allowed_slip(random: &mut Random, graph: Graph) -> Vec<Named> {
    let mut slip = match random.below(8) {
        0 => graph::reduce(graph).1,
        1..=4 => drawn_slip(random, graph, None),
        _ => {
            let rule = random.one_of(&RULES);
            drawn_slip(random, graph, Some(rule))
        }
    };
    if random.once_in(4) {
        slip.truncate(random.place(slip.len() + 1));
    }
    slip
}

/// A few steps that are allowed where they stand, chains before the others, so
/// that much is left that steps made.
pub fn few_chains(random: &mut Random, graph: Graph) -> Vec<Named> {
    let mut slip = drawn_slip(random, graph, Some(CHAIN));
    slip.truncate(random.place(5));
    slip
}

// Draws each next step from all that are allowed, those of one rule first, until there is none.
fn drawn_slip(random: &mut Random, mut graph: Graph, first: Option<u64>) -> Vec<Named> {
    let mut slip = Vec::new();
    loop {
        let mut steps = graph.steps();
        if steps.iter().any(|step| Some(step.named().rule) == first) {
            steps.retain(|step| Some(step.named().rule) == first);
        }
        let Some(step) = steps.get(random.place(steps.len())) else {
            return slip;
        };
        slip.push(step.named());
        graph.take(step);
    }
}

// Steps that are not allowed

// Spoils a slip so that some step of it is likely not to be allowed.
fn spoil_steps(random: &mut Random, slip: &mut Vec<Named>, list: &Form) {
    let count = slip.len();
    match random.below(10) {
        0 if count > 0 => drop(slip.remove(random.place(count))),
        1 if count > 1 => slip.swap(random.place(count), random.place(count)),
        2 if count > 0 => {
            let place = random.place(count);
            slip.insert(place, slip[place]);
        }
        3 => add_many_steps(random, slip),
        _ => put_wrong_step(random, slip, list),
    }
}

// Adds so many steps that no list allows them all.
fn add_many_steps(random: &mut Random, slip: &mut Vec<Named>) {
    let usual = [1023, 1024, 1025, LARGEST_M];
    let count = random.one_of(&usual).max(slip.len() as u64 + 1) as usize;
    let same = any_step(random);
    while slip.len() < count {
        slip.push(same);
    }
}

// Puts a step that is not allowed where it stands: in the place of another,
// before it, or as the last one.
fn put_wrong_step(random: &mut Random, slip: &mut Vec<Named>, list: &Form) {
    let place = inputs::end_or_any_place(random, slip.len() + 1);
    let (left, _) = graph::replay(graph_of(list), &slip[..place]);
    let wrong = wrong_step(random, &left.graph);
    match random.below(3) {
        0 => slip.truncate(place),
        1 if place < slip.len() => drop(slip.remove(place)),
        _ => {}
    }
    slip.insert(place, wrong);
}

// A step near one that is allowed, but most often not allowed itself: another
// cell of it, another rule, a cell of two pairs, or any.
fn wrong_step(random: &mut Random, graph: &Graph) -> Named {
    let steps = graph.steps();
    let Some(step) = steps.get(random.place(steps.len())) else {
        return wrong_step_without_others(random, graph);
    };
    let named = step.named();
    match random.below(6) {
        0..=2 => Named::new(named.rule, another_cell(random, step)),
        3 | 4 => Named::new(random.one_of(&RULES), named.cell),
        _ => wrong_step_without_others(random, graph),
    }
}

// Any cell that a step is about.
fn another_cell(random: &mut Random, step: &Step) -> u64 {
    match step {
        Step::Leaf { u, .. } => *u,
        Step::Ring { cells } | Step::Chain { cells } => random.one_of(cells),
    }
}

// Any rule at a cell that has pairs, or at any cell.
fn wrong_step_without_others(random: &mut Random, graph: &Graph) -> Named {
    let two = random.once_in(2);
    let cells = graph.cells();
    let cells: Vec<u64> = cells.filter(|&c| !two || graph.degree(c) == 2).collect();
    if cells.is_empty() || random.once_in(4) {
        return any_step(random);
    }
    Named::new(random.one_of(&RULES), random.one_of(&cells))
}

// Any rule at any cell, a low one or one that 10 bits hold.
fn any_step(random: &mut Random) -> Named {
    let most = random.one_of(&[8, LARGEST_CELL]);
    Named::new(random.one_of(&RULES), random.between(0, most))
}

// Slips of wrong form

// Spoils a slip so that refusal 7 is likely to hold.
fn spoil_form(random: &mut Random, slip: &mut Form) {
    let choice = if slip.entries.is_empty() {
        random.below(3)
    } else {
        random.below(6)
    };
    match choice {
        0 => inputs::spoil_start(random, slip),
        1 => inputs::spoil_n(random, slip),
        2 => inputs::spoil_length(random, slip),
        _ => {
            let place = inputs::end_or_any_place(random, slip.entries.len());
            let any = random.between(CHAIN + 1, LARGEST_RULE);
            slip.entries[place][0] = random.one_of(&[0, CHAIN + 1, any]);
        }
    }
}

// Good and bad slips, mixed

/// The slip of these steps for a list of n cells.
pub fn form(n: u64, steps: &[Named]) -> Form {
    let entries = steps.iter().map(|step| [step.rule, step.cell, 0]);
    Form::slip(n, entries.collect())
}

/// The bytes of a slip of a valid list: with these steps, which are allowed, with
/// one that is not, of wrong form, or no slip of this list at all.
pub fn good_or_bad_slip(random: &mut Random, list: &Form, mut steps: Vec<Named>) -> Vec<u8> {
    let fault = random.below(100);
    if (54..=82).contains(&fault) {
        spoil_steps(random, &mut steps, list);
    }
    let mut slip = form(list.n, &steps);
    match fault {
        0..=75 => {}
        76..=92 => spoil_form(random, &mut slip),
        93..=96 => return inputs::with_bits_flipped(random, slip.bytes()),
        97 => return inputs::random_file(random, &slip),
        98 => return list.bytes(),
        _ => slip.keep = Some(random.place(5)),
    }
    slip.bytes()
}

//! The reference of reduce and replay against the document, without the library: its worked rows,
//! its steps against their words taken literally over all rings and paths of
//! small lists, and the heaviest pairing before and after, by trying all.

use std::collections::{BTreeMap, BTreeSet};
use std::process::exit;

use crate::graph::{self, Graph, Named, CHAIN, LEAF, RING};
use crate::inputs::{Form, Random};
use crate::reference::{Input, Pair, WORK_WORDS};
use crate::rows::{self, Row, PLENTY};
use crate::shapes;
use crate::slips;

/// Pairs with points, all above zero.
pub type Pairs = BTreeMap<Pair, u64>;

/// How many random lists of a few cells, and of any size, are tried.
const SMALL_LISTS: u64 = 2500;
const LISTS: u64 = 150;
pub const MOST_SMALL_CELLS: u64 = 7;
/// The cells of which every list is tried, and the number of points of a pair.
pub const ALL_LISTS: [(u64, u64); 2] = [(4, 4), (5, 2)];
/// A short list's points have 44 bits.
const SHORT_POINTS: u64 = 1 << 44;

/// Checks the reference; ends at the first fault.
pub fn run(seed: u64) {
    let rows = check_rows(rows::replay_rows(), |files| {
        Input::replay(&files[0], &files[1])
    }) + check_rows(rows::reduce_rows(), |files| Input::reduce(&files[0]));
    let all_lists = ALL_LISTS.map(|(cells, points)| check_all_lists(cells, points));
    let graphs: u64 = all_lists.iter().sum();
    let mut random = Random::new(seed);
    for _ in 0..SMALL_LISTS {
        let cells = random.between(3, MOST_SMALL_CELLS);
        let list = shapes::small_list(&mut random, cells);
        check_small_list(&mut random, &list);
    }
    for _ in 0..LISTS {
        let (_, list) = shapes::valid_list(&mut random);
        check_list(&list);
    }
    println!(
        "reference: {rows} worked rows, {graphs} graphs of all lists of {ALL_LISTS:?} \
         cells and points, {SMALL_LISTS} small lists, {LISTS} lists"
    );
}

/// Ends with what is wrong, unless it is right.
pub fn expect(right: bool, wrong: impl FnOnce() -> String) {
    if !right {
        println!("FAULT of the reference: {}", wrong());
        println!("FAIL");
        exit(1);
    }
}

// Worked rows

/// Checks that the reference answers what the rows say; how many there are.
pub fn check_rows(rows: Vec<Row>, input: impl Fn(&[Vec<u8>]) -> Input) -> usize {
    for row in &rows {
        let mut input = input(&row.files);
        input.lend(row.work, &row.room);
        let answer = input.answer();
        expect(answer == row.answer, || {
            format!("{}: {answer:?} and not {:?}", row.name, row.answer)
        });
    }
    rows.len()
}

// The words taken literally

/// The pairs of a graph.
pub fn pairs_of(graph: &Graph) -> Pairs {
    graph.pairs().into_iter().collect()
}

/// H: the points of a heaviest pairing, over all pairings.
pub fn heaviest(pairs: &Pairs) -> u64 {
    let Some((&pair, &points)) = pairs.first_key_value() else {
        return 0;
    };
    let mut without = pairs.clone();
    without.remove(&pair);
    let beside = less(&less(&without, pair.0), pair.1);
    heaviest(&without).max(points + heaviest(&beside))
}

// X less c: X without cell c.
fn less(pairs: &Pairs, cell: u64) -> Pairs {
    let mut left = pairs.clone();
    left.retain(|&(a, b), _| a != cell && b != cell);
    left
}

/// The partners of a cell.
pub fn partners(pairs: &Pairs, cell: u64) -> Vec<u64> {
    let partner = |&(a, b): &Pair| match cell {
        _ if a == cell => Some(b),
        _ if b == cell => Some(a),
        _ => None,
    };
    pairs.keys().filter_map(partner).collect()
}

/// The number of pairs of a cell.
pub fn degree(pairs: &Pairs, cell: u64) -> usize {
    partners(pairs, cell).len()
}

/// The cells that have pairs.
pub fn cells_of(pairs: &Pairs) -> BTreeSet<u64> {
    pairs.keys().flat_map(|&(a, b)| [a, b]).collect()
}

// Two cells, the lower first.
fn pair(one: u64, other: u64) -> Pair {
    (one.min(other), one.max(other))
}

// The pairs of neighbours in a row of cells.
fn along(pairs: &Pairs, cells: &[u64]) -> Pairs {
    let neighbours = cells.windows(2).map(|two| pair(two[0], two[1]));
    neighbours.map(|pair| (pair, pairs[&pair])).collect()
}

// Gives a pair its points; at zero it leaves.
fn set(pairs: &mut Pairs, one: u64, other: u64, points: u64) {
    pairs.insert(pair(one, other), points);
    pairs.retain(|_, points| *points > 0);
}

/// All paths of at least two cells, each in both directions.
pub fn paths(pairs: &Pairs) -> Vec<Vec<u64>> {
    let mut found: Vec<Vec<u64>> = cells_of(pairs).iter().map(|&cell| vec![cell]).collect();
    let mut place = 0;
    while place < found.len() {
        let path = found[place].clone();
        for next in partners(pairs, path[path.len() - 1]) {
            if !path.contains(&next) {
                found.push([&path[..], &[next]].concat());
            }
        }
        place += 1;
    }
    found.retain(|path| path.len() >= 2);
    found
}

// A step's name, the pairs it leaves, and what it carries.
type Outcome = (Named, Pairs, u64);

// All steps that the words allow.
fn literal_steps(pairs: &Pairs) -> Vec<Outcome> {
    let mut steps = literal_leaves(pairs);
    for path in paths(pairs) {
        let (first, last) = (path[0], path[path.len() - 1]);
        let closed = path.len() >= 3 && pairs.contains_key(&pair(first, last));
        // Of a ring's paths, the one from its lowest cell to the lower side.
        if closed && path.iter().all(|&cell| cell >= first) && path[1] < last {
            steps.extend(literal_ring(pairs, &path));
        }
        // Two or more cells in a row between two different ends u < v.
        if path.len() >= 4 && first < last {
            steps.extend(literal_chain(pairs, &path));
        }
    }
    steps
}

// Leaf at v: v has degree one, u is its partner, p their points. Remove v. Every
// other pair at u loses p, never below zero. Carry p.
fn literal_leaves(pairs: &Pairs) -> Vec<Outcome> {
    let mut steps = Vec::new();
    for v in cells_of(pairs) {
        if let [u] = partners(pairs, v)[..] {
            let p = pairs[&pair(u, v)];
            let mut left = less(pairs, v);
            for other in partners(&left, u) {
                let points = left[&pair(u, other)];
                set(&mut left, u, other, points.max(p) - p);
            }
            steps.push((Named::new(LEAF, v), left, p));
        }
    }
    steps
}

// Ring at z: at most one cell not of degree two. u is that cell, or the lowest
// when all have degree two; z is the lowest other cell. C becomes one pair u, z of
// H(C) minus H(C less u). Carry H(C less u).
fn literal_ring(pairs: &Pairs, ring: &[u64]) -> Option<Outcome> {
    let others: Vec<u64> = ring
        .iter()
        .copied()
        .filter(|&c| degree(pairs, c) != 2)
        .collect();
    let u = match others[..] {
        [] => *ring.iter().min()?,
        [u] => u,
        _ => return None,
    };
    let z = ring.iter().copied().filter(|&cell| cell != u).min()?;
    let c = along(pairs, &[ring, &ring[..1]].concat());
    let carry = heaviest(&less(&c, u));
    let mut left = pairs.clone();
    left.retain(|pair, _| !c.contains_key(pair));
    set(&mut left, u, z, heaviest(&c) - carry);
    Some((Named::new(RING, z), left, carry))
}

// Chain at z: cells of degree two between two ends not of degree two; z is the
// lowest inner cell. The inner cells become z alone.
fn literal_chain(pairs: &Pairs, chain: &[u64]) -> Option<Outcome> {
    let (u, v) = (chain[0], chain[chain.len() - 1]);
    let inner = &chain[1..chain.len() - 1];
    let two = |&cell: &u64| degree(pairs, cell) == 2;
    if two(&u) || two(&v) || !inner.iter().all(two) {
        return None;
    }
    let z = inner.iter().copied().min()?;
    let p = along(pairs, chain);
    let q = heaviest(&less(&less(&p, u), v));
    let present = pairs.get(&(u, v)).copied().unwrap_or(0);
    let mut left = pairs.clone();
    left.retain(|pair, _| !p.contains_key(pair));
    set(&mut left, u, z, heaviest(&less(&p, v)) - q);
    set(&mut left, v, z, heaviest(&less(&p, u)) - q);
    set(&mut left, u, v, present.max(heaviest(&p) - q));
    Some((Named::new(CHAIN, z), left, q))
}

// Small graphs

// Checks all steps of a graph: which names are allowed, what each leaves and carries,
// that no point is gained or lost, and which one reduce takes.
fn check_graph(graph: &Graph) {
    let pairs = pairs_of(graph);
    let mut literal = literal_steps(&pairs);
    literal.sort_by_key(|&(named, ..)| named);
    let names: Vec<Named> = literal.iter().map(|&(named, ..)| named).collect();
    let mut found: Vec<Named> = graph.steps().iter().map(|step| step.named()).collect();
    found.sort();
    expect(found == names, || {
        format!("{pairs:?}: steps {found:?} and not {names:?}")
    });
    let first = graph.first_step().map(|step| step.named());
    expect(first.as_ref() == names.first(), || {
        format!("{pairs:?}: first step {first:?}")
    });
    check_names(graph);
    let most = heaviest(&pairs);
    for (named, left, carry) in literal {
        let mut after = graph.clone();
        let step = graph.step(named);
        let carried = step.map(|step| after.take(&step));
        let came = pairs_of(&after);
        expect(came == left && carried == Some(carry), || {
            format!("{pairs:?}, {named:?}: {came:?}, {carried:?} and not {left:?}, {carry}")
        });
        expect(most == heaviest(&left) + carry, || {
            format!("{pairs:?}, {named:?}: a point is gained or lost")
        });
    }
}

// Checks that every name of a rule and a cell is allowed exactly where the words allow it.
fn check_names(graph: &Graph) {
    let most = graph.cells().max().unwrap_or(0) + 1;
    let names: BTreeSet<Named> = graph.steps().iter().map(|step| step.named()).collect();
    for rule in 0..=CHAIN + 1 {
        for cell in 0..=most {
            let named = Named::new(rule, cell);
            let allowed = graph.step(named).is_some();
            expect(allowed == names.contains(&named), || {
                format!("{:?}: {named:?} is allowed: {allowed}", graph.pairs())
            });
        }
    }
}

// Checks a graph and all graphs that steps make of it; how many there are.
fn check_all_slips(graph: &Graph) -> u64 {
    check_graph(graph);
    let mut graphs = 1;
    for step in graph.steps() {
        let mut after = graph.clone();
        after.take(&step);
        graphs += check_all_slips(&after);
    }
    graphs
}

// Checks all lists of a few cells and few points, with all their slips.
fn check_all_lists(cells: u64, points: u64) -> u64 {
    all_graphs(cells, points)
        .map(|graph| check_all_slips(&graph))
        .sum()
}

/// The working graphs of all lists of so many cells, with so many points to choose from.
pub fn all_graphs(cells: u64, points: u64) -> impl Iterator<Item = Graph> {
    let all = (0..cells).flat_map(move |a| (a + 1..cells).map(move |b| (a, b)));
    let all: Vec<Pair> = all.collect();
    (0..points.pow(all.len() as u32)).map(move |mut number| {
        let entries = all.iter().map(|&pair| {
            let digit = number % points;
            number /= points;
            (pair, digit)
        });
        Graph::new(entries)
    })
}

// Small lists, from bytes to bytes

// Checks a list of a few cells with reduce and with slips of allowed steps.
fn check_small_list(random: &mut Random, list: &Form) {
    let mut reduced = Input::reduce(&list.bytes());
    let files = written(&mut reduced, 2);
    check_slip(list, &slip_of(list, &files[0]), &files[1]);
    for _ in 0..3 {
        let steps = slips::allowed_slip(random, slips::graph_of(list));
        let slip = slips::form(list.n, &steps).bytes();
        let mut replayed = Input::replay(&list.bytes(), &slip);
        check_slip(list, &steps, &written(&mut replayed, 1)[0]);
    }
}

/// The files that a call writes which is not refused.
pub fn written(input: &mut Input, outputs: usize) -> Vec<Vec<u8>> {
    input.lend([WORK_WORDS; 2], &vec![PLENTY; outputs]);
    let answer = input.answer();
    expect(answer.is_ok(), || format!("refused: {answer:?}"));
    answer.unwrap_or_default()
}

// Checks the graphs of a slip one by one, and the short list against them and the store.
fn check_slip(list: &Form, steps: &[Named], short: &[u8]) {
    let mut graph = slips::graph_of(list);
    let most = heaviest(&pairs_of(&graph));
    expect(steps.len() as u64 <= list.n, || {
        format!("{steps:?}: too many")
    });
    for &named in steps {
        check_graph(&graph);
        let step = graph.step(named);
        expect(step.is_some(), || format!("{named:?} is not allowed"));
        step.map(|step| graph.take(&step));
    }
    check_graph(&graph);
    let (carried, left) = short_list_of(list, short);
    expect(left == pairs_of(&graph), || {
        format!("{left:?} is the short list")
    });
    expect(most == heaviest(&left) + carried, || {
        format!("{:?}, {steps:?}: a point is gained or lost", list.entries)
    });
}

// Lists of any size

// Checks of reduce that no step is left, that its slip replays to its short
// list, and that steps and points are within their bounds.
fn check_list(list: &Form) {
    let mut reduced = Input::reduce(&list.bytes());
    let files = written(&mut reduced, 2);
    let replayed = written(&mut Input::replay(&list.bytes(), &files[0]), 1);
    expect(replayed[0] == files[1], || "not its replay".to_string());
    let steps = slip_of(list, &files[0]);
    let (left, bad_step) = graph::replay(slips::graph_of(list), &steps);
    let first = left.graph.first_step();
    expect(bad_step.is_none() && first.is_none(), || {
        "a step is left, or not allowed".to_string()
    });
    expect(steps.len() as u64 <= list.n, || {
        "too many steps".to_string()
    });
    let pairs = pairs_of(&left.graph);
    let within = pairs.values().all(|&points| points < SHORT_POINTS);
    expect(within, || "more points than 44 bits hold".to_string());
    expect(
        short_list_of(list, &files[1]) == (left.carried, pairs),
        || "the short list is not what is left".to_string(),
    );
}

// Files, read by shifts

/// The number in bytes, the most significant first.
pub fn number(bytes: &[u8]) -> u64 {
    let add = |number, &byte| number << 8 | u64::from(byte);
    bytes.iter().fold(0, add)
}

/// Checks a header: kind (4), cells n (11), count m (13), four zero bits.
pub fn check_header(bytes: &[u8], kind: u64, list: &Form, m: usize) {
    let header = kind << 28 | list.n << 17 | (m as u64) << 4;
    expect(number(&bytes[..4]) == header, || {
        format!("a header is not of kind {kind}, n = {}, m = {m}", list.n)
    });
}

/// The steps of a slip's bytes: rule (6), cell (10).
pub fn slip_of(list: &Form, bytes: &[u8]) -> Vec<Named> {
    let step = |two| Named::new(number(two) >> 10, number(two) & 0x3FF);
    let steps: Vec<Named> = bytes[4..].chunks(2).map(step).collect();
    check_header(bytes, 3, list, steps.len());
    steps
}

// The carried points and pairs of a short list's bytes: a (10), b (10), points (44).
fn short_list_of(list: &Form, bytes: &[u8]) -> (u64, Pairs) {
    let entry = |eight| {
        let word = number(eight);
        let cells = (word >> 54, word >> 44 & 0x3FF);
        (cells, word & (SHORT_POINTS - 1))
    };
    let pairs: Pairs = bytes[12..].chunks(8).map(entry).collect();
    check_header(bytes, 2, list, pairs.len());
    (number(&bytes[4..12]), pairs)
}

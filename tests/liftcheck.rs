//! The reference of solve, lift and pair against the document, without the
//! library: its worked rows, then all pairings of what slips leave of small
//! lists, with the way back and the order of solve taken literally; solve on
//! lists of several groups against all pairings of the whole, and the groups
//! against the paths from cell to cell. The origins
//! are found in two other ways: by the first step of the slip whose undoing puts
//! the pair in, and, without the way back, by the first step whose row has it.

use std::collections::{BTreeMap, BTreeSet};

use crate::graph::{self, Graph, Named, Step, LEAF, RING};
use crate::groups::{self, Fate};
use crate::inputs::{Form, Random};
use crate::lifting::{self, Held, Lifted, Taken, Tie};
use crate::lifting_rows;
use crate::pairings;
use crate::reference::{self, Input, Pair, MOST_SOLVED};
use crate::selfcheck::{self, expect, pairs_of, written, Pairs};
use crate::shapes;
use crate::slips;

/// How many random lists of a few cells, and of any size, are tried.
const SMALL_LISTS: u64 = 500;
const LISTS: u64 = 300;
/// How many random lists of a few cells in several groups, and of groups of any size.
const SMALL_GROUP_LISTS: u64 = 4000;
const GROUP_LISTS: u64 = 300;
/// The cells of which every list of several groups is tried, and the points of a pair.
const ALL_GROUP_LISTS: (u64, u64) = (6, 2);

/// Pairs in which no cell stands twice.
type Pairing = BTreeSet<Pair>;
/// The step and rule of each pair of a pairing, zero both for the short pairing.
type Origins = BTreeMap<Pair, [u64; 2]>;

/// Checks the reference; ends at the first fault.
pub fn run(seed: u64) {
    let rows =
        selfcheck::check_rows(lifting_rows::solve_rows(), |files| {
            Input::solve(&files[0], &files[1])
        }) + selfcheck::check_rows(lifting_rows::lift_rows(), |files| {
            Input::lift(&files[0], &files[1], &files[2])
        }) + selfcheck::check_rows(lifting_rows::pair_rows(), |files| Input::pair(&files[0]));
    let mut lifted = 0;
    for (cells, points) in selfcheck::ALL_LISTS {
        for graph in selfcheck::all_graphs(cells, points) {
            lifted += check_all_slips(&Store::new(graph.clone()), &graph, &mut Way::default(), 0);
        }
    }
    let mut random = Random::new(seed);
    for _ in 0..SMALL_LISTS {
        let cells = random.between(3, selfcheck::MOST_SMALL_CELLS);
        let list = shapes::small_list(&mut random, cells);
        lifted += check_small_list(&mut random, &list);
    }
    for _ in 0..LISTS {
        let (_, list) = shapes::list_to_lift(&mut random);
        check_list(&mut random, &list);
    }
    println!(
        "reference of lifting: {rows} worked rows, {lifted} pairings lifted of all that slips \
         leave of all small lists and of {SMALL_LISTS} others, {LISTS} lists"
    );
    let graphs = check_all_groups();
    for _ in 0..SMALL_GROUP_LISTS {
        let list = groups::small_list(&mut random);
        check_small_groups(&list);
    }
    for place in 0..GROUP_LISTS {
        let fate = [Fate::Any, Fate::Kept][place as usize % 2];
        let (_, list) = groups::list_of_groups(&mut random, fate);
        check_groups(&list);
    }
    println!(
        "reference of groups: {graphs} graphs of all lists of {ALL_GROUP_LISTS:?} cells and \
         points that have several, {SMALL_GROUP_LISTS} small lists, {GROUP_LISTS} lists"
    );
}

// The words taken literally

// All pairings: those without the first pair, and those with it.
fn all_pairings(pairs: &Pairs) -> Vec<Pairing> {
    let mut others = pairs.clone();
    let Some(((a, b), _)) = others.pop_first() else {
        return vec![Pairing::new()];
    };
    let mut pairings = all_pairings(&others);
    others.retain(|&(c, d), _| ![c, d].contains(&a) && ![c, d].contains(&b));
    for mut pairing in all_pairings(&others) {
        pairing.insert((a, b));
        pairings.push(pairing);
    }
    pairings
}

// The points of a pairing, the sum of its pairs' points; none if it is no
// pairing of these pairs.
fn points_of(pairing: &Pairing, pairs: &Pairs) -> Option<u64> {
    let cells: Vec<u64> = pairing.iter().flat_map(|&(a, b)| [a, b]).collect();
    let different: BTreeSet<u64> = cells.iter().copied().collect();
    if different.len() < cells.len() {
        return None;
    }
    pairing.iter().map(|pair| pairs.get(pair)).sum()
}

// Of all pairings those that have at least as many points as every other.
fn heaviest_pairings(pairs: &Pairs) -> Vec<Pairing> {
    let mut all = all_pairings(pairs);
    let most = all.iter().map(|pairing| points_of(pairing, pairs)).max();
    all.retain(|pairing| Some(points_of(pairing, pairs)) == most);
    all
}

// The partner of each cell in order, none if it is unpaired. Of two such rows the
// lower is decided by the first cell that differs: none comes before any partner.
fn partners_in_order(pairing: &Pairing, pairs: &Pairs) -> Vec<Option<u64>> {
    let held: Pairs = pairing.iter().map(|&pair| (pair, 1)).collect();
    let cells = selfcheck::cells_of(pairs).into_iter();
    cells
        .map(|cell| selfcheck::partners(&held, cell).first().copied())
        .collect()
}

// Solve: of the heaviest, the first in the order.
fn literal_solve(pairs: &Pairs) -> Pairing {
    let heaviest = heaviest_pairings(pairs).into_iter();
    let first = heaviest.min_by_key(|pairing| partners_in_order(pairing, pairs));
    first.unwrap_or_default()
}

// The best of a row, given by its cells in reading order: of the heaviest, at the
// first pair in reading order where two differ, the one that takes it.
fn literal_best(pairs: &Pairs, cells: &[u64]) -> Pairing {
    let reading: Vec<Pair> = cells
        .windows(2)
        .map(|two| (two[0].min(two[1]), two[0].max(two[1])))
        .collect();
    let row: Pairs = reading.iter().map(|&pair| (pair, pairs[&pair])).collect();
    let taken = |pairing: &Pairing| -> Vec<bool> {
        let taken = reading.iter().map(|pair| pairing.contains(pair));
        taken.collect()
    };
    let heaviest = heaviest_pairings(&row).into_iter();
    heaviest.max_by_key(taken).unwrap_or_default()
}

// The cells of a ring or chain in reading order, by the name of its step: found
// among all paths of a graph.
fn literal_row(pairs: &Pairs, named: Named) -> Vec<u64> {
    let two = |cell: &u64| selfcheck::degree(pairs, *cell) == 2;
    let is_ring = |path: &[u64]| {
        let (u, last) = (path[0], path[path.len() - 1]);
        let closed = path.len() >= 3 && pairs.contains_key(&(u.min(last), u.max(last)));
        let u_is_right = !two(&u) || path.iter().all(|&cell| u <= cell);
        closed && u_is_right && path[1..].iter().all(two) && path[1] < last
    };
    let is_chain = |path: &[u64]| {
        let (u, v) = (path[0], path[path.len() - 1]);
        let inner = &path[1..path.len() - 1];
        inner.len() >= 2 && u < v && !two(&u) && !two(&v) && inner.iter().all(two)
    };
    let is_it = |path: &Vec<u64>| {
        let (others, inner) = (&path[1..], &path[1..path.len() - 1]);
        match named.rule {
            RING => is_ring(path) && others.iter().min() == Some(&named.cell),
            _ => is_chain(path) && inner.iter().min() == Some(&named.cell),
        }
    };
    let row = selfcheck::paths(pairs).into_iter().find(is_it);
    row.expect("the row of a step that is allowed")
}

/// A step by its words: the pairs before it, its name, and the cells of its ring or
/// chain in reading order.
struct Literal {
    before: Pairs,
    named: Named,
    row: Vec<u64>,
}

impl Literal {
    // The step of this name on these pairs, on which it is allowed.
    fn new(before: Pairs, named: Named) -> Literal {
        let row = match named.rule {
            LEAF => Vec::new(),
            _ => literal_row(&before, named),
        };
        Literal { before, named, row }
    }

    // The way back over the step, from a pairing of the graph after it to one of the
    // graph before it.
    fn undo(&self, held: &Pairing) -> Change {
        let (pairs, cell) = (&self.before, self.named.cell);
        match self.named.rule {
            LEAF => undo_leaf(pairs, cell, held),
            RING => undo_ring(pairs, cell, &self.row, held),
            _ => undo_chain(pairs, cell, &self.row, held),
        }
    }
}

/// What the words take out of a pairing and put into it in undoing a step.
struct Change {
    out: Option<Pair>,
    put: Pairing,
}

impl Change {
    // What it makes of a pairing.
    fn of(&self, held: &Pairing) -> Pairing {
        let mut held = held.clone();
        if let Some(out) = self.out {
            held.remove(&out);
        }
        &held | &self.put
    }
}

// A pair is replaced by others.
fn replaced(out: Pair, put: Pairing) -> Change {
    Change {
        out: Some(out),
        put,
    }
}

// Pairs are added.
fn added(put: Pairing) -> Change {
    Change { out: None, put }
}

// Two cells, the lower first.
fn pair(one: u64, other: u64) -> Pair {
    (one.min(other), one.max(other))
}

// If u is unpaired, add the pair u, v.
fn undo_leaf(pairs: &Pairs, v: u64, held: &Pairing) -> Change {
    let u = selfcheck::partners(pairs, v)[0];
    let is_paired = held.iter().any(|&(a, b)| a == u || b == u);
    let new = if is_paired { None } else { Some(pair(u, v)) };
    added(new.into_iter().collect())
}

// If the pair u, z is held, replace it by the best of C, else add the best of C less u.
fn undo_ring(pairs: &Pairs, z: u64, ring: &[u64], held: &Pairing) -> Change {
    let u = ring[0];
    if held.contains(&pair(u, z)) {
        let whole = [ring, &[u]].concat();
        replaced(pair(u, z), literal_best(pairs, &whole))
    } else {
        added(literal_best(pairs, &ring[1..]))
    }
}

// With u, z held, replace it by the best of P less v; with v, z held, by the best
// of P less u. With u, v held and its present points greater than H(P) minus H(Q),
// keep it and add the best of Q; otherwise replace it by the best of P. With none
// of the three held, add the best of Q.
fn undo_chain(pairs: &Pairs, z: u64, chain: &[u64], held: &Pairing) -> Change {
    let last = chain.len() - 1;
    let (u, v) = (chain[0], chain[last]);
    let best = |cells: &[u64]| literal_best(pairs, cells);
    let heaviest = |cells: &[u64]| points_of(&best(cells), pairs).unwrap_or(0);
    let (p, q) = (chain, &chain[1..last]);
    if held.contains(&pair(u, z)) {
        return replaced(pair(u, z), best(&chain[..last]));
    }
    if held.contains(&pair(v, z)) {
        return replaced(pair(v, z), best(&chain[1..]));
    }
    let present = pairs.get(&(u, v)).copied().unwrap_or(0);
    if held.contains(&(u, v)) && present <= heaviest(p) - heaviest(q) {
        return replaced((u, v), best(p));
    }
    added(best(q))
}

// The origins of what becomes of a pairing on the way back through steps. The last is
// undone first, so of the steps that put a pair in the first of the slip did it last.
fn literal_origins(steps: &[Literal], short: &Pairing) -> Origins {
    let mut held = short.clone();
    let mut put_in = Vec::new();
    for step in steps.iter().rev() {
        let change = step.undo(&held);
        held = change.of(&held);
        put_in.push(change.put);
    }
    put_in.reverse();
    let origin = |pair: &Pair| match put_in.iter().position(|put| put.contains(pair)) {
        Some(place) => [place as u64 + 1, steps[place].named.rule],
        None => [0, 0],
    };
    held.iter().map(|pair| (*pair, origin(pair))).collect()
}

// The origins of a lifted pairing, without the way back. The row of a step is the pair
// u, v of a leaf or the pairs of its ring or chain. After the step no pair of the row is
// left but those that it made at z, and these are taken out when it is undone: what a
// pairing then has of the row was put in. The first step whose row has a pair did it last.
fn origins_by_rows(taken: &[Taken], lifted: &Pairing) -> Origins {
    let row = |step: &Taken| -> Vec<Pair> {
        match step.step {
            Step::Leaf { v, u } => vec![pair(u, v)],
            _ => step.row.iter().map(|&(pair, _)| pair).collect(),
        }
    };
    let mut first: Origins = BTreeMap::new();
    for (number, step) in (1..).zip(taken) {
        for pair in row(step) {
            first
                .entry(pair)
                .or_insert([number, step.step.named().rule]);
        }
    }
    let origin = |pair: &Pair| first.get(pair).copied().unwrap_or([0, 0]);
    lifted.iter().map(|pair| (*pair, origin(pair))).collect()
}

// All slips of small graphs

/// The working graph of a list, and the most points that a pairing of it has.
struct Store {
    pairs: Pairs,
    most: u64,
}

impl Store {
    // The store of a graph.
    fn new(graph: Graph) -> Store {
        let pairs = pairs_of(&graph);
        let most = selfcheck::heaviest(&pairs);
        Store { pairs, most }
    }

    // Checks what became of a pairing of so many points of what a slip leaves:
    // it is a pairing of the store with so many points more as the slip carries.
    fn check(&self, lifted: &Pairing, points: u64, carried: u64) {
        let came = points_of(lifted, &self.pairs);
        expect(came == Some(points + carried), || {
            format!(
                "{:?}: {points} and {carried} carried are lifted to {lifted:?}",
                self.pairs
            )
        });
    }
}

// The pairs of a pairing as a set.
fn set_of(held: &Held) -> Pairing {
    held.pairs().into_iter().collect()
}

// The origins of a lifted pairing by the reference.
fn origins_of(lifted: &Lifted) -> Origins {
    let pairs = lifted.pairs().into_iter();
    pairs
        .map(|(pair, origin)| (pair, origin.step_and_rule()))
        .collect()
}

// Checks that origins are those of another way.
fn check_origins(origins: &Origins, others: &Origins) {
    expect(origins == others, || {
        format!("the origins are {origins:?} and not {others:?}")
    });
}

/// The steps of a slip, as the reference takes them and by the words.
#[derive(Default)]
struct Way {
    taken: Vec<Taken>,
    literal: Vec<Literal>,
}

// Checks what a slip leaves: solve, all pairings lifted through the whole slip,
// and each step that can follow; how many pairings were lifted.
fn check_all_slips(store: &Store, graph: &Graph, way: &mut Way, carried: u64) -> u64 {
    let pairs = pairs_of(graph);
    check_solve(graph);
    let all = all_pairings(&pairs);
    let most = selfcheck::heaviest(&pairs);
    expect(store.most == most + carried, || {
        format!("{pairs:?}: a point is gained or lost")
    });
    for held in &all {
        let lifted = lifting::lift(Tie::Near, &way.taken, Held::new(held.iter().copied()));
        let points = points_of(held, &pairs).unwrap_or(0);
        let origins = origins_of(&lifted);
        let lifted = set_of(&lifted.held);
        store.check(&lifted, points, carried);
        check_origins(&origins, &literal_origins(&way.literal, held));
        check_origins(&origins, &origins_by_rows(&way.taken, &lifted));
    }
    let mut lifted = all.len() as u64;
    for step in graph.steps() {
        let mut after = graph.clone();
        let one = Taken::new(graph, step);
        let carry = after.take(&one.step);
        let literal = Literal::new(pairs.clone(), one.step.named());
        check_undo(&literal, &one, &pairs_of(&after));
        way.taken.push(one);
        way.literal.push(literal);
        lifted += check_all_slips(store, &after, way, carried + carry);
        way.taken.pop();
        way.literal.pop();
    }
    lifted
}

// Checks solve against the words.
fn check_solve(graph: &Graph) {
    let pairs = pairs_of(graph);
    let (solved, literal) = (set_of(&lifting::solve(graph)), literal_solve(&pairs));
    expect(solved == literal, || {
        format!("{pairs:?}: solved by {solved:?} and not {literal:?}")
    });
}

// Checks the way back over one step against the words, for all pairings after it.
fn check_undo(literal: &Literal, taken: &Taken, after: &Pairs) {
    let (before, named) = (&literal.before, literal.named);
    for held in all_pairings(after) {
        let mut undone = Held::new(held.iter().copied());
        let put: Pairing = taken.undo(Tie::Near, &mut undone).into_iter().collect();
        let change = literal.undo(&held);
        let back = change.of(&held);
        expect(set_of(&undone) == back && put == change.put, || {
            format!("{before:?}, {named:?}: {held:?} goes back to {undone:?} and not {back:?}")
        });
    }
}

// Small lists, from bytes to bytes

// Checks a list of a few cells: pair, and solve and lift with slips of reduce and
// others, each of them stopped at every place; how many pairings were lifted.
fn check_small_list(random: &mut Random, list: &Form) -> u64 {
    check_pair(list);
    let reduced = graph::reduce(slips::graph_of(list)).1;
    let drawn = slips::allowed_slip(random, slips::graph_of(list));
    let mut lifted = 0;
    for steps in [reduced, drawn] {
        for count in 0..=steps.len() {
            lifted += check_slip(list, &steps[..count]);
        }
    }
    lifted
}

// The pairs of a pairing that solve writes.
fn written_pairing(list: &Form, mut input: Input) -> Pairing {
    pairing_in(list, &written(&mut input, 1)[0])
}

// The pairs of a pairing's file.
fn pairing_in(list: &Form, file: &[u8]) -> Pairing {
    let entry = |three| (number(three) >> 14, number(three) >> 4 & 0x3FF);
    let entries: Vec<Pair> = file[4..].chunks(3).map(entry).collect();
    selfcheck::check_header(file, 4, list, entries.len());
    expect(file[4..].chunks(3).all(|three| three[2] & 15 == 0), || {
        "a zero bit of a pairing is set".to_string()
    });
    expect(entries.windows(2).all(|two| two[0] < two[1]), || {
        "a pairing is not ascending".to_string()
    });
    entries.into_iter().collect()
}

// The pairs that lift or pair writes, each with its step and rule: the origin list
// has the pairing's entries in their order.
fn written_origins(list: &Form, mut input: Input) -> Origins {
    let files = written(&mut input, 2);
    let pairing = pairing_in(list, &files[0]);
    let entry = |five| {
        let word = number(five);
        let cells: Pair = (word >> 30, word >> 20 & 0x3FF);
        (cells, [word >> 9 & 0x7FF, word >> 6 & 7])
    };
    let entries: Vec<(Pair, [u64; 2])> = files[1][4..].chunks(5).map(entry).collect();
    selfcheck::check_header(&files[1], 5, list, entries.len());
    let fives = files[1][4..].chunks(5);
    expect(fives.into_iter().all(|five| five[4] & 63 == 0), || {
        "a zero bit of an origin list is set".to_string()
    });
    let cells = entries.iter().map(|&(cells, _)| cells);
    expect(cells.eq(pairing), || {
        "an origin list has not the pairs of its pairing".to_string()
    });
    entries.into_iter().collect()
}

// The pairs of origins.
fn pairs_in(origins: &Origins) -> Pairing {
    origins.keys().copied().collect()
}

// The number in bytes, the most significant first.
fn number(bytes: &[u8]) -> u64 {
    selfcheck::number(bytes)
}

// The file of a pairing.
fn file_of(list: &Form, pairing: &Pairing) -> Vec<u8> {
    let pairs: Vec<Pair> = pairing.iter().copied().collect();
    reference::pairing_file(list.n, &pairs)
}

// Checks that pair writes a heaviest pairing of the list, and the one that
// reduce, solve and lift make one after the other, with the same origins.
fn check_pair(list: &Form) {
    let bytes = list.bytes();
    let origins = written_origins(list, Input::pair(&bytes));
    let paired = pairs_in(&origins);
    let pairs = pairs_of(&slips::graph_of(list));
    expect(
        points_of(&paired, &pairs) == Some(selfcheck::heaviest(&pairs)),
        || format!("{pairs:?}: {paired:?} is no heaviest pairing"),
    );
    let slip = &written(&mut Input::reduce(&bytes), 2)[0];
    let solved = written_pairing(list, Input::solve(&bytes, slip));
    let lifted = Input::lift(&bytes, slip, &file_of(list, &solved));
    expect(origins == written_origins(list, lifted), || {
        format!("{pairs:?}: {origins:?} is not lifted from {solved:?}")
    });
}

// Checks solve and lift with a slip: all pairings of what it leaves are lifted, a
// heaviest one to a heaviest one, with their origins, and all other pairs are refused.
fn check_slip(list: &Form, steps: &[Named]) -> u64 {
    let (bytes, slip) = (list.bytes(), slips::form(list.n, steps).bytes());
    let store = Store::new(slips::graph_of(list));
    let (left, _) = graph::replay(slips::graph_of(list), steps);
    let pairs = pairs_of(&left.graph);
    let solved = written_pairing(list, Input::solve(&bytes, &slip));
    expect(solved == literal_solve(&pairs), || {
        format!("{pairs:?}: {solved:?} is not the first of the heaviest")
    });
    let all = all_pairings(&pairs);
    let most = selfcheck::heaviest(&pairs);
    let literal = literal_steps(list, steps);
    for held in &all {
        let lifted = Input::lift(&bytes, &slip, &file_of(list, held));
        let origins = written_origins(list, lifted);
        check_origins(&origins, &literal_origins(&literal, held));
        let lifted = pairs_in(&origins);
        let points = points_of(held, &pairs).unwrap_or(0);
        store.check(&lifted, points, left.carried);
        let heaviest = points_of(&lifted, &store.pairs) == Some(store.most);
        expect(heaviest == (points == most), || {
            format!("{pairs:?}: {held:?} is lifted to {lifted:?}")
        });
    }
    check_single_pairs(list, &slip, &pairs);
    all.len() as u64
}

// The steps of a slip that is allowed, by the words.
fn literal_steps(list: &Form, steps: &[Named]) -> Vec<Literal> {
    let mut graph = slips::graph_of(list);
    let mut literal = Vec::new();
    for &named in steps {
        literal.push(Literal::new(pairs_of(&graph), named));
        let step = graph.step(named).expect("a step that is allowed");
        graph.take(&step);
    }
    literal
}

// Checks that a single pair of the list's cells is taken exactly if the slip leaves it.
fn check_single_pairs(list: &Form, slip: &[u8], left: &Pairs) {
    let cells: BTreeSet<u64> = list.entries.iter().flat_map(|&[a, b, _]| [a, b]).collect();
    for &a in &cells {
        for &b in cells.range(a + 1..) {
            let pairing = reference::pairing_file(list.n, &[(a, b)]);
            let input = Input::lift(&list.bytes(), slip, &pairing);
            let refused = input.refusals().contains(&10);
            expect(refused != left.contains_key(&(a, b)), || {
                format!("{left:?}: {a}-{b} is refused: {refused}")
            });
        }
    }
}

// Several groups

// The group of a cell by its words: the cells to which a path of pairs leads from it.
fn literal_group(pairs: &Pairs, cell: u64) -> BTreeSet<u64> {
    let paths = selfcheck::paths(pairs).into_iter();
    let from_cell = paths.filter(|path| path[0] == cell);
    let ends = from_cell.map(|path| path[path.len() - 1]);
    ends.chain([cell]).collect()
}

// The same where there are too many paths to look at each: the cell, then again and
// again all that are paired with one that was reached, until that brings no more.
fn reached(pairs: &Pairs, cell: u64) -> BTreeSet<u64> {
    let mut reached = BTreeSet::from([cell]);
    loop {
        let joined = pairs
            .keys()
            .filter(|(a, b)| reached.contains(a) || reached.contains(b));
        let next: BTreeSet<u64> = joined.flat_map(|&(a, b)| [a, b]).chain([cell]).collect();
        if next == reached {
            return reached;
        }
        reached = next;
    }
}

// Checks the groups of a graph: each cell that has pairs is in one, that of its words.
fn check_groups_of(graph: &Graph, group_of: impl Fn(&Pairs, u64) -> BTreeSet<u64>) {
    let pairs = pairs_of(graph);
    let mut cells = selfcheck::cells_of(&pairs);
    let groups = graph.groups();
    for group in &groups {
        let literal = cells.first().map(|&lowest| group_of(&pairs, lowest));
        let found: BTreeSet<u64> = group.iter().copied().collect();
        expect(
            literal.as_ref() == Some(&found) && group.is_sorted(),
            || format!("{pairs:?}: a group is {group:?} and not {literal:?}"),
        );
        cells = &cells - &found;
    }
    let largest = groups.iter().map(Vec::len).max();
    expect(
        cells.is_empty() && graph.largest_group() == largest.unwrap_or(0),
        || format!("{pairs:?}: {groups:?} are not all groups"),
    );
}

// Checks all lists of a few cells and few points that have several groups; how many
// there are.
fn check_all_groups() -> u64 {
    let (cells, points) = ALL_GROUP_LISTS;
    let mut graphs = 0;
    for graph in selfcheck::all_graphs(cells, points) {
        if graph.groups().len() > 1 {
            check_groups_of(&graph, literal_group);
            check_solve(&graph);
            graphs += 1;
        }
    }
    graphs
}

// Checks a list of a few cells in several groups: the groups, what solve writes of all
// of it, and what pair does.
fn check_small_groups(list: &Form) {
    let graph = slips::graph_of(list);
    check_groups_of(&graph, literal_group);
    check_solve(&graph);
    let (bytes, slip) = (list.bytes(), slips::form(list.n, &[]).bytes());
    let solved = written_pairing(list, Input::solve(&bytes, &slip));
    expect(solved == literal_solve(&pairs_of(&graph)), || {
        format!("{:?}: solve writes {solved:?}", list.entries)
    });
    check_pair(list);
}

// Checks a list of groups of any size: the groups of all of it and of what reduce
// leaves, and that 11 is answered by the largest of them, whatever the others.
fn check_groups(list: &Form) {
    let (bytes, slip) = (list.bytes(), slips::form(list.n, &[]).bytes());
    for input in [Input::solve(&bytes, &slip), Input::pair(&bytes)] {
        let graph = &input.left.graph;
        check_groups_of(graph, reached);
        let pairs = pairs_of(graph);
        let sizes = graph.cells().map(|cell| reached(&pairs, cell).len());
        let is_large = sizes.into_iter().any(|size| size > MOST_SOLVED);
        expect(input.refusals().contains(&11) == is_large, || {
            format!("{pairs:?}: a group is too large: {is_large}, and 11 says otherwise")
        });
    }
}

// Lists of any size

// Checks that a pairing of what a slip leaves is lifted to one of the list, with
// so many points more as the slip carries, and its origins.
fn check_list(random: &mut Random, list: &Form) {
    let store = pairs_of(&slips::graph_of(list));
    let steps = slips::allowed_slip(random, slips::graph_of(list));
    let (left, _) = graph::replay(slips::graph_of(list), &steps);
    let held = pairings::valid_pairing(random, list, &left);
    let slip = slips::form(list.n, &steps).bytes();
    let origins = written_origins(list, Input::lift(&list.bytes(), &slip, &held.bytes()));
    let lifted = pairs_in(&origins);
    check_origins(&origins, &origins_by_rows(&left.taken, &lifted));
    let held: Pairing = held.entries.iter().map(|&[a, b, _]| (a, b)).collect();
    let points = points_of(&held, &pairs_of(&left.graph));
    expect(points.is_some(), || format!("{held:?} is no pairing"));
    let expected = points.map(|points| points + left.carried);
    expect(points_of(&lifted, &store) == expected, || {
        format!("a pairing of {points:?} points is lifted to another than {expected:?}")
    });
}

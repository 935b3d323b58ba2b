//! The heaviest pairing of what is left, the best of a row, the way back
//! through the steps of a slip, and where each pair came from on it, in the
//! document's words.
//!
//! In order: pairings, solve, the best of a row, the way back, origins.

use std::collections::BTreeMap;
use std::iter;

use crate::graph::{heaviest_of_path, Graph, Named, Step};
use crate::reference::Pair;

// Pairings

/// A pairing: for each cell that stands in it, its partner.
#[derive(Clone, Debug, Default, PartialEq, Eq)]
pub struct Held {
    partners: BTreeMap<u64, u64>,
}

impl Held {
    /// The pairing of these pairs, in which no cell stands twice.
    pub fn new(pairs: impl IntoIterator<Item = Pair>) -> Held {
        let mut held = Held::default();
        held.add_all(pairs);
        held
    }

    /// Whether a cell stands in a pair.
    pub fn is_paired(&self, cell: u64) -> bool {
        self.partners.contains_key(&cell)
    }

    /// Whether these two cells are a pair of it.
    pub fn holds(&self, one: u64, other: u64) -> bool {
        self.partners.get(&one) == Some(&other)
    }

    /// The pairs in order, the lower cell first.
    pub fn pairs(&self) -> Vec<Pair> {
        let both = self
            .partners
            .iter()
            .map(|(&cell, &partner)| (cell, partner));
        both.filter(|&(cell, partner)| cell < partner).collect()
    }

    // Adds a pair of two cells that stand in none.
    fn add(&mut self, one: u64, other: u64) {
        for (cell, partner) in [(one, other), (other, one)] {
            let before = self.partners.insert(cell, partner);
            assert!(before.is_none(), "cell {cell} stands twice");
        }
    }

    // Adds pairs of cells that stand in none.
    fn add_all(&mut self, pairs: impl IntoIterator<Item = Pair>) {
        for (one, other) in pairs {
            self.add(one, other);
        }
    }

    // Takes a pair out; whether it was held.
    fn remove(&mut self, one: u64, other: u64) -> bool {
        let held = self.holds(one, other);
        if held {
            self.partners.remove(&one);
            self.partners.remove(&other);
        }
        held
    }
}

// Solve

/// A heaviest pairing of a graph whose groups have few cells: a pair stands in
/// one group, so it is the heaviest pairings of the groups, joined. Of equals,
/// look at the lowest cell whose partner differs: unpaired comes first, then
/// the lower partner. That cell lies in one group, and the others have no say.
pub fn solve(graph: &Graph) -> Held {
    let groups = graph.groups().into_iter();
    Held::new(groups.flat_map(|cells| Group::new(graph, cells).solve()))
}

/// The cells of a group in order, and for each of them its higher partners, the
/// lowest first: their places in the group, and the points of the pairs.
struct Group {
    cells: Vec<u64>,
    partners: Vec<Vec<(usize, u64)>>,
}

/// What may become of the lowest cell of a set: the pair it stands in, if any,
/// the points of that pair, and the set of the cells that are left.
struct Choice {
    pair: Option<Pair>,
    points: u64,
    rest: usize,
}

impl Group {
    // The group of these cells.
    fn new(graph: &Graph, cells: Vec<u64>) -> Group {
        let higher = |&cell: &u64| {
            let others = cells.iter().enumerate().filter(|&(_, &other)| cell < other);
            let pairs = others.map(|(place, &other)| (place, graph.points(cell, other)));
            pairs.filter(|&(_, points)| points > 0).collect()
        };
        let partners = cells.iter().map(higher).collect();
        Group { cells, partners }
    }

    // The first of its heaviest pairings.
    fn solve(&self) -> Vec<Pair> {
        let heaviest = self.heaviest_of_sets();
        let mut pairs = Vec::new();
        let mut set = heaviest.len() - 1;
        while set != 0 {
            let is_best = |choice: &Choice| choice.points + heaviest[choice.rest] == heaviest[set];
            let first = self.choices(set).find(is_best).expect("a best choice");
            pairs.extend(first.pair);
            set = first.rest;
        }
        pairs
    }

    // H of every set of cells, from that of smaller sets. A set is a number: its
    // bit of a place says whether the cell of that place is in it.
    fn heaviest_of_sets(&self) -> Vec<u64> {
        let mut heaviest = vec![0];
        for set in 1..1 << self.cells.len() {
            let choices = self.choices(set);
            let points = choices.map(|choice| choice.points + heaviest[choice.rest]);
            heaviest.push(points.max().unwrap_or(0));
        }
        heaviest
    }

    // What may become of a set's lowest cell, in the order of the tie: it stays
    // unpaired, or has one of its partners in the set, the lowest first.
    fn choices(&self, set: usize) -> impl Iterator<Item = Choice> + '_ {
        let lowest = set.trailing_zeros() as usize;
        let others = set & !(1 << lowest);
        let unpaired = Choice {
            pair: None,
            points: 0,
            rest: others,
        };
        let partners = self.partners[lowest].iter();
        let in_set = partners.filter(move |&&(place, _)| others >> place & 1 == 1);
        let paired = in_set.map(move |&(place, points)| Choice {
            pair: Some((self.cells[lowest], self.cells[place])),
            points,
            rest: others & !(1 << place),
        });
        iter::once(unpaired).chain(paired)
    }
}

// The best of a row

/// The pairs of a row in reading order, with their points.
pub type Row = [(Pair, u64)];

// H of a row that is a path.
fn heaviest(row: &Row) -> u64 {
    let points: Vec<u64> = row.iter().map(|&(_, points)| points).collect();
    heaviest_of_path(&points)
}

// A row from a place on, nothing of it beyond its end.
fn from(row: &Row, place: usize) -> &Row {
    row.get(place..).unwrap_or(&[])
}

/// Which of equal pairings of a row is its best: the one that takes the pair at
/// the first difference, or the one that leaves it out.
#[derive(Clone, Copy)]
pub enum Tie {
    Near,
    /// The tie before the near end was asked for; only the test of the tie has it.
    Far,
}

impl Tie {
    // Whether a pair is taken, by the points with it and without it.
    fn takes(self, with: u64, without: u64) -> bool {
        match self {
            Tie::Near => with >= without,
            Tie::Far => with > without,
        }
    }
}

/// The best of a path, decided by its first pair.
pub fn best_of_path(tie: Tie, row: &Row) -> Vec<Pair> {
    match row.first() {
        Some(&first) => best_by_first(tie, first, &row[1..], from(row, 2)),
        None => Vec::new(),
    }
}

/// The best of a ring, decided by its first pair. What is left is a path in either case.
pub fn best_of_ring(tie: Tie, row: &Row) -> Vec<Pair> {
    best_by_first(tie, row[0], &row[1..], &row[2..row.len() - 1])
}

// The best of a row by its first pair: left out only where the path without it gives
// more than it and the path beside it, or, by the other tie, as much.
fn best_by_first(tie: Tie, first: (Pair, u64), without: &Row, beside: &Row) -> Vec<Pair> {
    let (pair, points) = first;
    if tie.takes(points + heaviest(beside), heaviest(without)) {
        [vec![pair], best_of_path(tie, beside)].concat()
    } else {
        best_of_path(tie, without)
    }
}

/// What the way back puts in the best of: C or C less u of a ring, P, P less u,
/// P less v or Q of a chain.
pub struct Part<'a> {
    pub name: &'static str,
    pub row: &'a Row,
}

impl<'a> Part<'a> {
    /// The names of all parts. Only C is a ring.
    pub const NAMES: [&'static str; 6] = ["C", "C less u", "P", "P less u", "P less v", "Q"];

    // A part of a row.
    fn new(name: &'static str, row: &'a Row) -> Part<'a> {
        Part { name, row }
    }

    /// The best of it.
    pub fn best(&self, tie: Tie) -> Vec<Pair> {
        match self.name {
            "C" => best_of_ring(tie, self.row),
            _ => best_of_path(tie, self.row),
        }
    }
}

// The way back

/// A step that was taken. Its row is that of a ring or chain before the step;
/// `present` are the points that a chain's pair u, v had then, zero if absent.
pub struct Taken {
    pub step: Step,
    pub row: Vec<(Pair, u64)>,
    pub present: u64,
}

impl Taken {
    /// Looks at the graph before the step is taken.
    pub fn new(graph: &Graph, step: Step) -> Taken {
        let (row, present) = match &step {
            Step::Leaf { .. } => (Vec::new(), 0),
            Step::Ring { cells } => (graph.row_of(&[&cells[..], &cells[..1]].concat()), 0),
            Step::Chain { cells } => {
                let [u, v] = ends(cells);
                (graph.row_of(cells), graph.points(u, v))
            }
        };
        Taken { step, row, present }
    }

    /// The ends u and v of a chain; of a leaf or ring both are u.
    pub fn ends(&self) -> [u64; 2] {
        match &self.step {
            Step::Leaf { u, .. } => [*u; 2],
            Step::Ring { cells } => [cells[0]; 2],
            Step::Chain { cells } => ends(cells),
        }
    }

    /// Makes of a pairing of the graph after the step one of the graph before it;
    /// answers the pairs that it puts in, also in place of themselves.
    pub fn undo(&self, tie: Tie, held: &mut Held) -> Vec<Pair> {
        let put = match (&self.step, self.part(held)) {
            (_, Some(part)) => part.best(tie),
            (step, None) => undo_leaf(held, step.named().cell, self.ends()[0]),
        };
        held.add_all(put.iter().copied());
        put
    }

    /// Takes out of a pairing what undoing the step replaces, and answers the part
    /// of its ring or chain whose best comes in; none of a leaf.
    pub fn part(&self, held: &mut Held) -> Option<Part<'_>> {
        let z = self.step.named().cell;
        match &self.step {
            Step::Leaf { .. } => None,
            Step::Ring { cells } => Some(self.part_of_ring(held, cells[0], z)),
            Step::Chain { cells } => Some(self.part_of_chain(held, ends(cells), z)),
        }
    }

    // If the pair u, z is held, replace it by the best of C, else add the best of C less u.
    fn part_of_ring(&self, held: &mut Held, u: u64, z: u64) -> Part<'_> {
        if held.remove(u, z) {
            Part::new("C", &self.row)
        } else {
            Part::new("C less u", &self.row[1..self.row.len() - 1])
        }
    }

    // With u, z held, replace it by the best of P less v; with v, z held, by the
    // best of P less u. With u, v held and its present points greater than H(P)
    // minus H(Q), keep it and add the best of Q; otherwise replace it by the best
    // of P. With none of the three held, add the best of Q.
    fn part_of_chain(&self, held: &mut Held, [u, v]: [u64; 2], z: u64) -> Part<'_> {
        let last = self.row.len() - 1;
        if held.remove(u, z) {
            Part::new("P less v", &self.row[..last])
        } else if held.remove(v, z) {
            Part::new("P less u", &self.row[1..])
        } else if held.holds(u, v) && !self.direct_pair_is_heavier() {
            held.remove(u, v);
            Part::new("P", &self.row)
        } else {
            Part::new("Q", &self.row[1..last])
        }
    }

    /// Whether the present points of a chain's u, v are greater than H(P) minus H(Q).
    pub fn direct_pair_is_heavier(&self) -> bool {
        self.present > self.points_of_chain()
    }

    /// H(P) minus H(Q) of a chain.
    pub fn points_of_chain(&self) -> u64 {
        let last = self.row.len() - 1;
        heaviest(&self.row) - heaviest(&self.row[1..last])
    }
}

// The two ends of a chain, u and v.
fn ends(cells: &[u64]) -> [u64; 2] {
    [cells[0], cells[cells.len() - 1]]
}

// If u is unpaired, add the pair u, v.
fn undo_leaf(held: &Held, v: u64, u: u64) -> Vec<Pair> {
    if held.is_paired(u) {
        Vec::new()
    } else {
        vec![(u.min(v), u.max(v))]
    }
}

/// The way back through all the steps, the last first.
pub fn lift(tie: Tie, taken: &[Taken], held: Held) -> Lifted {
    let mut lifted = Lifted::new(held);
    for (place, step) in taken.iter().enumerate().rev() {
        lifted.undo(tie, place, step);
    }
    lifted
}

// Origins

/// Where a pair came from: it stood in the short pairing and was never replaced,
/// or a step put it in last; its number counts from 1.
#[derive(Clone, Copy, Debug, PartialEq, Eq)]
pub enum Origin {
    Short,
    Step { number: u64, rule: u64 },
}

impl Origin {
    /// The origin of a pair that the step at a place of the slip puts in; the
    /// first place is 0.
    pub fn of_place(place: usize, named: Named) -> Origin {
        Origin::Step {
            number: place as u64 + 1,
            rule: named.rule,
        }
    }

    /// The number of the step and its rule, zero both for the short pairing.
    pub fn step_and_rule(self) -> [u64; 2] {
        match self {
            Origin::Short => [0, 0],
            Origin::Step { number, rule } => [number, rule],
        }
    }
}

/// A pairing on the way back, with the origin of each pair of it. A pair that was
/// taken out keeps its last origin here until it is put in again.
pub struct Lifted {
    pub held: Held,
    origins: BTreeMap<Pair, Origin>,
}

impl Lifted {
    /// The short pairing: nothing is undone yet.
    pub fn new(held: Held) -> Lifted {
        let pairs = held.pairs().into_iter();
        Lifted {
            origins: pairs.map(|pair| (pair, Origin::Short)).collect(),
            held,
        }
    }

    /// Undoes the step at a place of the slip; answers the pairs that it puts in.
    /// They are from this step now, every other pair that is held stays what it was.
    pub fn undo(&mut self, tie: Tie, place: usize, taken: &Taken) -> Vec<Pair> {
        let put = taken.undo(tie, &mut self.held);
        let origin = Origin::of_place(place, taken.step.named());
        for &pair in &put {
            self.origins.insert(pair, origin);
        }
        put
    }

    /// The pairs in order, the lower cell first, each with its origin.
    pub fn pairs(&self) -> Vec<(Pair, Origin)> {
        let pairs = self.held.pairs().into_iter();
        pairs.map(|pair| (pair, self.origin(pair))).collect()
    }

    /// The origin of a pair that is held.
    pub fn origin(&self, pair: Pair) -> Origin {
        self.origins[&pair]
    }
}

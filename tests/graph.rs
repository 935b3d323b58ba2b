//! The working graph and its steps, in the document's words: which steps are
//! allowed on a graph, what each of them leaves and carries, and what a slip or
//! reduce makes of a list.
//!
//! In order: the graph, groups, points of rows, rows, steps, slips.

use std::collections::BTreeMap;

use crate::lifting::Taken;
use crate::reference::Pair;

pub const LEAF: u64 = 1;
pub const RING: u64 = 2;
pub const CHAIN: u64 = 3;

// The graph

/// For each cell its partners, with the points of each pair, all above zero.
#[derive(Clone)]
pub struct Graph {
    partners: Vec<BTreeMap<u64, u64>>,
}

impl Graph {
    /// The working graph of entries: those above zero points. A cell with
    /// itself, which only a refused list has, is no pair.
    pub fn new(entries: impl IntoIterator<Item = (Pair, u64)>) -> Graph {
        let mut graph = Graph {
            partners: Vec::new(),
        };
        for ((a, b), points) in entries {
            if a != b {
                graph.set(a, b, points);
            }
        }
        graph
    }

    /// The partners of a cell with the points of each pair, the lowest first.
    pub fn partners(&self, cell: u64) -> impl Iterator<Item = (u64, u64)> + '_ {
        let partners = self.partners.get(cell as usize).into_iter().flatten();
        partners.map(|(&partner, &points)| (partner, points))
    }

    /// The number of pairs a cell still has.
    pub fn degree(&self, cell: u64) -> usize {
        self.partners.get(cell as usize).map_or(0, BTreeMap::len)
    }

    /// The points of a pair, zero if it is absent.
    pub fn points(&self, one: u64, other: u64) -> u64 {
        let partners = self.partners.get(one as usize);
        partners
            .and_then(|of| of.get(&other))
            .map_or(0, |&points| points)
    }

    /// The pairs in order, the lower cell first, with their points.
    pub fn pairs(&self) -> Vec<(Pair, u64)> {
        let mut pairs = Vec::new();
        for a in self.cells() {
            let above = self.partners(a).filter(|&(b, _)| a < b);
            pairs.extend(above.map(|(b, points)| ((a, b), points)));
        }
        pairs
    }

    /// The cells that have pairs, the lowest first.
    pub fn cells(&self) -> impl Iterator<Item = u64> + '_ {
        (0..self.partners.len() as u64).filter(|&cell| self.degree(cell) > 0)
    }

    // Gives a pair its points; a pair whose points fall to zero leaves.
    fn set(&mut self, one: u64, other: u64, points: u64) {
        for (cell, partner) in [(one, other), (other, one)] {
            if self.partners.len() <= cell as usize {
                self.partners.resize(cell as usize + 1, BTreeMap::new());
            }
            let partners = &mut self.partners[cell as usize];
            if points > 0 {
                partners.insert(partner, points);
            } else {
                partners.remove(&partner);
            }
        }
    }

    // Takes a cell out with all its pairs.
    fn remove(&mut self, cell: u64) {
        for (partner, _) in self.partners(cell).collect::<Vec<_>>() {
            self.set(cell, partner, 0);
        }
    }
}

// Groups

impl Graph {
    /// The connected groups of the cells that have pairs, each with its cells in
    /// order; the group of the lowest cell comes first.
    pub fn groups(&self) -> Vec<Vec<u64>> {
        let mut seen = vec![false; self.partners.len()];
        let mut groups = Vec::new();
        for cell in self.cells() {
            let mut group = Vec::new();
            self.visit(cell, &mut seen, &mut group);
            if !group.is_empty() {
                group.sort();
                groups.push(group);
            }
        }
        groups
    }

    // Takes a cell that was not seen yet into a group, then all that its partners lead to.
    fn visit(&self, cell: u64, seen: &mut [bool], group: &mut Vec<u64>) {
        if !seen[cell as usize] {
            seen[cell as usize] = true;
            group.push(cell);
            for (partner, _) in self.partners(cell) {
                self.visit(partner, seen, group);
            }
        }
    }

    /// The number of cells of the largest group, zero if there is none.
    pub fn largest_group(&self) -> usize {
        let sizes = self.groups().into_iter().map(|group| group.len());
        sizes.max().unwrap_or(0)
    }
}

// Points of rows

/// H of a path, from the points of its pairs in order: the last pair is left
/// out, or taken and the one before it left out.
pub fn heaviest_of_path(points: &[u64]) -> u64 {
    let (mut one_less, mut whole) = (0, 0);
    for last in points {
        (one_less, whole) = (whole, whole.max(one_less + last));
    }
    whole
}

/// H of a ring, from the points of its pairs in order: the first pair is left
/// out, or taken and the two beside it left out.
pub fn heaviest_of_ring(points: &[u64]) -> u64 {
    let last = points.len() - 1;
    let taken = points[0] + heaviest_of_path(&points[2..last]);
    heaviest_of_path(&points[1..]).max(taken)
}

// Rows

impl Graph {
    // The cells of the walk from start over a partner and on through cells of
    // degree two, up to the first cell of another degree, or to start again.
    fn walk(&self, start: u64, partner: u64) -> Vec<u64> {
        let (mut before, mut here) = (start, partner);
        let mut cells = vec![start, partner];
        while here != start && self.degree(here) == 2 {
            let on = self.partners(here).map(|(cell, _)| cell);
            let next = on.into_iter().find(|&cell| cell != before);
            (before, here) = (here, next.expect("a second partner"));
            cells.push(here);
        }
        cells
    }

    // The ring or chain that a cell of degree two lies in, if it lies in one.
    fn row(&self, cell: u64) -> Option<Step> {
        if self.degree(cell) != 2 {
            return None;
        }
        let both: Vec<u64> = self.partners(cell).map(|(partner, _)| partner).collect();
        let mut cells = self.walk(cell, both[0]);
        if cells.last() == Some(&cell) {
            cells.pop();
            return Some(ring_of_degree_two(cells));
        }
        cells.reverse();
        cells.extend(&self.walk(cell, both[1])[1..]);
        let ends_are_one = cells.first() == cells.last();
        if ends_are_one {
            cells.pop();
            return Some(ring_from_first(cells));
        }
        let inner = cells.len() - 2;
        (inner >= 2).then(|| chain_from_lower_end(cells))
    }

    // The points of the pairs of neighbours in a row.
    fn points_along(&self, cells: &[u64]) -> Vec<u64> {
        let pairs = cells.windows(2);
        pairs.map(|two| self.points(two[0], two[1])).collect()
    }

    /// The pairs of neighbours in a row, with their points.
    pub fn row_of(&self, cells: &[u64]) -> Vec<(Pair, u64)> {
        let pairs = cells
            .windows(2)
            .map(|two| (two[0].min(two[1]), two[0].max(two[1])));
        pairs.zip(self.points_along(cells)).collect()
    }
}

// A ring whose cells are all of degree two: u is the lowest.
fn ring_of_degree_two(mut cells: Vec<u64>) -> Step {
    let lowest = cells.iter().min();
    let place = cells.iter().position(|cell| Some(cell) == lowest);
    cells.rotate_left(place.unwrap_or(0));
    ring_from_first(cells)
}

// A ring whose first cell is u, read from u towards its lower ring neighbour.
fn ring_from_first(mut cells: Vec<u64>) -> Step {
    if cells.last() < cells.get(1) {
        cells[1..].reverse();
    }
    Step::Ring { cells }
}

// A chain with its two ends, read from the lower of them.
fn chain_from_lower_end(mut cells: Vec<u64>) -> Step {
    if cells.last() < cells.first() {
        cells.reverse();
    }
    Step::Chain { cells }
}

// Steps

/// A step as a slip names it: its rule and the cell that the rule calls v or z.
#[derive(Clone, Copy, Debug, PartialEq, Eq, PartialOrd, Ord)]
pub struct Named {
    pub rule: u64,
    pub cell: u64,
}

impl Named {
    /// The name of a step of this rule at this cell.
    pub fn new(rule: u64, cell: u64) -> Named {
        Named { rule, cell }
    }
}

/// A step with the cells it is about. A ring's cells are u and the others in
/// reading order, a chain's are u, the inner cells and v.
pub enum Step {
    Leaf { v: u64, u: u64 },
    Ring { cells: Vec<u64> },
    Chain { cells: Vec<u64> },
}

impl Step {
    /// The step's rule, and its v or z: z is the lowest cell of a ring but u,
    /// the lowest inner cell of a chain.
    pub fn named(&self) -> Named {
        let lowest = |cells: &[u64]| cells.iter().copied().min().unwrap_or(0);
        match self {
            Step::Leaf { v, .. } => Named::new(LEAF, *v),
            Step::Ring { cells } => Named::new(RING, lowest(&cells[1..])),
            Step::Chain { cells } => Named::new(CHAIN, lowest(inner(cells))),
        }
    }
}

// The cells of a chain without its ends.
fn inner(cells: &[u64]) -> &[u64] {
    &cells[1..cells.len() - 1]
}

impl Graph {
    /// The step of this name, none if it is not allowed here.
    pub fn step(&self, named: Named) -> Option<Step> {
        let step = match named.rule {
            LEAF => self.leaf(named.cell),
            _ => self.row(named.cell),
        };
        step.filter(|step| step.named() == named)
    }

    // The leaf step at a cell of degree one.
    fn leaf(&self, v: u64) -> Option<Step> {
        let (u, _) = self.partners(v).next()?;
        (self.degree(v) == 1).then_some(Step::Leaf { v, u })
    }

    /// All steps that are allowed here, each once.
    pub fn steps(&self) -> Vec<Step> {
        let mut steps: Vec<Step> = self.cells().filter_map(|cell| self.leaf(cell)).collect();
        let mut seen = vec![false; self.partners.len()];
        for cell in self.cells() {
            if !seen[cell as usize] {
                let row = self.row(cell);
                if let Some(Step::Ring { cells } | Step::Chain { cells }) = &row {
                    cells.iter().for_each(|&cell| seen[cell as usize] = true);
                }
                steps.extend(row);
            }
        }
        steps
    }

    /// The step that reduce takes: a leaf before a ring before a chain, each at
    /// the lowest cell named v or z.
    pub fn first_step(&self) -> Option<Step> {
        self.steps().into_iter().min_by_key(Step::named)
    }

    /// Takes a step that is allowed here, and answers what it carries.
    pub fn take(&mut self, step: &Step) -> u64 {
        let named = step.named();
        match step {
            Step::Leaf { v, u } => self.take_leaf(*v, *u),
            Step::Ring { cells } => self.take_ring(cells, named.cell),
            Step::Chain { cells } => self.take_chain(cells, named.cell),
        }
    }

    // Rule 2.4: v goes, every other pair at u loses p, never below zero.
    fn take_leaf(&mut self, v: u64, u: u64) -> u64 {
        let p = self.points(v, u);
        self.remove(v);
        for (partner, points) in self.partners(u).collect::<Vec<_>>() {
            self.set(u, partner, points.saturating_sub(p));
        }
        p
    }

    // Rule 2.5: the ring becomes one pair u, z of H(C) minus H(C less u).
    fn take_ring(&mut self, cells: &[u64], z: u64) -> u64 {
        let u = cells[0];
        let points = self.points_along(&[cells, &[u]].concat());
        let whole = heaviest_of_ring(&points);
        let less_u = heaviest_of_path(&points[1..points.len() - 1]);
        cells[1..].iter().for_each(|&cell| self.remove(cell));
        self.set(u, z, whole - less_u);
        less_u
    }

    // Rule 2.6: the inner cells become z alone; u, v gets the larger of its
    // present points and H(P) minus H(Q).
    fn take_chain(&mut self, cells: &[u64], z: u64) -> u64 {
        let (u, v) = (cells[0], cells[cells.len() - 1]);
        let present = self.points(u, v);
        let points = self.points_along(cells);
        let last = points.len() - 1;
        let p = heaviest_of_path(&points);
        let p_less_v = heaviest_of_path(&points[..last]);
        let p_less_u = heaviest_of_path(&points[1..]);
        let q = heaviest_of_path(&points[1..last]);
        inner(cells).iter().for_each(|&cell| self.remove(cell));
        self.set(u, z, p_less_v - q);
        self.set(v, z, p_less_u - q);
        self.set(u, v, present.max(p - q));
        q
    }
}

// Slips

/// What the steps of a slip leave: a graph, the sum of what they carry, and
/// the steps themselves for the way back.
pub struct Left {
    pub graph: Graph,
    pub carried: u64,
    pub taken: Vec<Taken>,
}

impl Left {
    /// What the empty slip leaves.
    pub fn new(graph: Graph) -> Left {
        Left {
            graph,
            carried: 0,
            taken: Vec::new(),
        }
    }

    // Takes one more step.
    fn take(&mut self, step: Step) {
        let taken = Taken::new(&self.graph, step);
        self.carried += self.graph.take(&taken.step);
        self.taken.push(taken);
    }
}

/// Takes the steps of a slip up to the first that is not allowed where it
/// stands; that one's place comes second, none if all are allowed.
pub fn replay(graph: Graph, slip: &[Named]) -> (Left, Option<usize>) {
    let mut left = Left::new(graph);
    for (place, &named) in slip.iter().enumerate() {
        match left.graph.step(named) {
            Some(step) => left.take(step),
            None => return (left, Some(place)),
        }
    }
    (left, None)
}

/// Takes steps in the order of reduce until none is allowed; the slip comes second.
pub fn reduce(graph: Graph) -> (Left, Vec<Named>) {
    let mut left = Left::new(graph);
    let mut slip = Vec::new();
    while let Some(step) = left.graph.first_step() {
        slip.push(step.named());
        left.take(step);
    }
    (left, slip)
}

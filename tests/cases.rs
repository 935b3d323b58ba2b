//! What is special about a call that writes files, by name, so that a
//! comparison which never met it fails.

use crate::graph::{heaviest_of_path, heaviest_of_ring, Graph, Step, CHAIN, LEAF, RING};
use crate::lifting::{self, Held, Lifted, Origin, Taken, Tie};
use crate::reference::{Answer, Input, Pair, MOST_CELLS, MOST_SOLVED, WORK_WORDS};

/// Cases of every call, of what is lent.
pub const OF_LENT: [&str; 4] = [
    "exactly enough room",
    "more room than needed",
    "work buffers of more words",
    "an output absent",
];

/// Cases of every call that takes steps, of them and of the list.
pub const OF_STEPS: [&str; 21] = [
    "leaf of a lone pair",
    "leaf at a cell of more pairs",
    "leaf that takes a pair to zero",
    "ring of degree two only",
    "ring at a cell of more pairs",
    "ring whose pair comes out zero",
    "ring of 300 cells or more at another",
    "chain of 300 cells or more",
    "chain without a direct pair",
    "chain and a heavier direct pair",
    "chain and an equal direct pair",
    "chain and a lighter direct pair",
    "chain with a pair of z that comes out zero",
    "z below both ends of a chain",
    "z between the ends of a chain",
    "z above both ends of a chain",
    "no cells",
    "no step and pairs left",
    "100 steps or more",
    "300 steps or more",
    "1,000 cells or more with pairs",
];

/// Cases of the calls that can leave so much; those that solve do on several groups.
pub const OF_MANY_LEFT: [&str; 1] = ["4,000 pairs or more left"];

/// Cases of the calls that are given a slip.
pub const OF_SLIP: [&str; 6] = [
    "chain with an end of one pair",
    "slip that stops early",
    "slip to the end",
    "first step not allowed",
    "step between others not allowed",
    "last step of many not allowed",
];

/// Cases of the calls that write one file.
pub const OF_ONE_FILE: [&str; 1] = ["file too long by one byte"];

/// Cases of the calls that write two: reduce, lift and pair.
pub const OF_TWO_FILES: [&str; 3] = [
    "first file alone too long by one byte",
    "second file alone too long by one byte",
    "both files too long",
];

/// Cases of the calls that solve what is left; the last two are refused.
pub const OF_SOLVING: [&str; 6] = [
    "no pairs left",
    "largest group of 11 cells left",
    "largest group of 12 cells left",
    "several heaviest pairings of what is left",
    "largest group of 13 cells left",
    "largest group of 14 cells or more left",
];

/// The case that comparisons on lists of several groups are made for.
pub const OF_SEVERAL: [&str; 1] = ["several groups left, and solved"];

/// Cases of what is left of lists of several groups; the last three are refused.
pub const OF_GROUPS: [&str; 16] = [
    "2 groups left",
    "3 to 9 groups left",
    "10 groups or more left",
    "60 groups or more left",
    "more than 12 cells left",
    "several groups of 12 cells left",
    "groups in blocks",
    "groups not in blocks",
    "groups by turns",
    "several heaviest pairings of several groups",
    "groups parted by a leaf",
    "groups parted by the leaf of a ring",
    "groups parted by a chain",
    "one group of 13 cells, the others smaller",
    "the same, and it has the lowest cell",
    "the same, and it has the highest cell",
];

/// The sizes of groups left of which one is solved; steps leave none of the first two.
pub const OF_GROUP_SIZES: [&str; 11] = [
    "a group of 2 cells",
    "a group of 3 cells",
    "a group of 4 cells",
    "a group of 5 cells",
    "a group of 6 cells",
    "a group of 7 cells",
    "a group of 8 cells",
    "a group of 9 cells",
    "a group of 10 cells",
    "a group of 11 cells",
    "a group of 12 cells",
];

/// Cases of a slip that leaves several groups.
pub const OF_GROUPS_AND_SLIP: [&str; 3] = [
    "several groups left, no step",
    "several groups left, slip stops early",
    "several groups left, slip to the end",
];

/// Cases of the calls that lift.
pub const OF_WAY_BACK: [&str; 15] = [
    "leaf undone, u unpaired",
    "leaf undone, u paired",
    "ring undone, u, z held",
    "ring undone, u, z not held",
    "ring of which several are best",
    "chain undone, u, z held and v paired",
    "chain undone, v, z held and u paired",
    "chain undone, u, v held and no direct pair",
    "chain undone, u, v held and lighter",
    "chain undone, u, v held and equal",
    "chain undone, u, v held and kept",
    "chain undone, none of the three held",
    "chain of which several are best",
    "several best of a row of 300 cells or more",
    "300 pairs or more written",
];

/// Cases of lift alone: two of the way back, which a heaviest pairing seldom
/// meets, and those of the pairing it is given; the last four are refused.
pub const OF_LIFT: [&str; 13] = [
    "chain undone, u, z held and v unpaired",
    "chain undone, v, z held and u unpaired",
    "empty pairing, pairs left",
    "pairing of one pair",
    "pairing of a pair that is no entry",
    "pairing of a pair whose entry has zero points",
    "heaviest pairing",
    "pairing that is not heaviest",
    "pairing with as many pairs as can be, not heaviest",
    "a cell twice",
    "a pair of no entry",
    "a pair of an entry of zero points",
    "a pair of an entry that has gone",
];

/// Cases of the calls that write an origin list: of a pair that the undoing of a
/// step takes out, puts in again or keeps, then of the whole list.
pub const OF_ORIGINS: [&str; 10] = [
    "pair of the short pairing replaced",
    "pair from a step replaced",
    "pair of the short pairing put in for itself",
    "pair from a step put in for itself",
    "direct pair of the short pairing kept",
    "direct pair from a later step kept",
    "pairs from short pairing and steps",
    "all from the short pairing, after steps",
    "pairs from leaf, ring and chain",
    "pair from step 300 or a later one",
];

/// The cases that hold of a call that takes steps, with what it was lent and its answer.
pub fn cases(
    input: &Input,
    work: [usize; 2],
    room: &[usize],
    answer: &Answer,
) -> Vec<&'static str> {
    match answer {
        Ok(_) => {
            let mut met = of_steps(input);
            met.extend(of_room(input, work, room));
            met.extend(of_pairings(input));
            met
        }
        Err(8) => of_bad_step(input),
        Err(10) => of_bad_pair(input),
        Err(11) => of_large_group(input),
        Err(12) => of_short_room(&input.lengths(), room),
        Err(_) => Vec::new(),
    }
}

// Cases of the steps of an accepted call, and of what they start from and leave.
fn of_steps(input: &Input) -> Vec<&'static str> {
    let mut graph = input.working_graph();
    let mut met = Vec::new();
    if input.n() == 0 {
        met.push("no cells");
    }
    if graph.cells().count() >= 1000 {
        met.push("1,000 cells or more with pairs");
    }
    for &named in &input.steps {
        let step = graph.step(named).expect("a step of an accepted call");
        met.extend(of_step(&mut graph, step));
    }
    if input.steps.len() >= 100 {
        met.push("100 steps or more");
    }
    if input.steps.len() >= 300 {
        met.push("300 steps or more");
    }
    if input.steps.is_empty() && graph.cells().next().is_some() {
        met.push("no step and pairs left");
    }
    if !input.solves() {
        met.extend(of_many_left(&graph));
    }
    if input.has_slip() {
        met.push(match graph.first_step() {
            Some(_) => "slip that stops early",
            None => "slip to the end",
        });
    }
    met
}

// Cases of how much is left.
fn of_many_left(graph: &Graph) -> Vec<&'static str> {
    match graph.pairs().len() {
        4000.. => OF_MANY_LEFT.to_vec(),
        _ => Vec::new(),
    }
}

// Takes one step; cases of it, looked at before and after.
fn of_step(graph: &mut Graph, step: Step) -> Vec<&'static str> {
    let taken = Taken::new(graph, step);
    let ends = taken.ends();
    let before = ends.map(|end| graph.degree(end));
    graph.take(&taken.step);
    match &taken.step {
        Step::Leaf { u, .. } => of_leaf(before[0], graph.degree(*u)),
        Step::Ring { cells } => of_ring(before[0], graph.degree(cells[0]), cells.len()),
        Step::Chain { .. } => of_chain(&taken, before, graph),
    }
}

// Cases of a leaf whose partner u has so many pairs before and after it.
fn of_leaf(before: usize, after: usize) -> Vec<&'static str> {
    if before == 1 {
        return vec!["leaf of a lone pair"];
    }
    let mut met = vec!["leaf at a cell of more pairs"];
    if after < before - 1 {
        met.push("leaf that takes a pair to zero");
    }
    met
}

// Cases of a ring of so many cells whose u has so many pairs before and after it.
fn of_ring(before: usize, after: usize, cells: usize) -> Vec<&'static str> {
    let mut met = vec![match before {
        2 => "ring of degree two only",
        _ => "ring at a cell of more pairs",
    }];
    if after == before - 2 {
        met.push("ring whose pair comes out zero");
    }
    if before > 2 && cells > 300 {
        met.push("ring of 300 cells or more at another");
    }
    met
}

// Cases of a chain whose ends have so many pairs before it, and of the graph after it.
fn of_chain(taken: &Taken, before: [usize; 2], after: &Graph) -> Vec<&'static str> {
    let ([u, v], z) = (taken.ends(), taken.step.named().cell);
    let (present, chain) = (taken.present, taken.points_of_chain());
    let mut met = vec![if present == 0 {
        "chain without a direct pair"
    } else if present > chain {
        "chain and a heavier direct pair"
    } else if present == chain {
        "chain and an equal direct pair"
    } else {
        "chain and a lighter direct pair"
    }];
    met.push(if z < u {
        "z below both ends of a chain"
    } else if z < v {
        "z between the ends of a chain"
    } else {
        "z above both ends of a chain"
    });
    if taken.row.len() > 300 {
        met.push("chain of 300 cells or more");
    }
    if after.degree(z) < 2 {
        met.push("chain with a pair of z that comes out zero");
    }
    if before.contains(&1) {
        met.push("chain with an end of one pair");
    }
    met
}

/// Cases of what an accepted call is lent.
pub fn of_room(input: &Input, work: [usize; 2], room: &[usize]) -> Vec<&'static str> {
    let mut met = vec![if input.lengths() == room {
        "exactly enough room"
    } else {
        "more room than needed"
    }];
    if work.iter().any(|&words| words > WORK_WORDS) {
        met.push("work buffers of more words");
    }
    met
}

// Cases of where a slip's first step that is not allowed stands.
fn of_bad_step(input: &Input) -> Vec<&'static str> {
    let last = input.steps.len() - 1;
    vec![match input.bad_step {
        Some(0) => "first step not allowed",
        Some(place) if place < last => "step between others not allowed",
        _ => "last step of many not allowed",
    }]
}

/// Cases of outputs that are too short.
pub fn of_short_room(lengths: &[usize], room: &[usize]) -> Vec<&'static str> {
    let missing = |output: usize| lengths[output].saturating_sub(room[output]);
    let mut met = Vec::new();
    match (lengths.len(), missing(0), missing(lengths.len() - 1)) {
        (1, 1, _) => met.extend(OF_ONE_FILE),
        (2, 1, 0) => met.push("first file alone too long by one byte"),
        (2, 0, 1) => met.push("second file alone too long by one byte"),
        (2, 1.., 1..) => met.push("both files too long"),
        _ => {}
    }
    if room.contains(&0) {
        met.push("an output absent");
    }
    met
}

// Solving and lifting

// Cases of the pairings that an accepted call reads, solves for and writes.
fn of_pairings(input: &Input) -> Vec<&'static str> {
    let mut met = Vec::new();
    if input.solves() {
        met.extend(of_solving(&input.left.graph, &input.short_pairing));
    }
    if input.has_pairing() {
        met.extend(of_given_pairing(input));
    }
    if input.lifts() {
        met.extend(of_way_back(&input.left.taken, input.short_pairing.clone()));
    }
    met.retain(|name| input.has_pairing() || !OF_LIFT.contains(name));
    met
}

// Cases of what is solved.
fn of_solving(graph: &Graph, solved: &Held) -> Vec<&'static str> {
    let mut met = Vec::new();
    match graph.largest_group() {
        0 => met.push("no pairs left"),
        11 => met.push("largest group of 11 cells left"),
        12 => met.push("largest group of 12 cells left"),
        _ => {}
    }
    if *solved != solved_from_above(graph) {
        met.push("several heaviest pairings of what is left");
    }
    met
}

// A heaviest pairing by the same tie, but with the highest cell for the lowest.
fn solved_from_above(graph: &Graph) -> Held {
    let turned = |(a, b): Pair| (MOST_CELLS - b, MOST_CELLS - a);
    let pairs = graph.pairs().into_iter();
    let above = Graph::new(pairs.map(|(pair, points)| (turned(pair), points)));
    Held::new(lifting::solve(&above).pairs().into_iter().map(turned))
}

// Cases of a group left that is larger than can be solved.
fn of_large_group(input: &Input) -> Vec<&'static str> {
    vec![match input.left.graph.largest_group() {
        13 => "largest group of 13 cells left",
        _ => "largest group of 14 cells or more left",
    }]
}

// Several groups

/// The cases that hold of a call on a list of several groups, with what it was lent
/// and its answer.
pub fn cases_of_groups(
    input: &Input,
    work: [usize; 2],
    room: &[usize],
    answer: &Answer,
) -> Vec<&'static str> {
    let groups = input.left.graph.groups();
    match answer {
        Ok(_) => {
            let mut met = of_room(input, work, room);
            met.extend(of_sizes(&groups));
            met.extend(of_many_left(&input.left.graph));
            if groups.len() > 1 {
                met.extend(OF_SEVERAL);
                met.extend(of_order(&groups));
                met.extend(of_equals(input, &groups));
                met.extend(of_parting(input));
                met.extend(of_slip_of_groups(input));
            }
            met
        }
        Err(11) => of_thirteen(&groups),
        Err(12) => of_short_room(&input.lengths(), room),
        Err(_) => Vec::new(),
    }
}

// Cases of the number of groups that are solved, and of their cells.
fn of_sizes(groups: &[Vec<u64>]) -> Vec<&'static str> {
    let mut met = match groups.len() {
        0 | 1 => Vec::new(),
        2 => vec!["2 groups left"],
        3..=9 => vec!["3 to 9 groups left"],
        10..=59 => vec!["10 groups or more left"],
        _ => vec!["10 groups or more left", "60 groups or more left"],
    };
    if groups.concat().len() > MOST_SOLVED {
        met.push("more than 12 cells left");
    }
    let of_size = |size: usize| groups.iter().filter(|group| group.len() == size).count();
    if of_size(MOST_SOLVED) > 1 {
        met.push("several groups of 12 cells left");
    }
    let sizes = (2..).zip(OF_GROUP_SIZES);
    met.extend(
        sizes
            .filter(|&(size, _)| of_size(size) > 0)
            .map(|(_, name)| name),
    );
    met
}

// Cases of how the cells of several groups are numbered: each group above those before
// it, or not; each cell of a group so far above the one before it as there are groups.
fn of_order(groups: &[Vec<u64>]) -> Vec<&'static str> {
    let mut met = vec![match groups.concat().is_sorted() {
        true => "groups in blocks",
        false => "groups not in blocks",
    }];
    let turn = groups.len() as u64;
    let by_turns = |group: &Vec<u64>| group.windows(2).all(|two| two[1] - two[0] == turn);
    if groups.iter().all(by_turns) {
        met.push("groups by turns");
    }
    met
}

// The case of two groups or more that have several heaviest pairings each.
fn of_equals(input: &Input, groups: &[Vec<u64>]) -> Vec<&'static str> {
    let solved = input.short_pairing.pairs();
    let above = solved_from_above(&input.left.graph);
    let differs = |&&(a, b): &&Pair| !above.holds(a, b);
    let different: Vec<u64> = solved.iter().filter(differs).map(|&(a, _)| a).collect();
    let is_among = |group: &&Vec<u64>| different.iter().any(|cell| group.contains(cell));
    match groups.iter().filter(is_among).count() {
        0 | 1 => Vec::new(),
        _ => vec!["several heaviest pairings of several groups"],
    }
}

// Cases of the steps after which there are more groups than before.
fn of_parting(input: &Input) -> Vec<&'static str> {
    let mut graph = input.working_graph();
    let mut groups = graph.groups().len();
    let mut rings = Vec::new();
    let mut met = Vec::new();
    for taken in &input.left.taken {
        graph.take(&taken.step);
        let (before, named) = (groups, taken.step.named());
        groups = graph.groups().len();
        match named.rule {
            RING => rings.push(named.cell),
            _ if groups <= before => {}
            CHAIN => met.push("groups parted by a chain"),
            _ if rings.contains(&named.cell) => met.push("groups parted by the leaf of a ring"),
            _ => met.push("groups parted by a leaf"),
        }
    }
    met
}

// The case of the slip that leaves several groups, where the call is given one.
fn of_slip_of_groups(input: &Input) -> Vec<&'static str> {
    let [none, early, end] = OF_GROUPS_AND_SLIP;
    match input.left.graph.first_step() {
        _ if !input.has_slip() => Vec::new(),
        _ if input.steps.is_empty() => vec![none],
        Some(_) => vec![early],
        None => vec![end],
    }
}

// Cases of one group of 13 cells among several, none of the others larger than 12.
fn of_thirteen(groups: &[Vec<u64>]) -> Vec<&'static str> {
    let large: Vec<&Vec<u64>> = groups
        .iter()
        .filter(|group| group.len() > MOST_SOLVED)
        .collect();
    let mut met = Vec::new();
    if groups.len() > 1 && large.len() == 1 && large[0].len() == MOST_SOLVED + 1 {
        met.push("one group of 13 cells, the others smaller");
        if groups[0].len() > MOST_SOLVED {
            met.push("the same, and it has the lowest cell");
        }
        if large[0].last() == groups.concat().iter().max() {
            met.push("the same, and it has the highest cell");
        }
    }
    met
}

// Cases of the pairing that lift is given and accepts.
fn of_given_pairing(input: &Input) -> Vec<&'static str> {
    let graph = &input.left.graph;
    let pairs = input.short_pairing.pairs();
    let mut met = Vec::new();
    match pairs.len() {
        0 if graph.cells().next().is_some() => met.push("empty pairing, pairs left"),
        1 => met.push("pairing of one pair"),
        _ => {}
    }
    let entries = input.entries();
    for pair in &pairs {
        match entries.get(pair) {
            None => met.push("pairing of a pair that is no entry"),
            Some(0) => met.push("pairing of a pair whose entry has zero points"),
            Some(_) => {}
        }
    }
    if (1..=MOST_SOLVED).contains(&graph.largest_group()) {
        met.extend(of_weight(graph, &input.short_pairing));
    }
    met
}

// Cases of a pairing beside the heaviest.
fn of_weight(graph: &Graph, held: &Held) -> Vec<&'static str> {
    let points = |held: &Held| {
        let pairs = held.pairs().into_iter();
        pairs.map(|(a, b)| graph.points(a, b)).sum::<u64>()
    };
    if points(held) == points(&lifting::solve(graph)) {
        return vec!["heaviest pairing"];
    }
    let free = |&((a, b), _): &(Pair, u64)| !held.is_paired(a) && !held.is_paired(b);
    if graph.pairs().iter().any(free) {
        vec!["pairing that is not heaviest"]
    } else {
        vec!["pairing with as many pairs as can be, not heaviest"]
    }
}

// Cases of what is wrong with a pairing of right form: the first thing there is.
fn of_bad_pair(input: &Input) -> Vec<&'static str> {
    let given = input.given_pairs();
    let is_left = |&&(a, b): &&Pair| input.left.graph.points(a, b) > 0;
    let Some(&absent) = given.iter().find(|pair| !is_left(pair)) else {
        return vec!["a cell twice"];
    };
    vec![match input.entries().get(&absent) {
        None => "a pair of no entry",
        Some(0) => "a pair of an entry of zero points",
        Some(_) => "a pair of an entry that has gone",
    }]
}

// Cases of the way back from a pairing, and of what it makes of it.
fn of_way_back(taken: &[Taken], held: Held) -> Vec<&'static str> {
    let mut lifted = Lifted::new(held);
    let mut met = Vec::new();
    for (place, step) in taken.iter().enumerate().rev() {
        met.extend(of_undo(step, &lifted.held));
        met.extend(of_pairs_undone(place, step, &mut lifted));
    }
    if lifted.held.pairs().len() >= 300 {
        met.push("300 pairs or more written");
    }
    met.extend(of_origins(&lifted, !taken.is_empty()));
    met
}

// Cases of one step undone, looked at before that.
fn of_undo(taken: &Taken, held: &Held) -> Vec<&'static str> {
    let z = taken.step.named().cell;
    match &taken.step {
        Step::Leaf { u, .. } if held.is_paired(*u) => vec!["leaf undone, u paired"],
        Step::Leaf { .. } => vec!["leaf undone, u unpaired"],
        Step::Ring { cells } => {
            let name = match held.holds(cells[0], z) {
                true => "ring undone, u, z held",
                false => "ring undone, u, z not held",
            };
            let several = of_several_best(taken, held, "ring of which several are best");
            [vec![name], several].concat()
        }
        Step::Chain { .. } => {
            let name = of_chain_undone(taken, held, taken.ends(), z);
            let several = of_several_best(taken, held, "chain of which several are best");
            [vec![name], several].concat()
        }
    }
}

// The case of a chain undone.
fn of_chain_undone(taken: &Taken, held: &Held, [u, v]: [u64; 2], z: u64) -> &'static str {
    let chain = taken.points_of_chain();
    if held.holds(u, z) && held.is_paired(v) {
        "chain undone, u, z held and v paired"
    } else if held.holds(u, z) {
        "chain undone, u, z held and v unpaired"
    } else if held.holds(v, z) && held.is_paired(u) {
        "chain undone, v, z held and u paired"
    } else if held.holds(v, z) {
        "chain undone, v, z held and u unpaired"
    } else if !held.holds(u, v) {
        "chain undone, none of the three held"
    } else if taken.present > chain {
        "chain undone, u, v held and kept"
    } else if taken.present == chain {
        "chain undone, u, v held and equal"
    } else if taken.present > 0 {
        "chain undone, u, v held and lighter"
    } else {
        "chain undone, u, v held and no direct pair"
    }
}

// The name and, of a long row, another, if the part put in has several heaviest pairings.
fn of_several_best(taken: &Taken, held: &Held, name: &'static str) -> Vec<&'static str> {
    let part = taken.part(&mut held.clone()).expect("a ring or chain");
    let several = match part.name {
        "C" => several_best_of_ring(part.row),
        _ => several_best_of_path(part.row),
    };
    let mut met = Vec::new();
    if several {
        met.push(name);
    }
    if several && part.row.len() > 300 {
        met.push("several best of a row of 300 cells or more");
    }
    met
}

// Whether a path has several heaviest pairings: some pair that its best leaves
// out can be taken without loss.
fn several_best_of_path(row: &lifting::Row) -> bool {
    let best = lifting::best_of_path(Tie::Near, row);
    let points: Vec<u64> = row.iter().map(|&(_, points)| points).collect();
    let whole = heaviest_of_path(&points);
    let taken = |place: usize| {
        let before = &points[..place.saturating_sub(1)];
        let after = points.get(place + 2..).unwrap_or(&[]);
        heaviest_of_path(before) + points[place] + heaviest_of_path(after)
    };
    (0..row.len()).any(|place| !best.contains(&row[place].0) && taken(place) == whole)
}

// Whether a ring has several heaviest pairings.
fn several_best_of_ring(row: &lifting::Row) -> bool {
    let best = lifting::best_of_ring(Tie::Near, row);
    let mut points: Vec<u64> = row.iter().map(|&(_, points)| points).collect();
    let whole = heaviest_of_ring(&points);
    for (pair, _) in row {
        let taken = points[0] + heaviest_of_path(&points[2..points.len() - 1]);
        if !best.contains(pair) && taken == whole {
            return true;
        }
        points.rotate_left(1);
    }
    false
}

// Origins

// Undoes the step at a place of the slip; cases of the pairs that a ring or chain
// made of its row, looked at before and after.
fn of_pairs_undone(place: usize, taken: &Taken, lifted: &mut Lifted) -> Vec<&'static str> {
    let ([u, v], z) = (taken.ends(), taken.step.named().cell);
    let made = match &taken.step {
        Step::Leaf { .. } => Vec::new(),
        Step::Ring { .. } => vec![pair(u, z)],
        Step::Chain { .. } => vec![pair(u, z), pair(v, z), pair(u, v)],
    };
    let held = made.into_iter().filter(|&(a, b)| lifted.held.holds(a, b));
    let before: Vec<(Pair, Origin)> = held.map(|pair| (pair, lifted.origin(pair))).collect();
    let put = lifted.undo(Tie::Near, place, taken);
    let fate = |&((a, b), origin): &(Pair, Origin)| {
        let is_short = origin == Origin::Short;
        match (put.contains(&(a, b)), lifted.held.holds(a, b)) {
            (true, _) if is_short => "pair of the short pairing put in for itself",
            (true, _) => "pair from a step put in for itself",
            (_, true) if is_short => "direct pair of the short pairing kept",
            (_, true) => "direct pair from a later step kept",
            _ if is_short => "pair of the short pairing replaced",
            _ => "pair from a step replaced",
        }
    };
    before.iter().map(fate).collect()
}

// Two cells, the lower first.
fn pair(one: u64, other: u64) -> Pair {
    (one.min(other), one.max(other))
}

// Cases of the origins of a lifted pairing, after steps or none.
fn of_origins(lifted: &Lifted, has_steps: bool) -> Vec<&'static str> {
    let pairs = lifted.pairs().into_iter();
    let origins: Vec<[u64; 2]> = pairs.map(|(_, origin)| origin.step_and_rule()).collect();
    let short = origins.iter().filter(|&&[step, _]| step == 0).count();
    let is_from = |wanted: u64| origins.iter().any(|&[_, rule]| rule == wanted);
    let mut met = Vec::new();
    if short > 0 && short < origins.len() {
        met.push("pairs from short pairing and steps");
    }
    if short > 0 && short == origins.len() && has_steps {
        met.push("all from the short pairing, after steps");
    }
    if [LEAF, RING, CHAIN].into_iter().all(is_from) {
        met.push("pairs from leaf, ring and chain");
    }
    if origins.iter().any(|&[step, _]| step >= 300) {
        met.push("pair from step 300 or a later one");
    }
    met
}

//! The tie of chains and rings against that of the landing before it, on lists with
//! many equal points: slips and short lists are byte for byte those of that
//! landing, and lifted pairings differ only in ties.
//!
//! The landing before is here in two ways: as digests of what its archive was
//! given and wrote for these lists, and as the reference with its tie, whose
//! lifted pairings must have the digest of those that the archive wrote.
//! Linked with that archive, the test prints these digests, and ends with a
//! mismatch of the lifted pairings.

use std::process::exit;

use crate::counts::Tally;
use crate::graph::{self, Graph, Left};
use crate::inputs::{Form, Random};
use crate::lift::Lift;
use crate::lifting::{Held, Lifted, Part, Tie};
use crate::pairings;
use crate::reduce::Reduce;
use crate::reference::{self, Pair};
use crate::replay::Replay;
use crate::shapes;
use crate::slips;
use crate::writing::{answer_of, Call};

/// The seed is fixed: the digests are of its lists.
const SEED: u64 = 102;
const LISTS: u64 = 1000;
/// How many pairings are lifted of what each slip leaves.
const PAIRINGS: u64 = 4;
/// How often the two ways back must part at each part of a row at least.
const FEWEST: u64 = 20;

/// What the archive of the landing before was given and wrote.
const BEFORE: Digests = Digests {
    given: Digest(0x2C9E_9E55_982A_37E1),
    slips: Digest(0x5B38_FA23_4F64_EC9D),
    short_lists: Digest(0x2315_47A4_872B_2A43),
    lifted: Digest(0xD8B1_9AE3_28B6_B041),
};

// Digests

/// A digest of files one after the other, each with its length (FNV-1a, 64 bits).
#[derive(Clone, Copy, Debug, PartialEq, Eq)]
struct Digest(u64);

impl Digest {
    const OF_NOTHING: Digest = Digest(0xCBF2_9CE4_8422_2325);

    // Takes a file in.
    fn add(&mut self, file: &[u8]) {
        let length = (file.len() as u64).to_be_bytes();
        for &byte in length.iter().chain(file) {
            self.0 = (self.0 ^ u64::from(byte)).wrapping_mul(0x0000_0100_0000_01B3);
        }
    }
}

/// Of what the calls were given: lists, drawn slips and short pairings; of what they
/// wrote: slips, short lists, and lifted pairings with their origin lists.
#[derive(Debug)]
struct Digests {
    given: Digest,
    slips: Digest,
    short_lists: Digest,
    lifted: Digest,
}

// The test

/// What was met so far: digests of the archive's files, and of the lifted pairings
/// of the reference by either tie; how often the ways back part at each part.
struct Test {
    lent: Random,
    archive: Digests,
    near: Digest,
    far: Digest,
    parted: Tally,
    lifted: u64,
    different: u64,
}

/// Makes the calls and compares; ends at the first fault, and says what was met
/// too seldom.
pub fn run() -> Vec<String> {
    let mut random = Random::new(SEED);
    let mut test = Test::new();
    for _ in 0..LISTS {
        let list = shapes::list_of_equals(&mut random);
        test.run_list(&mut random, &list);
    }
    test.finish()
}

impl Test {
    // Nothing met yet.
    fn new() -> Test {
        Test {
            lent: Random::new(SEED),
            archive: Digests {
                given: Digest::OF_NOTHING,
                slips: Digest::OF_NOTHING,
                short_lists: Digest::OF_NOTHING,
                lifted: Digest::OF_NOTHING,
            },
            near: Digest::OF_NOTHING,
            far: Digest::OF_NOTHING,
            parted: Tally::at_least(FEWEST, "parts at which the ways back part", &Part::NAMES),
            lifted: 0,
            different: 0,
        }
    }

    // Lifts pairings of what reduce leaves of a list, and of what a drawn slip leaves.
    fn run_list(&mut self, random: &mut Random, list: &Form) {
        let (graph, bytes) = (slips::graph_of(list), list.bytes());
        self.archive.given.add(&bytes);

        let [slip, short_list] = self.written::<Reduce>(&[&bytes]);
        self.archive.slips.add(&slip);
        self.archive.short_lists.add(&short_list);
        let (left, _) = graph::reduce(graph.clone());
        self.run_lifts(random, list, &slip, &left);

        let steps = slips::few_chains(random, graph.clone());
        let slip = slips::form(list.n, &steps).bytes();
        self.archive.given.add(&slip);
        let [short_list, _] = self.written::<Replay>(&[&bytes, &slip]);
        self.archive.short_lists.add(&short_list);
        let (left, _) = graph::replay(graph, &steps);
        self.run_lifts(random, list, &slip, &left);
    }

    // Lifts drawn pairings of what a slip leaves of a list.
    fn run_lifts(&mut self, random: &mut Random, list: &Form, slip: &[u8], left: &Left) {
        for _ in 0..PAIRINGS {
            let pairing = pairings::valid_pairing(random, list, left);
            self.run_lift(list, slip, left, &pairing);
        }
    }

    // Lifts a pairing of what a slip leaves of a list.
    fn run_lift(&mut self, list: &Form, slip: &[u8], left: &Left, pairing: &Form) {
        self.archive.given.add(&pairing.bytes());
        for file in self.written::<Lift>(&[&list.bytes(), slip, &pairing.bytes()]) {
            self.archive.lifted.add(&file);
        }
        let short = Held::new(pairing.entries.iter().map(|&[a, b, _]| (a, b)));
        let ways = Ways::back(left, &short);
        for (digest, lifted) in [(&mut self.near, &ways.near), (&mut self.far, &ways.far)] {
            let files = reference::lifted_files(list.n, &lifted.pairs());
            files.iter().for_each(|file| digest.add(file));
        }
        ways.check(&slips::graph_of(list), left, &short);
        self.lifted += 1;
        self.different += u64::from(ways.near.held != ways.far.held);
        if let Some(part) = ways.parted {
            self.parted.meet(part);
        }
    }

    // The files that a call writes, which must not refuse what it is given.
    fn written<C: Call>(&mut self, files: &[&[u8]]) -> [Vec<u8>; 2] {
        let (number, written) = answer_of::<C>(&mut self.lent, files);
        check(number == 0, || format!("{} answers {number}", C::NAME));
        written
    }

    // Compares the digests; prints what was met, and says what was met too seldom.
    fn finish(self) -> Vec<String> {
        let archive = &self.archive;
        let same = [
            ("what is given", archive.given, BEFORE.given),
            ("slips", archive.slips, BEFORE.slips),
            ("short lists", archive.short_lists, BEFORE.short_lists),
            ("lifted pairings", archive.lifted, self.near),
            ("lifted pairings by the tie before", self.far, BEFORE.lifted),
        ];
        for (name, came, expected) in same {
            check(came == expected, || {
                format!("{name}: {came:X?} and not {expected:X?}; the archive has {archive:X?}")
            });
        }
        println!(
            "near end: {LISTS} lists, slips and short lists those of the landing before; \
             {} pairings lifted, {} otherwise than there, only in ties",
            self.lifted, self.different
        );
        self.parted.print();
        self.parted.shortfalls()
    }
}

// Ends with what is wrong, unless it is right.
fn check(right: bool, wrong: impl FnOnce() -> String) {
    if !right {
        println!("MISMATCH at the near end: {}", wrong());
        println!("FAIL");
        exit(1);
    }
}

// The two ways back

/// What becomes of one short pairing on the way back by either tie, and the part at
/// which the two become different, if they do.
struct Ways {
    near: Lifted,
    far: Lifted,
    parted: Option<&'static str>,
}

impl Ways {
    // Goes back by both ties. The first time that they put in different pairs, they do
    // so into the same pairing, for the same part: there both have its most points, and
    // the near one takes the pair at the first difference.
    fn back(left: &Left, short: &Held) -> Ways {
        let lifted = || Lifted::new(short.clone());
        let mut ways = Ways {
            near: lifted(),
            far: lifted(),
            parted: None,
        };
        for (place, step) in left.taken.iter().enumerate().rev() {
            let part = step.part(&mut ways.near.held.clone());
            let near = ways.near.undo(Tie::Near, place, step);
            let far = ways.far.undo(Tie::Far, place, step);
            if let (None, true, Some(part)) = (ways.parted, near != far, part) {
                check_tie(&part, &near, &far);
                ways.parted = Some(part.name);
            }
        }
        ways
    }

    // Both are pairings of the list's graph with the short pairing's points and the
    // carried ones; without a tie they are the same.
    fn check(&self, graph: &Graph, left: &Left, short: &Held) {
        let points = |graph: &Graph, held: &Held| -> u64 {
            let pairs = held.pairs().into_iter();
            pairs.map(|(a, b)| graph.points(a, b)).sum()
        };
        let expected = points(&left.graph, short) + left.carried;
        for lifted in [&self.near, &self.far] {
            let came = points(graph, &lifted.held);
            check(came == expected, || {
                format!("{came} points, not {expected}")
            });
        }
        let same = self.near.held == self.far.held;
        check(same || self.parted.is_some(), || "no tie".to_string());
    }
}

// Of the best of a part by either tie: they have as many points, and at the first pair
// in reading order that only one of them has it is the near one that has it.
fn check_tie(part: &Part, near: &[Pair], far: &[Pair]) {
    let points = |best: &[Pair]| -> u64 {
        let row = part.row.iter().filter(|(pair, _)| best.contains(pair));
        row.map(|&(_, points)| points).sum()
    };
    let differs = |(pair, _): &&(Pair, u64)| near.contains(pair) != far.contains(pair);
    let first = part.row.iter().find(differs);
    check(
        points(near) == points(far) && first.is_some_and(|(pair, _)| near.contains(pair)),
        || format!("{}: {near:?} and {far:?}", part.name),
    );
}

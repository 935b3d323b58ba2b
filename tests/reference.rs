//! The independent implementation: files, refusals and calls, written to be
//! read and not to be fast. Files are read bit by bit, membership is a map,
//! a cell that stands twice is found with a set. The working graph, its groups
//! and its steps are in graph.rs, the heaviest pairing and the way back in
//! lifting.rs.
//!
//! In order: bits, files, refusals, calls. A new call adds its inputs to
//! `Input`, its refusals to `holds` and its own function at the end.

use std::collections::{BTreeMap, BTreeSet};

use crate::graph::{self, Graph, Left, Named, CHAIN, LEAF};
use crate::lifting::{self, Held, Lifted, Origin, Tie};

pub const WORK_WORDS: usize = 8192;
pub const MOST_CELLS: u64 = 1024;
pub const MOST_ENTRIES: u64 = 4096;
/// The most cells of a group that is solved.
pub const MOST_SOLVED: usize = 12;

pub const LIST_KIND: u64 = 1;
pub const SHORT_LIST_KIND: u64 = 2;
pub const SLIP_KIND: u64 = 3;
pub const PAIRING_KIND: u64 = 4;
pub const ORIGINS_KIND: u64 = 5;
pub const RAW_LIST_KIND: u64 = 6;

/// The bits of the header's fields: kind, cells n, count m, zero bits.
pub const HEADER_BITS: [usize; 4] = [4, 11, 13, 4];
/// The bits of an entry of a store list or a raw list: cell a, cell b, points.
pub const LIST_BITS: [usize; 3] = [10, 10, 20];
/// The bits of a short list's carried points and of its entry: cell a, cell b, points.
pub const CARRIED_BITS: [usize; 1] = [64];
pub const SHORT_LIST_BITS: [usize; 3] = [10, 10, 44];
/// The bits of a slip's step: rule, cell.
pub const SLIP_BITS: [usize; 2] = [6, 10];
/// The bits of a pairing's entry: cell a, cell b, zero bits.
pub const PAIRING_BITS: [usize; 3] = [10, 10, 4];
/// The bits of an origin list's entry: cell a, cell b, step, rule, zero bits.
pub const ORIGINS_BITS: [usize; 5] = [10, 10, 11, 3, 6];

const HEADER_BYTES: usize = 4;
const LIST_ENTRY_BYTES: u64 = 5;
const SLIP_STEP_BYTES: u64 = 2;
const PAIRING_ENTRY_BYTES: u64 = 3;
/// The refusals in checking order: 13 comes after 1, and for a raw list in place of 2 to 6.
const CHECKING_ORDER: [u32; 13] = [1, 13, 2, 3, 4, 5, 6, 7, 8, 9, 10, 11, 12];
/// The refusals of a store list.
const LIST_REFUSALS: [u32; 5] = [2, 3, 4, 5, 6];
/// What refusal 13 is given for.
pub const RAW_LIST_FAULTS: [&str; 9] = [
    "shorter than 4 bytes",
    "kind not 6",
    "a header zero bit set",
    "n above 1,024",
    "m above 4,096",
    "length not 4 + 5 m",
    "one cell twice",
    "cell a not below n",
    "cell b not below n",
];

/// Two cells, the lower one first.
pub type Pair = (u64, u64);

// Bits

/// Reads a file from its first bit on, the most significant bit of a byte first.
struct Bits<'a> {
    bytes: &'a [u8],
    place: usize,
}

impl<'a> Bits<'a> {
    // Stands before the first bit.
    fn new(bytes: &'a [u8]) -> Self {
        Bits { bytes, place: 0 }
    }

    // The next bit, none at the end of the file.
    fn bit(&mut self) -> Option<u64> {
        let byte = self.bytes.get(self.place / 8)?;
        let mask = 0x80 >> (self.place % 8);
        self.place += 1;
        Some(u64::from(byte & mask != 0))
    }

    // The next field of so many bits, none where the file ends before it does.
    fn field(&mut self, bits: usize) -> Option<u64> {
        let mut value = 0;
        for _ in 0..bits {
            value = 2 * value + self.bit()?;
        }
        Some(value)
    }

    // The next fields, one for each width, none where the file ends before they do.
    fn fields<const COUNT: usize>(&mut self, widths: [usize; COUNT]) -> Option<[u64; COUNT]> {
        let mut values = [0; COUNT];
        for (value, width) in values.iter_mut().zip(widths) {
            *value = self.field(width)?;
        }
        Some(values)
    }
}

/// Writes a file bit by bit, in the order in which `Bits` reads it.
#[derive(Default)]
pub struct Pack {
    bits: Vec<bool>,
}

impl Pack {
    /// Appends each value in so many bits as its width says; bits above them are dropped.
    pub fn fields<const COUNT: usize>(&mut self, values: [u64; COUNT], widths: [usize; COUNT]) {
        for (value, width) in values.into_iter().zip(widths) {
            for bit in (0..width).rev() {
                self.bits.push((value >> bit) % 2 == 1);
            }
        }
    }

    /// The bytes of the bits appended so far.
    pub fn bytes(&self) -> Vec<u8> {
        let mut bytes = Vec::new();
        for eight in self.bits.chunks(8) {
            bytes.push(eight.iter().fold(0, |byte, &bit| 2 * byte + u8::from(bit)));
        }
        bytes
    }
}

// Files

/// The 32 bits with which every file starts.
struct Header {
    kind: u64,
    n: u64,
    m: u64,
    zero: u64,
}

impl Header {
    // The header at the reader's place, none where fewer than 32 bits are left.
    fn read(bits: &mut Bits) -> Option<Header> {
        let [kind, n, m, zero] = bits.fields(HEADER_BITS)?;
        Some(Header { kind, n, m, zero })
    }
}

/// One entry of a store list or a raw list.
struct ListEntry {
    a: u64,
    b: u64,
    points: u64,
}

/// A store list or a raw list as it lies in its bytes, right or wrong: no header if
/// it is shorter than one, and every entry that is there whole, whatever m says.
struct List {
    length: usize,
    header: Option<Header>,
    entries: Vec<ListEntry>,
}

impl List {
    // Reads the header, then entries until the bytes end.
    fn read(bytes: &[u8]) -> List {
        let mut bits = Bits::new(bytes);
        let header = Header::read(&mut bits);
        let mut entries = Vec::new();
        while let Some([a, b, points]) = bits.fields(LIST_BITS) {
            entries.push(ListEntry { a, b, points });
        }
        List {
            length: bytes.len(),
            header,
            entries,
        }
    }

    // The points of each pair that is an entry, zero points too.
    fn points(&self) -> BTreeMap<Pair, u64> {
        self.entries
            .iter()
            .map(|entry| ((entry.a, entry.b), entry.points))
            .collect()
    }

    // The last points of each pair, by place in the file, whichever cell comes first.
    fn last_points(&self) -> BTreeMap<Pair, u64> {
        let mut last = BTreeMap::new();
        for &ListEntry { a, b, points } in &self.entries {
            last.insert((a.min(b), a.max(b)), points);
        }
        last
    }
}

// The bytes of a store list of n cells, its pairs in order with their points.
fn list_file(n: u64, points: &BTreeMap<Pair, u64>) -> Vec<u8> {
    let mut pack = Pack::default();
    pack.fields([LIST_KIND, n, points.len() as u64, 0], HEADER_BITS);
    for (&(a, b), &points) in points {
        pack.fields([a, b, points], LIST_BITS);
    }
    pack.bytes()
}

/// A slip as it lies in its bytes, read like `List`.
struct Slip {
    length: usize,
    header: Option<Header>,
    steps: Vec<Named>,
}

impl Slip {
    // Reads the header, then steps until the bytes end.
    fn read(bytes: &[u8]) -> Slip {
        let mut bits = Bits::new(bytes);
        let header = Header::read(&mut bits);
        let mut steps = Vec::new();
        while let Some([rule, cell]) = bits.fields(SLIP_BITS) {
            steps.push(Named::new(rule, cell));
        }
        Slip {
            length: bytes.len(),
            header,
            steps,
        }
    }
}

/// The bytes of a slip for a list of n cells.
pub fn slip_file(n: u64, steps: &[Named]) -> Vec<u8> {
    let mut pack = Pack::default();
    pack.fields([SLIP_KIND, n, steps.len() as u64, 0], HEADER_BITS);
    for step in steps {
        pack.fields([step.rule, step.cell], SLIP_BITS);
    }
    pack.bytes()
}

/// The bytes of a short list for a list of n cells: the carried points, then
/// the pairs with their points, in the order of a list.
pub fn short_list_file(n: u64, carried: u64, pairs: &[(Pair, u64)]) -> Vec<u8> {
    let mut pack = Pack::default();
    pack.fields([SHORT_LIST_KIND, n, pairs.len() as u64, 0], HEADER_BITS);
    pack.fields([carried], CARRIED_BITS);
    for &((a, b), points) in pairs {
        pack.fields([a, b, points], SHORT_LIST_BITS);
    }
    pack.bytes()
}

/// The bytes of a pairing for a list of n cells, from its pairs in order.
pub fn pairing_file(n: u64, pairs: &[Pair]) -> Vec<u8> {
    let mut pack = Pack::default();
    pack.fields([PAIRING_KIND, n, pairs.len() as u64, 0], HEADER_BITS);
    for &(a, b) in pairs {
        pack.fields([a, b, 0], PAIRING_BITS);
    }
    pack.bytes()
}

/// The bytes of an origin list for a list of n cells: the pairs of a pairing in
/// order, each with the step and rule it came from.
pub fn origins_file(n: u64, pairs: &[(Pair, Origin)]) -> Vec<u8> {
    let mut pack = Pack::default();
    pack.fields([ORIGINS_KIND, n, pairs.len() as u64, 0], HEADER_BITS);
    for &((a, b), origin) in pairs {
        let [step, rule] = origin.step_and_rule();
        pack.fields([a, b, step, rule, 0], ORIGINS_BITS);
    }
    pack.bytes()
}

/// The files of a lifted pairing for a list of n cells: the pairing, then its origin list.
pub fn lifted_files(n: u64, pairs: &[(Pair, Origin)]) -> Vec<Vec<u8>> {
    let cells: Vec<Pair> = pairs.iter().map(|&(pair, _)| pair).collect();
    vec![pairing_file(n, &cells), origins_file(n, pairs)]
}

/// One entry of a pairing.
struct PairingEntry {
    a: u64,
    b: u64,
    zero: u64,
}

/// A pairing as it lies in its bytes, read like `List`.
struct Pairing {
    length: usize,
    header: Option<Header>,
    entries: Vec<PairingEntry>,
}

impl Pairing {
    // Reads the header, then entries until the bytes end.
    fn read(bytes: &[u8]) -> Pairing {
        let mut bits = Bits::new(bytes);
        let header = Header::read(&mut bits);
        let mut entries = Vec::new();
        while let Some([a, b, zero]) = bits.fields(PAIRING_BITS) {
            entries.push(PairingEntry { a, b, zero });
        }
        Pairing {
            length: bytes.len(),
            header,
            entries,
        }
    }
}

// Refusals

/// What a call is given. A call without a slip or a pairing has none here;
/// `graph` is what the pairing is for, each pair with its points there. The list
/// of tidy is a raw one.
///
/// A call that writes files also has what comes of its list: the steps of its
/// slip or of reduce, the place of the first step that is not allowed, what
/// they leave, the pairing of that which is solved for or lifted, the files it
/// writes and the room that is lent for each. Where an earlier refusal holds,
/// they are what comes of the entries, steps and pairs that can be read, up to
/// the first step that is not allowed; no answer depends on them then.
pub struct Input {
    work: [usize; 2],
    list: List,
    is_raw: bool,
    slip: Option<Slip>,
    pairing: Option<Pairing>,
    graph: BTreeMap<Pair, u64>,
    pub steps: Vec<Named>,
    pub bad_step: Option<usize>,
    pub left: Left,
    solves: bool,
    pub short_pairing: Held,
    files: Vec<Vec<u8>>,
    room: Vec<usize>,
}

// Refusal 2: shorter than 4 bytes, kind not 1, or a header zero bit set.
fn list_start_is_wrong(list: &List) -> bool {
    match &list.header {
        None => true,
        Some(header) => header.kind != LIST_KIND || header.zero != 0,
    }
}

// Refusal 3: n above 1,024 or m above 4,096.
fn list_is_too_large(list: &List) -> bool {
    match &list.header {
        None => false,
        Some(header) => header.n > MOST_CELLS || header.m > MOST_ENTRIES,
    }
}

// Refusal 4: the length is not 4 + 5 m.
fn list_length_is_wrong(list: &List) -> bool {
    match &list.header {
        None => false,
        Some(header) => !length_fits(list.length, header.m, LIST_ENTRY_BYTES),
    }
}

// Whether a file is as long as its header and its m entries.
fn length_fits(length: usize, m: u64, entry_bytes: u64) -> bool {
    length as u64 == HEADER_BYTES as u64 + m * entry_bytes
}

// Refusal 5: some entry has a cell not below n, or a not below b.
fn list_cell_is_wrong(list: &List) -> bool {
    match &list.header {
        None => false,
        Some(header) => list
            .entries
            .iter()
            .any(|entry| cells_are_wrong(entry.a, entry.b, header.n)),
    }
}

// Whether a cell is not below n, or a not below b.
fn cells_are_wrong(a: u64, b: u64, n: u64) -> bool {
    a >= n || b >= n || a >= b
}

// Refusal 6: the entries are not strictly ascending by (a, b).
fn list_order_is_wrong(list: &List) -> bool {
    list.entries
        .windows(2)
        .any(|two| (two[0].a, two[0].b) >= (two[1].a, two[1].b))
}

// Refusal 7: shorter than 4 bytes, wrong kind, n, length or zero bits, or a rule not 1 to 3.
fn slip_form_is_wrong(slip: &Slip, list: &List) -> bool {
    let (Some(header), Some(list_header)) = (&slip.header, &list.header) else {
        return true;
    };
    let is_a_rule = |rule| (LEAF..=CHAIN).contains(&rule);
    header.kind != SLIP_KIND
        || header.n != list_header.n
        || header.zero != 0
        || !length_fits(slip.length, header.m, SLIP_STEP_BYTES)
        || slip.steps.iter().any(|step| !is_a_rule(step.rule))
}

// Refusal 9: shorter than 4 bytes, or wrong kind, n, length, zero bits, cells or order.
fn pairing_form_is_wrong(pairing: &Pairing, list: &List) -> bool {
    let (Some(header), Some(list_header)) = (&pairing.header, &list.header) else {
        return true;
    };
    header.kind != PAIRING_KIND
        || header.n != list_header.n
        || header.zero != 0
        || !length_fits(pairing.length, header.m, PAIRING_ENTRY_BYTES)
        || pairing.entries.iter().any(|entry| entry.zero != 0)
        || pairing
            .entries
            .iter()
            .any(|entry| cells_are_wrong(entry.a, entry.b, header.n))
        || pairing.entries.windows(2).any(|two| two[0].a >= two[1].a)
}

// Refusal 10: a cell stands twice, or a pair is not in the graph the pairing is for.
fn pairing_is_none_of(pairing: &Pairing, graph: &BTreeMap<Pair, u64>) -> bool {
    let mut cells = BTreeSet::new();
    for entry in &pairing.entries {
        let a_is_new = cells.insert(entry.a);
        let b_is_new = cells.insert(entry.b);
        if !a_is_new || !b_is_new || !graph.contains_key(&(entry.a, entry.b)) {
            return true;
        }
    }
    false
}

// Refusal 11: some group of the cells that have pairs left has more than 12 cells.
fn group_is_too_large(left: &Left) -> bool {
    left.graph.largest_group() > MOST_SOLVED
}

// Refusal 13: what is wrong with a raw list, each clause looked at by itself.
fn raw_list_faults(list: &List) -> Vec<&'static str> {
    let Some(header) = &list.header else {
        return vec![RAW_LIST_FAULTS[0]];
    };
    let some = |wrong: fn(&ListEntry, u64) -> bool| {
        let mut entries = list.entries.iter();
        entries.any(|entry| wrong(entry, header.n))
    };
    let clauses = [
        header.kind != RAW_LIST_KIND,
        header.zero != 0,
        header.n > MOST_CELLS,
        header.m > MOST_ENTRIES,
        !length_fits(list.length, header.m, LIST_ENTRY_BYTES),
        some(|entry, _| entry.a == entry.b),
        some(|entry, n| entry.a >= n),
        some(|entry, n| entry.b >= n),
    ];
    let faults = RAW_LIST_FAULTS[1..].iter().zip(clauses);
    faults
        .filter(|&(_, holds)| holds)
        .map(|(&name, _)| name)
        .collect()
}

// Whether the refusal of this number holds, where the call has that input.
fn holds(number: u32, input: &Input) -> bool {
    match number {
        1 => input.work.iter().any(|&words| words < WORK_WORDS),
        13 => input.is_raw && !raw_list_faults(&input.list).is_empty(),
        2..=6 if input.is_raw => false,
        2 => list_start_is_wrong(&input.list),
        3 => list_is_too_large(&input.list),
        4 => list_length_is_wrong(&input.list),
        5 => list_cell_is_wrong(&input.list),
        6 => list_order_is_wrong(&input.list),
        7 => input
            .slip
            .as_ref()
            .is_some_and(|slip| slip_form_is_wrong(slip, &input.list)),
        8 => input.bad_step.is_some(),
        9 => input
            .pairing
            .as_ref()
            .is_some_and(|pairing| pairing_form_is_wrong(pairing, &input.list)),
        10 => input
            .pairing
            .as_ref()
            .is_some_and(|pairing| pairing_is_none_of(pairing, &input.graph)),
        11 => input.solves && group_is_too_large(&input.left),
        12 => (input.files.iter().zip(&input.room)).any(|(file, &room)| room < file.len()),
        _ => false,
    }
}

// The first refusal that holds, in checking order.
fn first_refusal(input: &Input) -> Option<u32> {
    let mut numbers = CHECKING_ORDER.into_iter();
    numbers.find(|&number| holds(number, input))
}

// Calls

// What weighing is given: its graph is the list's entries.
fn weigh_input(list: &[u8], pairing: &[u8], work_a_len: usize, work_b_len: usize) -> Input {
    let mut input = Input::over(list);
    input.work = [work_a_len, work_b_len];
    input.pairing = Some(Pairing::read(pairing));
    input.graph = input.list.points();
    input
}

/// Weighs a pairing of the list: its points, or the number of the first refusal.
pub fn weigh(
    list: &[u8],
    pairing: &[u8],
    work_a_len: usize,
    work_b_len: usize,
) -> Result<u64, u32> {
    let input = weigh_input(list, pairing, work_a_len, work_b_len);
    if let Some(number) = first_refusal(&input) {
        return Err(number);
    }
    let pairs = input.pairing.iter().flat_map(|pairing| &pairing.entries);
    Ok(pairs
        .filter_map(|entry| input.graph.get(&(entry.a, entry.b)))
        .sum())
}

/// Every refusal that holds of weighing this, each looked at by itself over
/// what can be read; the comparison counts them to see that the order is tried.
pub fn weigh_refusals(
    list: &[u8],
    pairing: &[u8],
    work_a_len: usize,
    work_b_len: usize,
) -> Vec<u32> {
    weigh_input(list, pairing, work_a_len, work_b_len).refusals()
}

/// What a call that writes files answers: the files, or the number of the first refusal.
pub type Answer = Result<Vec<Vec<u8>>, u32>;

impl Input {
    // What a call over a list is given, with nothing lent yet and no files.
    fn over(list: &[u8]) -> Input {
        Input {
            work: [0; 2],
            list: List::read(list),
            is_raw: false,
            slip: None,
            pairing: None,
            graph: BTreeMap::new(),
            steps: Vec::new(),
            bad_step: None,
            left: Left::new(Graph::new([])),
            solves: false,
            short_pairing: Held::default(),
            files: Vec::new(),
            room: Vec::new(),
        }
    }

    // What a call over a list and a slip is given, with what the slip leaves.
    fn over_slip(list: &[u8], slip: &[u8]) -> Input {
        let mut input = Input::over(list);
        let slip = Slip::read(slip);
        input.steps = slip.steps.clone();
        input.slip = Some(slip);
        (input.left, input.bad_step) = graph::replay(input.working_graph(), &input.steps);
        input
    }

    // What a call over a list is given, with what the steps of reduce leave.
    fn over_reduced(list: &[u8]) -> Input {
        let mut input = Input::over(list);
        (input.left, input.steps) = graph::reduce(input.working_graph());
        input
    }

    /// What replay is given; it writes the short list.
    pub fn replay(list: &[u8], slip: &[u8]) -> Input {
        let mut input = Input::over_slip(list, slip);
        input.files = vec![input.short_list()];
        input
    }

    /// What reduce is given; it writes the slip and the short list.
    pub fn reduce(list: &[u8]) -> Input {
        let mut input = Input::over_reduced(list);
        input.files = vec![slip_file(input.n(), &input.steps), input.short_list()];
        input
    }

    /// What solve is given; it writes a pairing of what the slip leaves.
    pub fn solve(list: &[u8], slip: &[u8]) -> Input {
        let mut input = Input::over_slip(list, slip);
        input.solve_left();
        input.files = vec![pairing_file(input.n(), &input.short_pairing.pairs())];
        input
    }

    /// What lift is given; it writes a pairing of the list and its origin list.
    pub fn lift(list: &[u8], slip: &[u8], pairing: &[u8]) -> Input {
        let mut input = Input::over_slip(list, slip);
        let pairing = Pairing::read(pairing);
        input.graph = input.left.graph.pairs().into_iter().collect();
        input.short_pairing = pairing_of(&pairing, &input.graph);
        input.pairing = Some(pairing);
        input.files = lifted_files(input.n(), &input.lifted().pairs());
        input
    }

    /// What pair is given; it reduces, solves and lifts, and writes what lift does.
    pub fn pair(list: &[u8]) -> Input {
        let mut input = Input::over_reduced(list);
        input.solve_left();
        input.files = lifted_files(input.n(), &input.lifted().pairs());
        input
    }

    /// What tidy is given, a raw list; it writes the store list: lower cell first,
    /// ascending, and of repeated pairs the last points stand.
    pub fn tidy(raw: &[u8]) -> Input {
        let mut input = Input::over(raw);
        input.is_raw = true;
        input.files = vec![list_file(input.n(), &input.list.last_points())];
        input
    }

    // Solves what is left; where a group is too large the pairing stays empty,
    // which is the shortest that any could be.
    fn solve_left(&mut self) {
        self.solves = true;
        if !group_is_too_large(&self.left) {
            self.short_pairing = lifting::solve(&self.left.graph);
        }
    }

    /// The pairing of the list that the way back makes of that of what is left.
    pub fn lifted(&self) -> Lifted {
        lifting::lift(Tie::Near, &self.left.taken, self.short_pairing.clone())
    }

    /// The list's working graph.
    pub fn working_graph(&self) -> Graph {
        Graph::new(self.list.points())
    }

    /// Whether the call is given a slip.
    pub fn has_slip(&self) -> bool {
        self.slip.is_some()
    }

    /// Whether the call solves what is left.
    pub fn solves(&self) -> bool {
        self.solves
    }

    /// Whether the call is given a pairing.
    pub fn has_pairing(&self) -> bool {
        self.pairing.is_some()
    }

    /// Whether the call lifts a pairing: lift, and pair, which solves without a slip.
    pub fn lifts(&self) -> bool {
        self.has_pairing() || (self.solves && !self.has_slip())
    }

    /// The points of each pair that is an entry of the list, zero points too.
    pub fn entries(&self) -> BTreeMap<Pair, u64> {
        self.list.points()
    }

    /// The cells and points of each entry of the list, in the order of the file.
    pub fn entries_in_place(&self) -> Vec<[u64; 3]> {
        let entries = self.list.entries.iter();
        entries
            .map(|entry| [entry.a, entry.b, entry.points])
            .collect()
    }

    /// What is wrong with the raw list.
    pub fn raw_list_faults(&self) -> Vec<&'static str> {
        raw_list_faults(&self.list)
    }

    /// The cells of each pair that the call is given to lift, good or bad.
    pub fn given_pairs(&self) -> Vec<Pair> {
        let entries = self.pairing.iter().flat_map(|pairing| &pairing.entries);
        entries.map(|entry| (entry.a, entry.b)).collect()
    }

    /// The list's n, zero if it has no header.
    pub fn n(&self) -> u64 {
        self.list.header.as_ref().map_or(0, |header| header.n)
    }

    // The short list of what is left.
    fn short_list(&self) -> Vec<u8> {
        short_list_file(self.n(), self.left.carried, &self.left.graph.pairs())
    }

    /// The length of each file that the call writes.
    pub fn lengths(&self) -> Vec<usize> {
        self.files.iter().map(Vec::len).collect()
    }

    /// Lends work buffers of these lengths and so much room for each file.
    pub fn lend(&mut self, work: [usize; 2], room: &[usize]) {
        self.work = work;
        self.room = room.to_vec();
    }

    /// The files that the call writes, or the number of the first refusal.
    pub fn answer(&self) -> Answer {
        match first_refusal(self) {
            Some(number) => Err(number),
            None => Ok(self.files.clone()),
        }
    }

    /// Every refusal that holds, each looked at by itself over what can be read.
    pub fn refusals(&self) -> Vec<u32> {
        let numbers = CHECKING_ORDER.into_iter();
        numbers.filter(|&number| holds(number, self)).collect()
    }
}

// The pairs of a file that make up a pairing of a graph: all of them, if the
// file is one; else those in order that are in the graph and have no cell of
// the ones before.
fn pairing_of(pairing: &Pairing, graph: &BTreeMap<Pair, u64>) -> Held {
    let mut cells = BTreeSet::new();
    let mut pairs = Vec::new();
    for &PairingEntry { a, b, .. } in &pairing.entries {
        if graph.contains_key(&(a, b)) && !cells.contains(&a) && !cells.contains(&b) {
            cells.extend([a, b]);
            pairs.push((a, b));
        }
    }
    Held::new(pairs)
}

/// Serves the entry at a place of the list, the first being at 0: cell a, cell b
/// and points. None if the list does not pass refusals 2 to 6, or if the place
/// is not below m.
pub fn entry(list: &[u8], place: u64) -> Option<[u64; 3]> {
    if !list_refusals(list).is_empty() {
        return None;
    }
    let list = List::read(list);
    let m = list.header?.m;
    let mut places = (0..m).zip(list.entries);
    let (_, entry) = places.find(|&(at, _)| at == place)?;
    Some([entry.a, entry.b, entry.points])
}

/// Every refusal of 2 to 6 that holds of a list, each looked at by itself over
/// what can be read.
pub fn list_refusals(list: &[u8]) -> Vec<u32> {
    let input = Input::over(list);
    let numbers = LIST_REFUSALS.into_iter();
    numbers.filter(|&number| holds(number, &input)).collect()
}

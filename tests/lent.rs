//! The memory that calls are lent: files, work buffers and outputs between
//! guards, which are looked at again after the call.

use std::hint::black_box;

use crate::inputs::Random;
use crate::reference::WORK_WORDS;

/// The lengths of work buffers that are lent.
pub const WORK_LENGTHS: [usize; 4] = [0, WORK_WORDS - 1, WORK_WORDS, LONGEST_WORK];
const LONGEST_WORK: usize = 9000;
/// The most room lent beyond a file; it is more than the longest file has.
const LONGEST_ROOM: usize = 40_000;
/// Words before, between and after the work buffers that no call may touch.
const GUARD_WORDS: usize = 24;

/// The files of a call in one piece of memory, with random bytes before,
/// between and after them, so that they start at any address.
pub struct Files {
    bytes: Vec<u8>,
    before: Vec<u8>,
    places: Vec<(usize, usize)>,
}

impl Files {
    /// Lays out the files with 8 to 15 bytes round each.
    pub fn new(random: &mut Random, files: &[&[u8]]) -> Files {
        let mut bytes = random_guard(random);
        let mut places = Vec::new();
        for file in files {
            places.push((bytes.len(), bytes.len() + file.len()));
            bytes.extend(*file);
            bytes.extend(random_guard(random));
        }
        Files {
            before: bytes.clone(),
            bytes,
            places,
        }
    }

    /// The file of this place in the order given.
    pub fn file(&self, place: usize) -> &[u8] {
        let (start, end) = self.places[place];
        &self.bytes[start..end]
    }

    /// Says if any byte, of a file or round it, is no longer what it was. The
    /// compiler may not take for granted that the call only read them.
    pub fn differences(&self, wrong: &mut Vec<String>) {
        let bytes = black_box(&self.bytes);
        if let Some(place) = (0..bytes.len()).find(|&place| bytes[place] != self.before[place]) {
            wrong.push(format!("byte {place} of the files' memory was changed"));
        }
    }
}

// Some bytes to stand between files.
fn random_guard(random: &mut Random) -> Vec<u8> {
    let length = 8 + random.place(8);
    random.bytes(length)
}

/// The two work buffers in one piece of memory, dirty, with guard words
/// before, between and after them. Shorter buffers have more words after them,
/// so that a call which takes them for longer ones is found out.
pub struct Work {
    words: Vec<u64>,
    before: Vec<u64>,
    lengths: [usize; 2],
}

impl Work {
    /// Lays out the buffers and makes them dirty.
    pub fn new(random: &mut Random, lengths: [usize; 2]) -> Work {
        let total = 3 * GUARD_WORDS + 2 * LONGEST_WORK;
        let mut words: Vec<u64> = (0..total).map(|_| random.word()).collect();
        let starts = Work::starts(lengths);
        for (start, length) in starts.into_iter().zip(lengths) {
            make_dirty(random, &mut words[start..start + length]);
        }
        Work {
            before: words.clone(),
            words,
            lengths,
        }
    }

    // The first word of each buffer.
    fn starts(lengths: [usize; 2]) -> [usize; 2] {
        [GUARD_WORDS, 2 * GUARD_WORDS + lengths[0]]
    }

    /// Both buffers, to be lent.
    pub fn buffers(&mut self) -> (&mut [u64], &mut [u64]) {
        let [a, b] = Work::starts(self.lengths);
        let (first, second) = self.words.split_at_mut(b);
        (
            &mut first[a..a + self.lengths[0]],
            &mut second[..self.lengths[1]],
        )
    }

    /// Says if a buffer's word is not zero, or a guard word not what it was.
    pub fn differences(&self, wrong: &mut Vec<String>) {
        let [a, b] = Work::starts(self.lengths);
        let [a_end, b_end] = [a + self.lengths[0], b + self.lengths[1]];
        for (name, start, end) in [("a", a, a_end), ("b", b, b_end)] {
            if let Some(place) = (start..end).find(|&place| self.words[place] != 0) {
                wrong.push(format!(
                    "word {} of work buffer {name} is {:#x}",
                    place - start,
                    self.words[place]
                ));
            }
        }
        for (start, end) in [(0, a), (a_end, b), (b_end, self.words.len())] {
            if self.words[start..end] != self.before[start..end] {
                wrong.push(format!(
                    "a guard word of {start} to {end} round the work buffers was changed"
                ));
            }
        }
    }
}

// Leaves random words as they are most often; else all ones, zero, or one word alone.
fn make_dirty(random: &mut Random, buffer: &mut [u64]) {
    match random.below(8) {
        0 => buffer.fill(u64::MAX),
        1 => buffer.fill(0),
        2 => {
            buffer.fill(0);
            let any = random.below(buffer.len() as u64);
            let last = (buffer.len() as u64).saturating_sub(1);
            let place = random.one_of(&[0, any, last, WORK_WORDS as u64 - 1, WORK_WORDS as u64]);
            if let Some(word) = buffer.get_mut(place as usize) {
                *word = 1 << random.below(64);
            }
        }
        _ => {}
    }
}

/// Lengths of the work buffers: long enough most often, else any of them.
pub fn work_lengths(random: &mut Random) -> [usize; 2] {
    let lengths = if random.once_in(7) {
        &WORK_LENGTHS[..]
    } else {
        &WORK_LENGTHS[2..]
    };
    [
        lengths[random.place(lengths.len())],
        lengths[random.place(lengths.len())],
    ]
}

/// The outputs of a call in one piece of memory, dirty, with random bytes
/// before, between and after them: as many as the file has and some more, so
/// that a call which takes a short output for a long one is found out.
pub struct Outputs {
    bytes: Vec<u8>,
    before: Vec<u8>,
    places: Vec<(usize, usize)>,
}

impl Outputs {
    /// Lays out an output of so much room for each file of so many bytes.
    pub fn new(random: &mut Random, room: &[usize], lengths: &[usize]) -> Outputs {
        let mut bytes = random_guard(random);
        let mut places = Vec::new();
        for (&room, &length) in room.iter().zip(lengths) {
            places.push((bytes.len(), bytes.len() + room));
            bytes.extend(dirty_bytes(random, room));
            bytes.extend(random.bytes(length));
            bytes.extend(random_guard(random));
        }
        Outputs {
            before: bytes.clone(),
            bytes,
            places,
        }
    }

    /// The outputs, to be lent.
    pub fn buffers(&mut self) -> Vec<&mut [u8]> {
        let mut buffers = Vec::new();
        let mut rest = &mut self.bytes[..];
        let mut passed = 0;
        for &(start, end) in &self.places {
            let (buffer, after) = rest[start - passed..].split_at_mut(end - start);
            buffers.push(buffer);
            rest = after;
            passed = end;
        }
        buffers
    }

    /// Says if an output does not start with its file, or any other byte is not
    /// what it was. Nothing is written where there are no files.
    pub fn differences(&self, files: &[Vec<u8>], wrong: &mut Vec<String>) {
        let mut expected = self.before.clone();
        for (file, &(start, _)) in files.iter().zip(&self.places) {
            expected[start..start + file.len()].copy_from_slice(file);
        }
        let bytes = black_box(&self.bytes);
        if let Some(place) = (0..bytes.len()).find(|&place| bytes[place] != expected[place]) {
            wrong.push(format!(
                "{} is {:02X} and not {:02X}; before the call {:02X}",
                self.name_of(place),
                bytes[place],
                expected[place],
                self.before[place]
            ));
        }
    }

    // What lies at a place of the outputs' memory.
    fn name_of(&self, place: usize) -> String {
        let within = |&(start, end): &(usize, usize)| start <= place && place < end;
        match self.places.iter().position(within) {
            Some(output) => format!("byte {} of output {output}", place - self.places[output].0),
            None => format!("byte {place}, round the outputs,"),
        }
    }
}

// Random bytes most often, else all zero or all ones.
fn dirty_bytes(random: &mut Random, length: usize) -> Vec<u8> {
    match random.below(6) {
        0 => vec![0; length],
        1 => vec![u8::MAX; length],
        _ => random.bytes(length),
    }
}

/// The room lent for a file of so many bytes: enough most often, exactly or
/// with more; else one byte too few, none, or fewer than the file has.
pub fn room(random: &mut Random, length: usize) -> usize {
    match random.below(24) {
        0 => length - 1,
        1 => 0,
        2 | 3 => random.place(length),
        4..=11 => length,
        12..=20 => length + 1 + random.place(24),
        _ => length + random.place(LONGEST_ROOM),
    }
}

/// Bytes in hexadecimal, two digits each.
pub fn hexadecimal(bytes: &[u8]) -> String {
    bytes.iter().map(|byte| format!("{byte:02X}")).collect()
}

//! The comparison of pair: the call over the C interface and its files.

use crate::cases;
use crate::inputs::{self, Random};
use crate::lent::Files;
use crate::lifting_rows;
use crate::reference::Input;
use crate::rows::Row;
use crate::shapes;
use crate::writing::Call;

extern "C" {
    fn cells_pair(
        list: *const u8,
        list_len: usize,
        work_a: *mut u64,
        work_a_len: usize,
        work_b: *mut u64,
        work_b_len: usize,
        pairing: *mut u8,
        pairing_room: usize,
        origins: *mut u8,
        origins_room: usize,
        pairing_len: *mut u64,
        origins_len: *mut u64,
    ) -> u32;
}

/// Pairs a list (file 0); the outputs are a pairing of it and its origin list.
pub struct Pair;

impl Call for Pair {
    const NAME: &'static str = "pair";
    const REFUSALS: &'static [u32] = &[1, 2, 3, 4, 5, 6, 11, 12];
    const CASES: &'static [&'static [&'static str]] = &[
        &cases::OF_STEPS,
        &cases::OF_SOLVING,
        &cases::OF_WAY_BACK,
        &cases::OF_ORIGINS,
        &cases::OF_TWO_FILES,
    ];

    fn rows() -> Vec<Row> {
        lifting_rows::pair_rows()
    }

    fn files(random: &mut Random) -> (&'static str, Vec<Vec<u8>>) {
        let (family, list) = shapes::list_to_lift(random);
        (family, vec![inputs::seldom_bad_list(random, list)])
    }

    fn input(files: &[Vec<u8>]) -> Input {
        Input::pair(&files[0])
    }

    fn call(
        files: &Files,
        (work_a, work_b): (&mut [u64], &mut [u64]),
        mut outputs: Vec<&mut [u8]>,
        lengths: &mut [u64],
    ) -> u32 {
        let list = files.file(0);
        let (pairing, origins) = outputs.split_at_mut(1);
        let (pairing_len, origins_len) = lengths.split_at_mut(2);
        // The pointers and lengths are those of slices that live through the call.
        unsafe {
            cells_pair(
                list.as_ptr(),
                list.len(),
                work_a.as_mut_ptr(),
                work_a.len(),
                work_b.as_mut_ptr(),
                work_b.len(),
                pairing[0].as_mut_ptr(),
                pairing[0].len(),
                origins[0].as_mut_ptr(),
                origins[0].len(),
                &mut pairing_len[1],
                &mut origins_len[1],
            )
        }
    }
}

//! The comparison of reduce: the call over the C interface and its files.

use crate::cases;
use crate::inputs::{self, Random};
use crate::lent::Files;
use crate::reference::Input;
use crate::rows::{self, Row};
use crate::shapes;
use crate::writing::Call;

extern "C" {
    fn cells_reduce(
        list: *const u8,
        list_len: usize,
        work_a: *mut u64,
        work_a_len: usize,
        work_b: *mut u64,
        work_b_len: usize,
        slip: *mut u8,
        slip_room: usize,
        short: *mut u8,
        short_room: usize,
        slip_len: *mut u64,
        short_len: *mut u64,
    ) -> u32;
}

/// Reduces a list (file 0); the outputs are the slip and the short list.
pub struct Reduce;

impl Call for Reduce {
    const NAME: &'static str = "reduce";
    const REFUSALS: &'static [u32] = &[1, 2, 3, 4, 5, 6, 12];
    const CASES: &'static [&'static [&'static str]] =
        &[&cases::OF_STEPS, &cases::OF_MANY_LEFT, &cases::OF_TWO_FILES];

    fn rows() -> Vec<Row> {
        rows::reduce_rows()
    }

    fn files(random: &mut Random) -> (&'static str, Vec<Vec<u8>>) {
        let (family, list) = shapes::valid_list(random);
        (family, vec![inputs::seldom_bad_list(random, list)])
    }

    fn input(files: &[Vec<u8>]) -> Input {
        Input::reduce(&files[0])
    }

    fn call(
        files: &Files,
        (work_a, work_b): (&mut [u64], &mut [u64]),
        mut outputs: Vec<&mut [u8]>,
        lengths: &mut [u64],
    ) -> u32 {
        let list = files.file(0);
        let (slip, short) = outputs.split_at_mut(1);
        let (slip_len, short_len) = lengths.split_at_mut(2);
        // The pointers and lengths are those of slices that live through the call.
        unsafe {
            cells_reduce(
                list.as_ptr(),
                list.len(),
                work_a.as_mut_ptr(),
                work_a.len(),
                work_b.as_mut_ptr(),
                work_b.len(),
                slip[0].as_mut_ptr(),
                slip[0].len(),
                short[0].as_mut_ptr(),
                short[0].len(),
                &mut slip_len[1],
                &mut short_len[1],
            )
        }
    }
}

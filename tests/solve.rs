//! The comparison of solve: the call over the C interface and its files.

use crate::cases;
use crate::inputs::{self, Random};
use crate::lent::Files;
use crate::lifting_rows;
use crate::reference::Input;
use crate::rows::Row;
use crate::shapes;
use crate::slips;
use crate::writing::Call;

extern "C" {
    fn cells_solve(
        list: *const u8,
        list_len: usize,
        slip: *const u8,
        slip_len: usize,
        work_a: *mut u64,
        work_a_len: usize,
        work_b: *mut u64,
        work_b_len: usize,
        pairing: *mut u8,
        pairing_room: usize,
        pairing_len: *mut u64,
    ) -> u32;
}

/// Solves what a slip (file 1) leaves of a list (file 0); the output is a pairing of that.
pub struct Solve;

impl Call for Solve {
    const NAME: &'static str = "solve";
    const REFUSALS: &'static [u32] = &[1, 2, 3, 4, 5, 6, 7, 8, 11, 12];
    const CASES: &'static [&'static [&'static str]] = &[
        &cases::OF_STEPS,
        &cases::OF_SLIP,
        &cases::OF_SOLVING,
        &cases::OF_ONE_FILE,
    ];

    fn rows() -> Vec<Row> {
        lifting_rows::solve_rows()
    }

    fn files(random: &mut Random) -> (&'static str, Vec<Vec<u8>>) {
        let (family, list) = shapes::list_to_lift(random);
        let steps = slips::allowed_slip(random, slips::graph_of(&list));
        if random.once_in(3) {
            let slip = slips::form(list.n, &steps);
            return (family, vec![list.bytes(), slip.bytes()]);
        }
        let slip = slips::good_or_bad_slip(random, &list, steps);
        (family, vec![inputs::seldom_bad_list(random, list), slip])
    }

    fn input(files: &[Vec<u8>]) -> Input {
        Input::solve(&files[0], &files[1])
    }

    fn call(
        files: &Files,
        (work_a, work_b): (&mut [u64], &mut [u64]),
        mut outputs: Vec<&mut [u8]>,
        lengths: &mut [u64],
    ) -> u32 {
        let (list, slip) = (files.file(0), files.file(1));
        // The pointers and lengths are those of slices that live through the call.
        unsafe {
            cells_solve(
                list.as_ptr(),
                list.len(),
                slip.as_ptr(),
                slip.len(),
                work_a.as_mut_ptr(),
                work_a.len(),
                work_b.as_mut_ptr(),
                work_b.len(),
                outputs[0].as_mut_ptr(),
                outputs[0].len(),
                &mut lengths[1],
            )
        }
    }
}

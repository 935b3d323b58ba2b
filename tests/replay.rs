//! The comparison of replay: the call over the C interface and its files.

use crate::cases;
use crate::inputs::{self, Random};
use crate::lent::Files;
use crate::reference::Input;
use crate::rows::{self, Row};
use crate::shapes;
use crate::slips;
use crate::writing::Call;

extern "C" {
    fn cells_replay(
        list: *const u8,
        list_len: usize,
        slip: *const u8,
        slip_len: usize,
        work_a: *mut u64,
        work_a_len: usize,
        work_b: *mut u64,
        work_b_len: usize,
        short: *mut u8,
        short_room: usize,
        short_len: *mut u64,
    ) -> u32;
}

/// Replays a slip (file 1) on a list (file 0); the output is the short list.
pub struct Replay;

impl Call for Replay {
    const NAME: &'static str = "replay";
    const REFUSALS: &'static [u32] = &[1, 2, 3, 4, 5, 6, 7, 8, 12];
    const CASES: &'static [&'static [&'static str]] = &[
        &cases::OF_STEPS,
        &cases::OF_SLIP,
        &cases::OF_MANY_LEFT,
        &cases::OF_ONE_FILE,
    ];

    fn rows() -> Vec<Row> {
        rows::replay_rows()
    }

    fn files(random: &mut Random) -> (&'static str, Vec<Vec<u8>>) {
        let (family, list) = shapes::valid_list(random);
        let steps = slips::allowed_slip(random, slips::graph_of(&list));
        let slip = slips::good_or_bad_slip(random, &list, steps);
        (family, vec![inputs::seldom_bad_list(random, list), slip])
    }

    fn input(files: &[Vec<u8>]) -> Input {
        Input::replay(&files[0], &files[1])
    }

    fn call(
        files: &Files,
        (work_a, work_b): (&mut [u64], &mut [u64]),
        mut outputs: Vec<&mut [u8]>,
        lengths: &mut [u64],
    ) -> u32 {
        let (list, slip) = (files.file(0), files.file(1));
        // The pointers and lengths are those of slices that live through the call.
        unsafe {
            cells_replay(
                list.as_ptr(),
                list.len(),
                slip.as_ptr(),
                slip.len(),
                work_a.as_mut_ptr(),
                work_a.len(),
                work_b.as_mut_ptr(),
                work_b.len(),
                outputs[0].as_mut_ptr(),
                outputs[0].len(),
                &mut lengths[1],
            )
        }
    }
}

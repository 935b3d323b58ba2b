//! The comparison of lift: the call over the C interface and its files.

use crate::cases;
use crate::graph;
use crate::inputs::{self, Random};
use crate::lent::Files;
use crate::lifting_rows;
use crate::pairings;
use crate::reference::Input;
use crate::rows::Row;
use crate::shapes;
use crate::slips;
use crate::writing::Call;

extern "C" {
    fn cells_lift(
        list: *const u8,
        list_len: usize,
        slip: *const u8,
        slip_len: usize,
        pairing: *const u8,
        pairing_len: usize,
        work_a: *mut u64,
        work_a_len: usize,
        work_b: *mut u64,
        work_b_len: usize,
        lifted: *mut u8,
        lifted_room: usize,
        origins: *mut u8,
        origins_room: usize,
        lifted_len: *mut u64,
        origins_len: *mut u64,
    ) -> u32;
}

/// Lifts a pairing (file 2) of what a slip (file 1) leaves of a list (file 0);
/// the outputs are a pairing of the list and its origin list.
pub struct Lift;

impl Call for Lift {
    const NAME: &'static str = "lift";
    const REFUSALS: &'static [u32] = &[1, 2, 3, 4, 5, 6, 7, 8, 9, 10, 12];
    const CASES: &'static [&'static [&'static str]] = &[
        &cases::OF_STEPS,
        &cases::OF_SLIP,
        &cases::OF_MANY_LEFT,
        &cases::OF_WAY_BACK,
        &cases::OF_LIFT,
        &cases::OF_ORIGINS,
        &cases::OF_TWO_FILES,
    ];

    fn rows() -> Vec<Row> {
        lifting_rows::lift_rows()
    }

    fn files(random: &mut Random) -> (&'static str, Vec<Vec<u8>>) {
        let (family, list) = shapes::list_to_lift(random);
        let graph = slips::graph_of(&list);
        let steps = if random.once_in(3) {
            slips::few_chains(random, graph.clone())
        } else {
            slips::allowed_slip(random, graph.clone())
        };
        let (left, _) = graph::replay(graph, &steps);
        let pairing = pairings::good_or_bad_pairing(random, &list, &left);
        if random.once_in(3) {
            let slip = slips::form(list.n, &steps);
            return (family, vec![list.bytes(), slip.bytes(), pairing]);
        }
        let slip = slips::good_or_bad_slip(random, &list, steps);
        let list = inputs::seldom_bad_list(random, list);
        (family, vec![list, slip, pairing])
    }

    fn input(files: &[Vec<u8>]) -> Input {
        Input::lift(&files[0], &files[1], &files[2])
    }

    fn call(
        files: &Files,
        (work_a, work_b): (&mut [u64], &mut [u64]),
        mut outputs: Vec<&mut [u8]>,
        lengths: &mut [u64],
    ) -> u32 {
        let (list, slip, pairing) = (files.file(0), files.file(1), files.file(2));
        let (lifted, origins) = outputs.split_at_mut(1);
        let (lifted_len, origins_len) = lengths.split_at_mut(2);
        // The pointers and lengths are those of slices that live through the call.
        unsafe {
            cells_lift(
                list.as_ptr(),
                list.len(),
                slip.as_ptr(),
                slip.len(),
                pairing.as_ptr(),
                pairing.len(),
                work_a.as_mut_ptr(),
                work_a.len(),
                work_b.as_mut_ptr(),
                work_b.len(),
                lifted[0].as_mut_ptr(),
                lifted[0].len(),
                origins[0].as_mut_ptr(),
                origins[0].len(),
                &mut lifted_len[1],
                &mut origins_len[1],
            )
        }
    }
}

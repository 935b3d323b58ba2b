//! The comparison of solve and pair on lists of several groups alone: most of the
//! calls solve several, and so many must.

use std::marker::PhantomData;

use crate::cases;
use crate::groups::{self, Fate};
use crate::inputs::Random;
use crate::lent::Files;
use crate::pair::Pair;
use crate::reference::{Answer, Input};
use crate::rows::Row;
use crate::slips;
use crate::solve::Solve;
use crate::writing::Call;

/// How many calls of solve, and how many of pair, must solve several groups at least.
const FEWEST_OF_SEVERAL: u64 = 10_000;

/// A call that solves what is left.
pub trait Solving: Call {
    const NAME_ON_GROUPS: &'static str;
    const CASES_ON_GROUPS: &'static [&'static [&'static str]];

    /// Files for a random call, all of them good, and the family of their list.
    fn files_of_groups(random: &mut Random) -> (&'static str, Vec<Vec<u8>>);
}

impl Solving for Solve {
    const NAME_ON_GROUPS: &'static str = "solve on groups";
    const CASES_ON_GROUPS: &'static [&'static [&'static str]] = &[
        &cases::OF_GROUPS,
        &cases::OF_GROUP_SIZES,
        &cases::OF_GROUPS_AND_SLIP,
        &cases::OF_MANY_LEFT,
        &cases::OF_ONE_FILE,
    ];

    // Without steps the groups stay as they are; a slip takes some of them, or parts them.
    fn files_of_groups(random: &mut Random) -> (&'static str, Vec<Vec<u8>>) {
        let fate = if random.once_in(3) {
            Fate::Kept
        } else {
            Fate::Any
        };
        let (family, list) = groups::list_of_groups(random, fate);
        let joined = family == groups::FAMILIES[groups::JOINED];
        let with_steps = if joined {
            !random.once_in(12)
        } else {
            random.once_in(8)
        };
        let mut steps = Vec::new();
        if with_steps {
            steps = slips::allowed_slip(random, slips::graph_of(&list));
        }
        if random.once_in(6) {
            steps.truncate(random.place(4));
        }
        let slip = slips::form(list.n, &steps);
        (family, vec![list.bytes(), slip.bytes()])
    }
}

impl Solving for Pair {
    const NAME_ON_GROUPS: &'static str = "pair on groups";
    const CASES_ON_GROUPS: &'static [&'static [&'static str]] = &[
        &cases::OF_GROUPS,
        cases::OF_GROUP_SIZES.split_at(2).1,
        &cases::OF_MANY_LEFT,
        &cases::OF_TWO_FILES,
    ];

    fn files_of_groups(random: &mut Random) -> (&'static str, Vec<Vec<u8>>) {
        let (family, list) = groups::list_of_groups(random, Fate::Kept);
        (family, vec![list.bytes()])
    }
}

/// A call on lists of several groups.
pub struct OnGroups<C>(PhantomData<C>);

impl<C: Solving> Call for OnGroups<C> {
    const NAME: &'static str = C::NAME_ON_GROUPS;
    /// Those that good files leave.
    const REFUSALS: &'static [u32] = &[1, 11, 12];
    const FAMILIES: &'static [&'static str] = &groups::FAMILIES;
    const CASES: &'static [&'static [&'static str]] = C::CASES_ON_GROUPS;
    const FEWEST: u64 = 10;
    const MADE_FOR: (u64, &'static [&'static str]) = (FEWEST_OF_SEVERAL, &cases::OF_SEVERAL);

    // The worked rows are those of the call itself.
    fn rows() -> Vec<Row> {
        Vec::new()
    }

    fn files(random: &mut Random) -> (&'static str, Vec<Vec<u8>>) {
        C::files_of_groups(random)
    }

    fn input(files: &[Vec<u8>]) -> Input {
        C::input(files)
    }

    fn call(
        files: &Files,
        work: (&mut [u64], &mut [u64]),
        outputs: Vec<&mut [u8]>,
        lengths: &mut [u64],
    ) -> u32 {
        C::call(files, work, outputs, lengths)
    }

    fn cases(
        input: &Input,
        work: [usize; 2],
        room: &[usize],
        answer: &Answer,
    ) -> Vec<&'static str> {
        cases::cases_of_groups(input, work, room, answer)
    }
}

//! The proved library, through its C interface.
use crate::answer::Answer;

/// On which shelf the library plans.
#[derive(Clone, Copy)]
pub enum On {
    /// A diagram shelf of so many node slots.
    Nodes(usize),
    /// A flat shelf.
    Cells,
}

#[cfg(library)]
mod linked {
    use super::*;

    /// `struct zomraey_plan_answer` of `include/zomraey.h`.
    #[repr(C)]
    struct PlanAnswer {
        verdict: u8,
        refusal: u8,
        call: u8,
        target: u8,
        first: u8,
        second: u8,
        third: u8,
        in_move: bool,
        number: u8,
        moves: usize,
        time: u64,
        rounds: u64,
        byte: usize,
    }

    extern "C" {
        fn zomraey_plan(
            file: *const u8,
            len: usize,
            nodes: usize,
            sheet: *mut u8,
            room: usize,
        ) -> PlanAnswer;
        fn zomraey_plan_flat(
            file: *const u8,
            len: usize,
            sheet: *mut u8,
            room: usize,
        ) -> PlanAnswer;
    }

    fn call(file: &[u8], on: On, sheet: &mut [u8]) -> PlanAnswer {
        let (from, len, to, room) = (file.as_ptr(), file.len(), sheet.as_mut_ptr(), sheet.len());
        // The pointers and lengths are those of two slices that live through the call.
        match on {
            On::Nodes(nodes) => unsafe { zomraey_plan(from, len, nodes, to, room) },
            On::Cells => unsafe { zomraey_plan_flat(from, len, to, room) },
        }
    }

    /// What the library says of the rig in a file.
    pub fn plan(file: &[u8], on: On) -> Option<Answer> {
        let mut sheet = [0; 4096];
        let said = call(file, on, &mut sheet);
        Some(match said.verdict {
            0 => Answer::Way {
                moves: sheet[..said.moves].to_vec(),
                time: said.time,
                rounds: said.rounds,
            },
            1 => Answer::NoWay {
                rounds: said.rounds,
            },
            _ if said.refusal == 18 => Answer::NoRoom {
                round: said.rounds,
                number: said.in_move.then_some(said.number),
            },
            _ => Answer::Refused(said.refusal),
        })
    }
}

#[cfg(library)]
pub use linked::plan;

/// Nothing: the library is not linked.
#[cfg(not(library))]
pub fn plan(_file: &[u8], _on: On) -> Option<Answer> {
    None
}

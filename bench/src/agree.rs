//! That everyone who plans says the same of the same rig.
use crate::answer::Answer;
use crate::diagrams::{Capacity, Diagrams};
use crate::generate::random;
use crate::library::{plan as library, On};
use crate::rig::Rig;
use crate::rows::Rows;
use crate::{dense, rule, search};

/// Panics, with the rig, where two answers differ.
pub fn same(rig: &Rig, who: &str, answer: &Answer, expected: &Answer) {
    assert_eq!(answer, expected, "{who} differs on {rig:?}");
}

/// Fewer slots than the rule needs, where the library and the unverified diagrams must run full in the same round.
fn narrow(rig: &Rig, file: &[u8]) -> bool {
    let mut full = 0;
    for slots in [1, 8, 20, 40, 80, 160] {
        let mut shelf = Diagrams::of(rig, Capacity::Slots(slots));
        let expected = rule::plan(rig, &mut shelf);
        full += u32::from(matches!(expected, Answer::NoRoom { .. }));
        if let Some(answer) = library(file, On::Nodes(slots)) {
            same(
                rig,
                &format!("the library on {slots} slots"),
                &answer,
                &expected,
            );
        }
    }
    full > 0
}

/// Everyone on one rig; answers whether there is a way.
fn one(rig: &Rig) -> bool {
    let file = rig.file();
    let expected = dense::plan(rig);
    let plain = rule::plan(rig, &mut Rows::of(rig));
    same(rig, "the plain rows", &plain, &expected);
    for capacity in [Capacity::Growing, Capacity::Slots(65_535)] {
        let answer = rule::plan(rig, &mut Diagrams::of(rig, capacity));
        same(rig, "the unverified diagrams", &answer, &expected);
    }
    assert!(
        expected.agrees(&search::plan(rig)),
        "the forward search differs on {rig:?}"
    );
    for on in [On::Nodes(65_535), On::Cells] {
        if let Some(answer) = library(&file, on) {
            same(rig, "the library", &answer, &expected);
        }
    }
    assert!(narrow(rig, &file), "one node slot is never enough");
    matches!(expected, Answer::Way { .. })
}

/// Everyone on random rigs; answers in words how many there were.
pub fn check(rigs: u64) -> String {
    let ways = (0..rigs).filter(|seed| one(&random(*seed))).count();
    let linked = library(&random(0).file(), On::Cells).is_some();
    let who = if linked {
        "the library and the unverified Rust"
    } else {
        "the unverified Rust (the library is not linked)"
    };
    format!("{rigs} random rigs, {ways} with a way: {who} agree in verdict, time, moves and rounds, and in the round and the move at which too few slots run full.")
}

//! The planning rule over a shelf of charts, in unverified Rust.
use crate::answer::Answer;
use crate::rig::{Move, Pair, Rig, Scene, Surcharge};

/// Stands for "never" among times.
pub const NEVER: u64 = u64::MAX;

pub type Entries = [u64; 8];

/// The charts of a shelf need more nodes than it has slots.
pub struct Full;

/// Eight pegs with charts.
pub trait Shelf {
    fn dial(&mut self, target: usize, device: usize, entries: &Entries) -> Result<(), Full>;
    fn cheaper(&mut self, target: usize, left: usize, right: usize) -> Result<(), Full>;
    fn sum(&mut self, target: usize, left: usize, right: usize) -> Result<(), Full>;
    fn put(&mut self, target: usize, source: usize, pair: Pair) -> Result<(), Full>;
    fn same(&self, left: usize, right: usize) -> bool;
    fn at(&self, peg: usize, scene: &Scene) -> u64;
}

fn only_at(setting: u8, there: u64, elsewhere: u64) -> Entries {
    let mut entries = [elsewhere; 8];
    entries[usize::from(setting)] = there;
    entries
}

fn admitting(mask: u8) -> Entries {
    std::array::from_fn(|setting| if mask >> setting & 1 == 1 { 0 } else { NEVER })
}

fn add_dial<S: Shelf>(
    shelf: &mut S,
    target: usize,
    device: u8,
    entries: Entries,
) -> Result<(), Full> {
    shelf.dial(3, usize::from(device), &entries)?;
    shelf.sum(target, target, 3)
}

fn round_0<S: Shelf>(shelf: &mut S, masks: &[u8]) -> Result<(), Full> {
    shelf.dial(0, 0, &admitting(masks[0]))?;
    for (device, mask) in masks.iter().enumerate().skip(1) {
        add_dial(shelf, 0, device as u8, admitting(*mask))?;
    }
    Ok(())
}

fn add_surcharge<S: Shelf>(shelf: &mut S, surcharge: &Surcharge) -> Result<(), Full> {
    let dearer = |test: &Pair| only_at(test.setting, u64::from(surcharge.extra), 0);
    let (first, others) = surcharge
        .tests
        .split_first()
        .expect("a surcharge has a test");
    shelf.dial(3, usize::from(first.device), &dearer(first))?;
    for test in others {
        shelf.dial(4, usize::from(test.device), &dearer(test))?;
        shelf.cheaper(3, 3, 4)?;
    }
    shelf.sum(2, 2, 3)
}

fn lower<S: Shelf>(shelf: &mut S, entry: &Move) -> Result<(), Full> {
    shelf.cheaper(2, 0, 0)?;
    for effect in &entry.effects {
        shelf.put(2, 2, *effect)?;
    }
    for condition in &entry.conditions {
        add_dial(
            shelf,
            2,
            condition.device,
            only_at(condition.setting, 0, NEVER),
        )?;
    }
    add_dial(shelf, 2, 0, [u64::from(entry.base); 8])?;
    for surcharge in &entry.surcharges {
        add_surcharge(shelf, surcharge)?;
    }
    shelf.cheaper(1, 1, 2)
}

fn round<S: Shelf>(shelf: &mut S, moves: &[Move], number: &mut Option<u8>) -> Result<(), Full> {
    shelf.cheaper(1, 0, 0)?;
    for (i, entry) in moves.iter().enumerate() {
        *number = Some(i as u8);
        lower(shelf, entry)?;
    }
    *number = None;
    Ok(())
}

/// From each scene the move of the smallest number that loses no time.
pub fn walk(rig: &Rig, time_from: impl Fn(&Scene) -> u64) -> Vec<u8> {
    let mut scene = rig.scene;
    let mut left = time_from(&scene);
    let mut run = Vec::new();
    while left > 0 {
        let loses_none = |entry: &&Move| {
            entry.allowed(&scene) && {
                let time = entry.time(&scene);
                time <= left && time_from(&entry.after(&scene)) == left - time
            }
        };
        let number = rig
            .moves
            .iter()
            .position(|entry| loses_none(&entry))
            .expect("a move on the way");
        left -= rig.moves[number].time(&scene);
        scene = rig.moves[number].after(&scene);
        run.push(number as u8);
    }
    run
}

/// Where the rule is: the round, and the move that is worked on, if one is.
#[derive(Default)]
struct Place {
    round: u64,
    number: Option<u8>,
}

fn iterate<S: Shelf>(rig: &Rig, shelf: &mut S, place: &mut Place) -> Result<(), Full> {
    round_0(shelf, &rig.masks)?;
    loop {
        place.round += 1;
        round(shelf, &rig.moves, &mut place.number)?;
        if shelf.same(0, 1) {
            return Ok(());
        }
        shelf.cheaper(0, 1, 1)?;
    }
}

/// Plans by the rule.
pub fn plan<S: Shelf>(rig: &Rig, shelf: &mut S) -> Answer {
    let mut place = Place::default();
    if iterate(rig, shelf, &mut place).is_err() {
        return Answer::NoRoom {
            round: place.round,
            number: place.number,
        };
    }
    let rounds = place.round - 1;
    match shelf.at(0, &rig.scene) {
        NEVER => Answer::NoWay { rounds },
        time => {
            let moves = walk(rig, |scene| shelf.at(0, scene));
            Answer::Way {
                moves,
                time,
                rounds,
            }
        }
    }
}

//! Dense value iteration in unverified Rust: an array with a time for each scene.
use crate::answer::Answer;
use crate::rig::{Move, Rig, Scene};
use crate::rule::{walk, NEVER};

fn place(settings: &[u8], scene: &Scene) -> usize {
    settings
        .iter()
        .zip(scene)
        .fold(0, |at, (n, s)| at * usize::from(*n) + usize::from(*s))
}

/// Turns a scene into the next one in order; false after the last.
fn advance(settings: &[u8], scene: &mut Scene) -> bool {
    for device in (0..settings.len()).rev() {
        scene[device] += 1;
        if scene[device] < settings[device] {
            return true;
        }
        scene[device] = 0;
    }
    false
}

/// A move with what never changes from round to round: the scenes in which it is allowed, its time there, and where it leads.
struct Arcs {
    from: Vec<u32>,
    to: Vec<u32>,
    time: Vec<u32>,
}

fn arcs(rig: &Rig, entry: &Move) -> Arcs {
    let mut arcs = Arcs {
        from: Vec::new(),
        to: Vec::new(),
        time: Vec::new(),
    };
    let mut scene = [0; 12];
    let mut at = 0;
    loop {
        if entry.allowed(&scene) {
            arcs.from.push(at);
            arcs.to
                .push(place(&rig.settings, &entry.after(&scene)) as u32);
            arcs.time.push(entry.time(&scene) as u32);
        }
        at += 1;
        if !advance(&rig.settings, &mut scene) {
            return arcs;
        }
    }
}

fn wanted(rig: &Rig) -> Vec<u64> {
    let mut times = Vec::with_capacity(rig.scenes() as usize);
    let mut scene = [0; 12];
    loop {
        times.push(if rig.wanted(&scene) { 0 } else { NEVER });
        if !advance(&rig.settings, &mut scene) {
            return times;
        }
    }
}

fn round(times: &[u64], next: &mut [u64], moves: &[Arcs]) {
    next.copy_from_slice(times);
    for entry in moves {
        for ((from, to), time) in entry.from.iter().zip(&entry.to).zip(&entry.time) {
            let by = times[*to as usize].saturating_add(u64::from(*time));
            let here = &mut next[*from as usize];
            *here = by.min(*here);
        }
    }
}

/// Plans by rounds over the whole array.
pub fn plan(rig: &Rig) -> Answer {
    let moves: Vec<Arcs> = rig.moves.iter().map(|entry| arcs(rig, entry)).collect();
    let mut times = wanted(rig);
    let mut next = times.clone();
    let mut rounds = 0;
    loop {
        round(&times, &mut next, &moves);
        if times == next {
            break;
        }
        std::mem::swap(&mut times, &mut next);
        rounds += 1;
    }
    let time_from = |scene: &Scene| times[place(&rig.settings, scene)];
    match time_from(&rig.scene) {
        NEVER => Answer::NoWay { rounds },
        time => Answer::Way {
            moves: walk(rig, time_from),
            time,
            rounds,
        },
    }
}

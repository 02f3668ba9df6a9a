//! A forward search in unverified Rust: scenes by rising time from the present one, with a heap. It shares no code with the planning rule.
use crate::rig::{Rig, Scene};
use std::cmp::Reverse;
use std::collections::{BinaryHeap, HashMap, HashSet};

/// The least time from the present scene to each scene that is reached no later than the first wanted one.
struct Reached {
    times: HashMap<Scene, u64>,
    ends: Vec<Scene>,
    time: u64,
}

fn reach(rig: &Rig) -> Option<Reached> {
    let mut times = HashMap::from([(rig.scene, 0)]);
    let mut heap = BinaryHeap::from([Reverse((0, rig.scene))]);
    let mut found: Option<u64> = None;
    let mut ends = Vec::new();
    while let Some(Reverse((time, scene))) = heap.pop() {
        if found.is_some_and(|least| time > least) {
            break;
        }
        if times[&scene] < time {
            continue;
        }
        if rig.wanted(&scene) {
            found = Some(time);
            ends.push(scene);
            continue;
        }
        for entry in rig.moves.iter().filter(|entry| entry.allowed(&scene)) {
            let (next, then) = (entry.after(&scene), time + entry.time(&scene));
            if times.get(&next).is_none_or(|known| then < *known) {
                times.insert(next, then);
                heap.push(Reverse((then, next)));
            }
        }
    }
    found.map(|time| Reached { times, ends, time })
}

/// The scenes that lie on a quickest run.
fn on_the_way(rig: &Rig, reached: &Reached) -> HashSet<Scene> {
    let mut before: HashMap<Scene, Vec<Scene>> = HashMap::new();
    for (scene, time) in reached
        .times
        .iter()
        .filter(|(_, time)| **time < reached.time)
    {
        for entry in rig.moves.iter().filter(|entry| entry.allowed(scene)) {
            let next = entry.after(scene);
            if reached.times.get(&next) == Some(&(time + entry.time(scene))) {
                before.entry(next).or_default().push(*scene);
            }
        }
    }
    let mut way: HashSet<Scene> = reached.ends.iter().copied().collect();
    let mut open = reached.ends.clone();
    while let Some(scene) = open.pop() {
        for earlier in before.get(&scene).into_iter().flatten() {
            if way.insert(*earlier) {
                open.push(*earlier);
            }
        }
    }
    way
}

/// The least time and the quickest run with the smallest numbers, or none where no wanted scene is reached.
pub fn plan(rig: &Rig) -> Option<(u64, Vec<u8>)> {
    let reached = reach(rig)?;
    let way = on_the_way(rig, &reached);
    let (mut scene, mut time, mut run) = (rig.scene, 0, Vec::new());
    while time < reached.time {
        let goes_on = |number: &usize| {
            let entry = &rig.moves[*number];
            entry.allowed(&scene) && {
                let next = entry.after(&scene);
                way.contains(&next) && reached.times[&next] == time + entry.time(&scene)
            }
        };
        let number = (0..rig.moves.len())
            .find(goes_on)
            .expect("a move on the way");
        time += rig.moves[number].time(&scene);
        scene = rig.moves[number].after(&scene);
        run.push(number as u8);
    }
    Some((reached.time, run))
}

//! Rigs to plan: with structure, as domes have it, and random ones.
use crate::random::Random;
use crate::rig::{Move, Pair, Rig, Surcharge};

/// What a rig with structure has besides its steps.
#[derive(Clone, Copy, PartialEq, Eq)]
pub enum Kind {
    /// Devices that step up and down, slower while a neighbour is at its highest setting.
    Steps,
    /// Besides, some steps need another device parked, at setting 0.
    Parked,
    /// Besides, one move resets all devices.
    Reset,
}

fn pair(device: usize, setting: usize) -> Pair {
    Pair {
        device: device as u8,
        setting: setting as u8,
    }
}

/// One step of a device from one setting to the next or the one before.
fn step(
    kind: Kind,
    devices: usize,
    settings: usize,
    device: usize,
    from: usize,
    to: usize,
) -> Move {
    let mut conditions = vec![pair(device, from)];
    let parks = kind != Kind::Steps && device % 3 == 1 && from == settings / 2 && to > from;
    if parks {
        conditions.push(pair(device - 1, 0));
    }
    let neighbour = if device + 1 < devices {
        device + 1
    } else {
        device - 1
    };
    let hot = Surcharge {
        tests: vec![pair(neighbour, settings - 1)],
        extra: 7 + 2 * (device % 2) as u16,
    };
    Move {
        conditions,
        effects: vec![pair(device, to)],
        base: 10 + (device % 3) as u16,
        surcharges: vec![hot],
    }
}

/// A rig of so many devices, each with so many settings. Every second device starts high; wanted is that the first half of
/// the devices is at the highest setting and the others are low.
pub fn structured(kind: Kind, devices: usize, settings: usize) -> Rig {
    let mut moves = Vec::new();
    for device in 0..devices {
        for low in 0..settings - 1 {
            moves.push(step(kind, devices, settings, device, low, low + 1));
            moves.push(step(kind, devices, settings, device, low + 1, low));
        }
    }
    if kind == Kind::Reset {
        let effects = (0..devices).map(|device| pair(device, 0)).collect();
        moves.push(Move {
            conditions: Vec::new(),
            effects,
            base: 40,
            surcharges: Vec::new(),
        });
    }
    let mut scene = [0; 12];
    for device in (0..devices).step_by(2) {
        scene[device] = settings as u8 - 1;
    }
    let wanted = |device: usize| {
        if 2 * device < devices {
            1 << (settings - 1)
        } else {
            0b11
        }
    };
    let word = match kind {
        Kind::Steps => "steps",
        Kind::Parked => "parked",
        Kind::Reset => "reset",
    };
    Rig {
        name: format!("{word} {devices} of {settings}"),
        settings: vec![settings as u8; devices],
        scene,
        masks: (0..devices).map(wanted).collect(),
        moves,
    }
}

/// So many pairs of different devices.
fn pairs(random: &mut Random, settings: &[u8], count: usize) -> Vec<Pair> {
    let mut devices: Vec<usize> = (0..settings.len()).collect();
    (0..count.min(settings.len()))
        .map(|_| {
            let device = devices.swap_remove(random.below(devices.len() as u64) as usize);
            pair(device, random.below(u64::from(settings[device])) as usize)
        })
        .collect()
}

fn random_move(random: &mut Random, settings: &[u8]) -> Move {
    let conditions = 1 + random.below(2) as usize;
    let effects = 1 + random.below(2) as usize;
    let surcharges = random.below(3);
    Move {
        conditions: pairs(random, settings, conditions),
        effects: pairs(random, settings, effects),
        base: 1 + random.below(60) as u16,
        surcharges: (0..surcharges)
            .map(|_| {
                let tests = 1 + random.below(2) as usize;
                Surcharge {
                    tests: pairs(random, settings, tests),
                    extra: 1 + random.below(40) as u16,
                }
            })
            .collect(),
    }
}

/// The random rig of a number: 4 to 6 devices of 2 to 4 settings and 20 to 59 moves, from SplitMix64 with that number as seed.
pub fn random(seed: u64) -> Rig {
    let random = &mut Random(seed);
    let devices = 4 + random.below(3) as usize;
    let settings: Vec<u8> = (0..devices).map(|_| 2 + random.below(3) as u8).collect();
    let mut scene = [0; 12];
    for (setting, count) in scene.iter_mut().zip(&settings) {
        *setting = random.below(u64::from(*count)) as u8;
    }
    let masks = settings
        .iter()
        .map(|count| 1 + random.below((1 << count) - 1) as u8)
        .collect();
    let moves = (0..20 + random.below(40))
        .map(|_| random_move(random, &settings))
        .collect();
    Rig {
        name: format!("random {seed}"),
        settings,
        scene,
        masks,
        moves,
    }
}

/// A rig with structure in which only so many devices are to be changed, and the others may stand as they like.
pub fn few_wanted(kind: Kind, devices: usize, settings: usize, wanted: usize) -> Rig {
    let mut rig = structured(kind, devices, settings);
    let all = ((1u16 << settings) - 1) as u8;
    rig.masks = vec![all; devices];
    for i in 0..wanted {
        rig.masks[devices / 3 + 2 * i] = 1 << (settings - 1);
    }
    rig.name = format!("{}, {wanted} wanted", rig.name);
    rig
}

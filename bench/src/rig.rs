//! A rig as the benchmark knows it, and its file.

/// A device and one of its settings.
#[derive(Clone, Copy, Debug, PartialEq, Eq)]
pub struct Pair {
    pub device: u8,
    pub setting: u8,
}

/// An extra time where all tests hold.
#[derive(Clone, Debug)]
pub struct Surcharge {
    pub tests: Vec<Pair>,
    pub extra: u16,
}

#[derive(Clone, Debug)]
pub struct Move {
    pub conditions: Vec<Pair>,
    pub effects: Vec<Pair>,
    pub base: u16,
    pub surcharges: Vec<Surcharge>,
}

/// A scene: the setting of each device; those past the last device are 0.
pub type Scene = [u8; 12];

#[derive(Clone, Debug)]
pub struct Rig {
    pub name: String,
    pub settings: Vec<u8>,
    pub scene: Scene,
    pub masks: Vec<u8>,
    pub moves: Vec<Move>,
}

fn holds(scene: &Scene, pair: &Pair) -> bool {
    scene[usize::from(pair.device)] == pair.setting
}

impl Move {
    /// Whether every condition holds.
    pub fn allowed(&self, scene: &Scene) -> bool {
        self.conditions.iter().all(|pair| holds(scene, pair))
    }

    /// The time in a scene: the base, and the extra of each surcharge whose tests all hold.
    pub fn time(&self, scene: &Scene) -> u64 {
        let extras = self.surcharges.iter();
        let extras = extras.filter(|s| s.tests.iter().all(|pair| holds(scene, pair)));
        u64::from(self.base) + extras.map(|s| u64::from(s.extra)).sum::<u64>()
    }

    /// The scene after the move.
    pub fn after(&self, scene: &Scene) -> Scene {
        let mut next = *scene;
        for effect in &self.effects {
            next[usize::from(effect.device)] = effect.setting;
        }
        next
    }
}

impl Rig {
    /// How many scenes there are.
    pub fn scenes(&self) -> u64 {
        self.settings.iter().map(|n| u64::from(*n)).product()
    }

    pub fn wanted(&self, scene: &Scene) -> bool {
        let admitted = self.masks.iter().zip(scene);
        admitted
            .into_iter()
            .all(|(mask, setting)| mask >> setting & 1 == 1)
    }

    /// The rig's file.
    pub fn file(&self) -> Vec<u8> {
        let devices = self.settings.len();
        let mut file = vec![1, devices as u8, self.moves.len() as u8, 0];
        for offset in [12, 12 + 9 * devices, 12 + 11 * devices, 0] {
            file.extend((offset as u16).to_le_bytes());
        }
        for (device, count) in self.settings.iter().enumerate() {
            file.push(*count);
            file.extend(format!("DEVICE{device:02}").bytes());
        }
        file.extend(&self.scene[..devices]);
        file.extend(&self.masks);
        for (number, entry) in self.moves.iter().enumerate() {
            write_move(&mut file, number as u8, entry);
        }
        let total = (file.len() as u16).to_le_bytes();
        file[10..12].copy_from_slice(&total);
        file
    }
}

fn write_pairs(file: &mut Vec<u8>, pairs: &[Pair]) {
    file.extend(pairs.iter().flat_map(|pair| [pair.device, pair.setting]));
}

fn write_move(file: &mut Vec<u8>, number: u8, entry: &Move) {
    let counts = [
        entry.conditions.len(),
        entry.effects.len(),
        entry.surcharges.len(),
    ];
    file.push(number);
    file.extend(counts.map(|count| count as u8));
    file.extend(entry.base.to_le_bytes());
    write_pairs(file, &entry.conditions);
    write_pairs(file, &entry.effects);
    for surcharge in &entry.surcharges {
        file.push(surcharge.tests.len() as u8);
        file.extend(surcharge.extra.to_le_bytes());
        write_pairs(file, &surcharge.tests);
    }
}

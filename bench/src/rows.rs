//! A flat shelf in unverified Rust: plain loops over one array, a row of cells for each peg.
use crate::rig::{Pair, Rig, Scene};
use crate::rule::{Entries, Full, Shelf, NEVER};

pub struct Rows {
    settings: Vec<usize>,
    scenes: usize,
    cells: Vec<Option<u64>>,
}

fn entry(time: u64) -> Option<u64> {
    (time != NEVER).then_some(time)
}

fn lesser(a: Option<u64>, b: Option<u64>) -> Option<u64> {
    match (a, b) {
        (Some(x), Some(y)) => Some(x.min(y)),
        (a, b) => a.or(b),
    }
}

fn plus(a: Option<u64>, b: Option<u64>) -> Option<u64> {
    Some(a? + b?)
}

impl Rows {
    pub fn of(rig: &Rig) -> Rows {
        let scenes = rig.scenes() as usize;
        let settings = rig.settings.iter().map(|n| usize::from(*n)).collect();
        Rows {
            settings,
            scenes,
            cells: vec![None; 8 * scenes],
        }
    }

    fn stride(&self, device: usize) -> usize {
        self.settings[device + 1..].iter().product()
    }

    fn row(&self, peg: usize) -> &[Option<u64>] {
        &self.cells[peg * self.scenes..(peg + 1) * self.scenes]
    }

    fn join(
        &mut self,
        target: usize,
        left: usize,
        right: usize,
        op: impl Fn(Option<u64>, Option<u64>) -> Option<u64>,
    ) {
        let n = self.scenes;
        for i in 0..n {
            self.cells[target * n + i] = op(self.cells[left * n + i], self.cells[right * n + i]);
        }
    }
}

impl Shelf for Rows {
    fn dial(&mut self, target: usize, device: usize, entries: &Entries) -> Result<(), Full> {
        let (n, stride, count) = (self.scenes, self.stride(device), self.settings[device]);
        let row = &mut self.cells[target * n..(target + 1) * n];
        for block in row.chunks_exact_mut(stride * count) {
            for (run, time) in block.chunks_exact_mut(stride).zip(entries) {
                run.fill(entry(*time));
            }
        }
        Ok(())
    }

    fn cheaper(&mut self, target: usize, left: usize, right: usize) -> Result<(), Full> {
        self.join(target, left, right, lesser);
        Ok(())
    }

    fn sum(&mut self, target: usize, left: usize, right: usize) -> Result<(), Full> {
        self.join(target, left, right, plus);
        Ok(())
    }

    fn put(&mut self, target: usize, source: usize, pair: Pair) -> Result<(), Full> {
        let device = usize::from(pair.device);
        let (n, stride, count) = (self.scenes, self.stride(device), self.settings[device]);
        let block = stride * count;
        for start in (0..n).step_by(block) {
            let from = source * n + start + usize::from(pair.setting) * stride;
            for setting in 0..count {
                let to = target * n + start + setting * stride;
                self.cells.copy_within(from..from + stride, to);
            }
        }
        Ok(())
    }

    fn same(&self, left: usize, right: usize) -> bool {
        self.row(left) == self.row(right)
    }

    fn at(&self, peg: usize, scene: &Scene) -> u64 {
        let place = self
            .settings
            .iter()
            .zip(scene)
            .fold(0, |at, (n, s)| at * n + usize::from(*s));
        self.row(peg)[place].unwrap_or(NEVER)
    }
}

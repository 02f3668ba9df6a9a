//! Edge-valued diagrams in unverified Rust: nodes are interned in a `HashMap`, and results are remembered in others.
use crate::hasher::QuickMap;
use crate::rig::{Pair, Rig, Scene};
use crate::rule::{Entries, Full, Shelf, NEVER};

/// What an edge adds to every time below it, or never, and the node that it leads to; 0 where no device remains.
#[derive(Clone, Copy, PartialEq, Eq, Hash, Debug)]
struct Edge {
    weight: u64,
    child: u32,
}

const NO_EDGE: Edge = Edge {
    weight: NEVER,
    child: 0,
};

#[derive(Clone, Copy, PartialEq, Eq, Hash)]
struct Node {
    level: u8,
    edges: [Edge; 8],
}

/// How many nodes there may be: as many as are wanted, or as many as there are slots, counted exactly.
#[derive(Clone, Copy)]
pub enum Capacity {
    Growing,
    /// As many as are wanted; what the pegs and the chart to be hung need is counted at each call.
    Counted,
    Slots(usize),
}

pub struct Diagrams {
    settings: Vec<usize>,
    capacity: Capacity,
    nodes: Vec<Node>,
    unique: QuickMap<Node, u32>,
    cheaper: QuickMap<(u32, u32, u64, u64), Edge>,
    sum: QuickMap<(u32, u32), Edge>,
    put: QuickMap<(u32, u8, u8), Edge>,
    pegs: [Option<Edge>; 8],
    /// The most nodes that there were at once.
    pub most: usize,
    /// The greatest fill that was counted.
    pub fill: usize,
}

fn raised(edge: Edge, by: u64) -> Edge {
    let weight = if edge.weight == NEVER {
        NEVER
    } else {
        edge.weight + by
    };
    Edge { weight, ..edge }
}

impl Diagrams {
    pub fn of(rig: &Rig, capacity: Capacity) -> Diagrams {
        Diagrams {
            settings: rig.settings.iter().map(|n| usize::from(*n)).collect(),
            capacity,
            nodes: Vec::new(),
            unique: QuickMap::default(),
            cheaper: QuickMap::default(),
            sum: QuickMap::default(),
            put: QuickMap::default(),
            pegs: [None; 8],
            most: 0,
            fill: 0,
        }
    }

    fn make(&mut self, level: usize, mut edges: [Edge; 8]) -> Edge {
        let count = self.settings[level];
        let low = edges[..count]
            .iter()
            .map(|edge| edge.weight)
            .min()
            .unwrap_or(NEVER);
        if low != NEVER && low != 0 {
            for edge in edges[..count]
                .iter_mut()
                .filter(|edge| edge.weight != NEVER)
            {
                edge.weight -= low;
            }
        }
        let node = Node {
            level: level as u8,
            edges,
        };
        let next = self.nodes.len() as u32;
        let child = *self.unique.entry(node).or_insert(next);
        if child == next {
            self.nodes.push(node);
        }
        Edge { weight: low, child }
    }

    fn spread(&mut self, level: usize, kid: Edge) -> Edge {
        let mut edges = [NO_EDGE; 8];
        edges[..self.settings[level]].fill(kid);
        self.make(level, edges)
    }

    fn constant(&mut self, level: usize, time: u64) -> Edge {
        let leaf = Edge {
            weight: time,
            child: 0,
        };
        (level..self.settings.len())
            .rev()
            .fold(leaf, |kid, level| self.spread(level, kid))
    }

    fn dialled(&mut self, device: usize, entries: &Entries) -> Edge {
        let mut edges = [NO_EDGE; 8];
        for (edge, time) in edges[..self.settings[device]].iter_mut().zip(entries) {
            *edge = self.constant(device + 1, *time);
        }
        let fan = self.make(device, edges);
        (0..device)
            .rev()
            .fold(fan, |kid, level| self.spread(level, kid))
    }

    fn lesser(&mut self, level: usize, a: Edge, b: Edge) -> Edge {
        if a.weight == NEVER {
            return b;
        }
        if b.weight == NEVER {
            return a;
        }
        let base = a.weight.min(b.weight);
        if level == self.settings.len() || a.child == b.child {
            return Edge {
                weight: base,
                child: a.child,
            };
        }
        let (a, b) = if a.child < b.child { (a, b) } else { (b, a) };
        let key = (a.child, b.child, a.weight - base, b.weight - base);
        if let Some(known) = self.cheaper.get(&key) {
            return raised(*known, base);
        }
        let (x, y) = (self.nodes[a.child as usize], self.nodes[b.child as usize]);
        let mut edges = [NO_EDGE; 8];
        for (i, edge) in edges[..self.settings[level]].iter_mut().enumerate() {
            let (left, right) = (raised(x.edges[i], key.2), raised(y.edges[i], key.3));
            *edge = self.lesser(level + 1, left, right);
        }
        let result = self.make(level, edges);
        self.cheaper.insert(key, result);
        raised(result, base)
    }

    fn added(&mut self, level: usize, a: Edge, b: Edge) -> Edge {
        if a.weight == NEVER {
            return a;
        }
        if b.weight == NEVER {
            return b;
        }
        let base = a.weight + b.weight;
        if level == self.settings.len() {
            return Edge {
                weight: base,
                child: 0,
            };
        }
        let key = (a.child.min(b.child), a.child.max(b.child));
        if let Some(known) = self.sum.get(&key) {
            return raised(*known, base);
        }
        let (x, y) = (self.nodes[key.0 as usize], self.nodes[key.1 as usize]);
        let mut edges = [NO_EDGE; 8];
        for (i, edge) in edges[..self.settings[level]].iter_mut().enumerate() {
            *edge = self.added(level + 1, x.edges[i], y.edges[i]);
        }
        let result = self.make(level, edges);
        self.sum.insert(key, result);
        raised(result, base)
    }

    fn placed(&mut self, level: usize, pair: Pair, e: Edge) -> Edge {
        if e.weight == NEVER {
            return e;
        }
        let node = self.nodes[e.child as usize];
        if level == usize::from(pair.device) {
            return self.spread(
                level,
                raised(node.edges[usize::from(pair.setting)], e.weight),
            );
        }
        let key = (e.child, pair.device, pair.setting);
        if let Some(known) = self.put.get(&key) {
            return raised(*known, e.weight);
        }
        let mut edges = [NO_EDGE; 8];
        for (i, edge) in edges[..self.settings[level]].iter_mut().enumerate() {
            *edge = self.placed(level + 1, pair, node.edges[i]);
        }
        let result = self.make(level, edges);
        self.put.insert(key, result);
        raised(result, e.weight)
    }

    fn hang(&mut self, target: usize, chart: Edge) -> Result<(), Full> {
        self.most = self.most.max(self.nodes.len());
        match self.capacity {
            Capacity::Growing => self.pegs[target] = Some(chart),
            Capacity::Counted => {
                self.fill = self
                    .fill
                    .max(self.reached(chart).iter().filter(|seen| **seen).count());
                self.pegs[target] = Some(chart);
            }
            Capacity::Slots(slots) => {
                self.pegs[target] = Some(self.within(slots, chart)?);
            }
        }
        Ok(())
    }

    /// Which nodes the pegs and a further chart reach.
    fn reached(&self, chart: Edge) -> Vec<bool> {
        let mut seen = vec![false; self.nodes.len()];
        let charts = self.pegs.iter().flatten().chain([&chart]);
        let mut open: Vec<u32> = charts.map(|edge| edge.child).collect();
        while let Some(i) = open.pop() {
            if std::mem::replace(&mut seen[i as usize], true) {
                continue;
            }
            let node = &self.nodes[i as usize];
            let level = usize::from(node.level);
            if level + 1 < self.settings.len() {
                open.extend(
                    node.edges[..self.settings[level]]
                        .iter()
                        .map(|edge| edge.child),
                );
            }
        }
        seen
    }

    /// The chart, in a table that has dropped what no peg and not the chart reaches, if there are too many nodes.
    fn within(&mut self, slots: usize, chart: Edge) -> Result<Edge, Full> {
        if self.nodes.len() <= slots {
            return Ok(chart);
        }
        let seen = self.reached(chart);
        if seen.iter().filter(|seen| **seen).count() > slots {
            return Err(Full);
        }
        let mut moved = vec![0; seen.len()];
        let old = std::mem::take(&mut self.nodes);
        self.unique.clear();
        self.cheaper.clear();
        self.sum.clear();
        self.put.clear();
        for (i, mut node) in old.into_iter().enumerate().filter(|(i, _)| seen[*i]) {
            let level = usize::from(node.level);
            if level + 1 < self.settings.len() {
                for edge in &mut node.edges[..self.settings[level]] {
                    edge.child = moved[edge.child as usize];
                }
            }
            moved[i] = self.nodes.len() as u32;
            self.unique.insert(node, moved[i]);
            self.nodes.push(node);
        }
        for edge in self.pegs.iter_mut().flatten() {
            edge.child = moved[edge.child as usize];
        }
        Ok(Edge {
            child: moved[chart.child as usize],
            ..chart
        })
    }

    fn peg(&self, peg: usize) -> Edge {
        self.pegs[peg].expect("a chart on the peg")
    }
}

impl Shelf for Diagrams {
    fn dial(&mut self, target: usize, device: usize, entries: &Entries) -> Result<(), Full> {
        let chart = self.dialled(device, entries);
        self.hang(target, chart)
    }

    fn cheaper(&mut self, target: usize, left: usize, right: usize) -> Result<(), Full> {
        let chart = self.lesser(0, self.peg(left), self.peg(right));
        self.hang(target, chart)
    }

    fn sum(&mut self, target: usize, left: usize, right: usize) -> Result<(), Full> {
        let chart = self.added(0, self.peg(left), self.peg(right));
        self.hang(target, chart)
    }

    fn put(&mut self, target: usize, source: usize, pair: Pair) -> Result<(), Full> {
        let chart = self.placed(0, pair, self.peg(source));
        self.hang(target, chart)
    }

    fn same(&self, left: usize, right: usize) -> bool {
        self.peg(left) == self.peg(right)
    }

    fn at(&self, peg: usize, scene: &Scene) -> u64 {
        let mut edge = self.peg(peg);
        let mut time = 0;
        for setting in &scene[..self.settings.len()] {
            if edge.weight == NEVER {
                return NEVER;
            }
            time += edge.weight;
            edge = self.nodes[edge.child as usize].edges[usize::from(*setting)];
        }
        if edge.weight == NEVER {
            NEVER
        } else {
            time + edge.weight
        }
    }
}

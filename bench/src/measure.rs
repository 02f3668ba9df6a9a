//! What is measured of one rig, and the table.
use crate::agree::same;
use crate::answer::Answer;
use crate::diagrams::{Capacity, Diagrams};
use crate::library::{plan as library, On};
use crate::rig::Rig;
use crate::rows::Rows;
use crate::timing::{medians, Run};
use crate::{dense, rule, search};
use std::time::Duration;

/// The most scenes of a rig that is planned scene by scene.
const MOST_SCENES: u64 = 70_000;

/// The node slots of a small and of a large shelf.
const SMALL: usize = 512;
const LARGE: usize = 65_535;

/// Who is measured beside the base, by columns.
#[derive(Clone, Copy, PartialEq, Eq)]
enum Who {
    Diagrams(usize),
    Library(usize),
    Dense,
    Search,
    Rows,
    Flat,
}

const ALL: [(Who, &str); 8] = [
    (Who::Diagrams(LARGE), "diagrams_large"),
    (Who::Library(LARGE), "library_large"),
    (Who::Diagrams(SMALL), "diagrams_small"),
    (Who::Library(SMALL), "library_small"),
    (Who::Dense, "dense"),
    (Who::Search, "search"),
    (Who::Rows, "rows"),
    (Who::Flat, "library_flat"),
];

/// What a contestant says: an answer, or what a search by scenes finds, which counts no rounds.
enum Said {
    Planned(Answer),
    Found(Option<(u64, Vec<u8>)>),
}

/// One rig measured: the base, which is the unverified diagrams in a growing table, and ratios to its time.
pub struct Row {
    name: String,
    devices: usize,
    scenes: u64,
    moves: usize,
    rounds: u64,
    /// The most different parts of charts at once: as many node slots are enough, and one fewer is not.
    fill: usize,
    /// The most nodes in the growing table.
    nodes: usize,
    base: Duration,
    ratios: [Option<f64>; ALL.len()],
}

/// Whether someone plans a rig of so many scenes and such a fill.
fn takes_part(who: Who, rig: &Rig, fill: usize) -> bool {
    let linked = library(&rig.file(), On::Nodes(1)).is_some();
    let few = rig.scenes() <= MOST_SCENES;
    match who {
        Who::Diagrams(slots) => fill <= slots,
        Who::Library(slots) => linked && fill <= slots,
        Who::Dense | Who::Search | Who::Rows => few,
        Who::Flat => linked && few,
    }
}

fn on_diagrams(rig: &Rig, capacity: Capacity) -> Said {
    Said::Planned(rule::plan(rig, &mut Diagrams::of(rig, capacity)))
}

fn by_library(file: &[u8], on: On) -> Said {
    Said::Planned(library(file, on).expect("it is linked"))
}

fn contestant<'a>(who: Who, rig: &'a Rig, file: &'a [u8]) -> Run<'a, Said> {
    match who {
        Who::Diagrams(slots) => Box::new(move || on_diagrams(rig, Capacity::Slots(slots))),
        Who::Library(slots) => Box::new(move || by_library(file, On::Nodes(slots))),
        Who::Dense => Box::new(move || Said::Planned(dense::plan(rig))),
        Who::Search => Box::new(move || Said::Found(search::plan(rig))),
        Who::Rows => Box::new(move || Said::Planned(rule::plan(rig, &mut Rows::of(rig)))),
        Who::Flat => Box::new(move || by_library(file, On::Cells)),
    }
}

/// Panics where someone says something else than is expected.
fn agreed(rig: &Rig, said: &Said, expected: &Answer) {
    match said {
        Said::Planned(answer) => same(rig, "a contestant", answer, expected),
        Said::Found(found) => assert!(
            expected.agrees(found),
            "the forward search differs on {rig:?}"
        ),
    }
}

impl Row {
    /// The names of the columns that `tabbed` writes.
    pub fn head() -> String {
        let names = ALL.map(|(_, name)| name).join("\t");
        format!("rig\tdevices\tscenes\tmoves\trounds\tfill\tnodes\tbase_ms\t{names}\tflat_to_rows")
    }

    /// Plans the rig in every way that there is, as often as a median asks.
    pub fn of(rig: &Rig) -> Row {
        let mut counted = Diagrams::of(rig, Capacity::Counted);
        let expected = rule::plan(rig, &mut counted);
        let (fill, nodes) = (counted.fill, counted.most);
        let file = rig.file();
        let present = ALL.map(|(who, _)| takes_part(who, rig, fill));
        let mut runs: Vec<Run<Said>> = vec![Box::new(|| on_diagrams(rig, Capacity::Growing))];
        let others = ALL.iter().zip(present).filter(|(_, present)| *present);
        runs.extend(others.map(|((who, _), _)| contestant(*who, rig, &file)));
        let times = medians(&mut runs);
        times
            .iter()
            .for_each(|(_, said)| agreed(rig, said, &expected));
        let base = times[0].0;
        let mut times = times[1..]
            .iter()
            .map(|(time, _)| time.as_secs_f64() / base.as_secs_f64());
        let row = Row {
            name: rig.name.clone(),
            devices: rig.settings.len(),
            scenes: rig.scenes(),
            moves: rig.moves.len(),
            rounds: expected.rounds().expect("an answer with rounds"),
            fill,
            nodes,
            base,
            ratios: present.map(|present| present.then(|| times.next()).flatten()),
        };
        eprintln!("{}", row.line());
        row
    }

    /// The flat shelf beside plain rows, which make the same calls.
    fn flat_to_rows(&self) -> Option<f64> {
        let [.., rows, flat] = self.ratios;
        Some(flat? / rows?)
    }

    fn written(&self, none: &str) -> Vec<String> {
        let ratios = self.ratios.iter().copied().chain([self.flat_to_rows()]);
        let ratios =
            ratios.map(|ratio| ratio.map_or(none.to_string(), |ratio| format!("{ratio:.2}")));
        let base = format!("{:.2}", self.base.as_secs_f64() * 1000.0);
        std::iter::once(base).chain(ratios).collect()
    }

    /// The cells of its line, from the name on; a tab stands between those of a file, which has the devices too.
    fn cells(&self, devices: Option<usize>, none: &str) -> Vec<String> {
        let counts = [
            self.moves.to_string(),
            self.rounds.to_string(),
            self.fill.to_string(),
            self.nodes.to_string(),
        ];
        std::iter::once(self.name.clone())
            .chain(devices.map(|devices| devices.to_string()))
            .chain(std::iter::once(self.scenes.to_string()))
            .chain(counts)
            .chain(self.written(none))
            .collect()
    }

    pub fn tabbed(&self) -> String {
        self.cells(Some(self.devices), "").join("\t")
    }

    fn line(&self) -> String {
        format!("| {} |", self.cells(None, "–").join(" | "))
    }
}

/// The table of these rigs, a line for each, as Markdown.
pub fn table(rows: &[Row]) -> String {
    let head = "| rig | scenes | moves | rounds | peak fill | nodes made | base, ms | unverified diagrams, 65,535 slots | library, 65,535 slots | unverified diagrams, 512 slots | library, 512 slots | dense iteration | forward search | plain rows | library, flat | library, flat, to plain rows |";
    let rule = "|---|".to_string() + &"---|".repeat(head.matches('|').count() - 2);
    let lines = rows.iter().map(Row::line);
    let all = [head.to_string(), rule].into_iter().chain(lines);
    all.collect::<Vec<_>>().join("\n") + "\n"
}

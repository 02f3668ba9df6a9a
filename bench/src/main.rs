//! Measures the proved library beside unverified Rust, on the same rigs, in one process.

mod agree;
mod answer;
mod dense;
mod diagrams;
mod generate;
mod hasher;
mod library;
mod measure;
mod random;
mod rig;
mod rows;
mod rule;
mod search;
mod timing;

use generate::{few_wanted, structured, Kind};
use measure::{table, Row};
use rig::Rig;
use std::io::Write;

/// Rigs of rising size, all of whose devices are to be changed.
fn whole() -> Vec<Rig> {
    let sizes = [
        (4, 3),
        (6, 3),
        (8, 3),
        (6, 4),
        (8, 4),
        (10, 4),
        (6, 8),
        (12, 4),
    ];
    let kinds = [(Kind::Steps, 8), (Kind::Parked, 8), (Kind::Reset, 5)];
    let rigs = kinds
        .iter()
        .flat_map(|(kind, count)| sizes[..*count].iter().map(|size| (*kind, *size)));
    rigs.map(|(kind, (devices, settings))| structured(kind, devices, settings))
        .collect()
}

/// Rigs of 12 devices, a few of which are to be changed.
fn large() -> Vec<Rig> {
    let sizes = [(4, 3), (6, 3), (8, 1), (8, 2), (8, 3)];
    sizes
        .map(|(settings, wanted)| few_wanted(Kind::Parked, 12, settings, wanted))
        .into()
}

/// Rigs that differ in their number of devices alone.
fn growing() -> Vec<Rig> {
    (4..=12)
        .map(|devices| structured(Kind::Parked, devices, 4))
        .collect()
}

/// Writes what the plot is drawn from.
fn write_growth(rows: &[Row]) -> std::io::Result<()> {
    let mut file = std::fs::File::create("growth.tsv")?;
    writeln!(file, "{}", Row::head())?;
    rows.iter()
        .try_for_each(|row| writeln!(file, "{}", row.tabbed()))
}

fn main() -> std::io::Result<()> {
    let quick = std::env::args().any(|word| word == "quick");
    println!("{}\n", agree::check(if quick { 50 } else { 300 }));
    let rows: Vec<Row> = growing().iter().map(Row::of).collect();
    write_growth(&rows)?;
    println!("{}", table(&rows));
    if !quick {
        let rows: Vec<Row> = whole().iter().chain(&large()).map(Row::of).collect();
        println!("{}", table(&rows));
    }
    Ok(())
}

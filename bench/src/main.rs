//! Times the proved calls beside plain Rust, on the same tiles in the same run.

mod case;
mod plain;
mod proved;
mod unproved;

use case::{Lent, PLACES, Tile};
use plain::direction::{Direction, Record};
use plain::kind::SumWord;
use plain::source::Sizes;
use std::hint::black_box;
use std::time::Instant;

/// How many samples of each side are taken, in turns.
const ROUNDS: usize = 300;

/// The times of one side, in microseconds a call.
struct Times(Vec<f64>);

impl Times {
    fn new() -> Times {
        Times(Vec::with_capacity(ROUNDS))
    }

    fn add(&mut self, calls: u32, work: impl FnOnce() -> usize) {
        let start = Instant::now();
        black_box(work());
        self.0
            .push(start.elapsed().as_secs_f64() * 1e6 / f64::from(calls));
    }

    /// The least, and the middle one.
    fn least_and_middle(mut self) -> (f64, f64) {
        self.0.sort_by(f64::total_cmp);
        (self.0[0], self.0[self.0.len() / 2])
    }
}

/// Times both sides in turns, and prints a line of the table; nothing where the program's argument is no part of the name.
fn compare(
    name: &str,
    calls: u32,
    mut proved: impl FnMut() -> usize,
    mut plain: impl FnMut() -> usize,
) {
    if std::env::args()
        .nth(1)
        .is_some_and(|part| !name.contains(&part))
    {
        return;
    }
    let (mut of_proved, mut of_plain) = (Times::new(), Times::new());
    for _ in 0..ROUNDS {
        of_proved.add(calls, &mut proved);
        of_plain.add(calls, &mut plain);
    }
    let (proved, proved_middle) = of_proved.least_and_middle();
    let (plain, plain_middle) = of_plain.least_and_middle();
    println!(
        "| {name} | {proved:.1} | {proved_middle:.1} | {plain:.1} | {plain_middle:.1} | {:.2} | {:.2} |",
        plain / proved,
        plain_middle / proved_middle,
    );
}

fn projecting(name: &str, plain: fn(&Tile, &mut [SumWord], u32) -> usize) {
    const TIMES: u32 = 8;
    let tile = Tile::of(64, 64, PLACES);
    let mut sums = vec![SumWord { value: 0 }; tile.sums.len()];
    let mut others = sums.clone();
    assert_eq!(proved::project(&tile, &mut sums, 1), tile.sums.len());
    assert_eq!(plain(&tile, &mut others, 1), tile.sums.len());
    assert_eq!(sums, tile.sums);
    assert_eq!(others, tile.sums);
    compare(
        name,
        TIMES,
        || proved::project(black_box(&tile), black_box(&mut sums), TIMES),
        || plain(black_box(&tile), black_box(&mut others), TIMES),
    );
}

fn rebuilding(side: usize, whole: usize, way: &str, plain: fn(&Tile, &mut Lent, u32) -> usize) {
    let times = (8 * 64 * 64 / (side * side)).min(64) as u32;
    let tile = Tile::of(side, side, whole);
    let (mut lent, mut others) = (Lent::of(&tile), Lent::of(&tile));
    assert_eq!(proved::rebuild(&tile, &mut lent, 1), side * side);
    assert_eq!(plain(&tile, &mut others, 1), side * side);
    assert_eq!(lent.picture, tile.picture);
    assert_eq!(others.picture, tile.picture);
    assert!(lent == others);
    compare(
        &format!("rebuild, {side} by {side}, {whole} whole; plain {way}"),
        times,
        || proved::rebuild(black_box(&tile), black_box(&mut lent), times),
        || plain(black_box(&tile), black_box(&mut others), times),
    );
}

fn reading() {
    let tile = Tile::of(64, 64, PLACES);
    let text = tile.text();
    let text = text.as_bytes();
    let mut sums = vec![SumWord { value: 0 }; tile.sums.len()];
    let mut others = sums.clone();
    let nowhere = Record {
        direction: Direction { p: 0, q: 0 },
        cause: 0,
    };
    let (mut sizes, mut other_sizes) = (Sizes::default(), Sizes::default());
    let (mut records, mut other_records) = ([nowhere; PLACES], [nowhere; PLACES]);
    assert_eq!(proved::read(text, &mut sizes, &mut records), PLACES);
    assert_eq!(
        unproved::read(text, &mut other_sizes, &mut other_records),
        PLACES
    );
    assert_eq!((sizes.columns, sizes.rows, sizes.places), (64, 64, PLACES));
    assert_eq!(sizes, other_sizes);
    assert_eq!(records.as_slice(), tile.records);
    assert_eq!(other_records.as_slice(), tile.records);
    assert_eq!(proved::ask(text, &mut sums), tile.sums.len());
    assert_eq!(unproved::ask(text, &mut others), tile.sums.len());
    assert_eq!(sums, tile.sums);
    assert_eq!(others, tile.sums);
    compare(
        &format!("read a file of {} bytes", text.len()),
        1,
        || proved::read(black_box(text), &mut sizes, &mut records),
        || unproved::read(black_box(text), &mut other_sizes, &mut other_records),
    );
    compare(
        &format!("read it, and ask for all {} bins", sums.len()),
        1,
        || proved::ask(black_box(text), black_box(&mut sums)),
        || unproved::ask(black_box(text), black_box(&mut others)),
    );
}

fn main() {
    println!(
        "| microseconds a call | proved, best | median | plain, best | median | plain by proved, best | median |"
    );
    println!("|---|---|---|---|---|---|---|");
    projecting(
        "project, 16 directions; plain by indexes",
        unproved::project,
    );
    projecting(
        "project, 16 directions; plain by rows",
        unproved::project_rows,
    );
    for whole in [16, 12, 10] {
        rebuilding(64, whole, "with searches", unproved::rebuild);
        rebuilding(64, whole, "with notes", unproved::rebuild_noted);
    }
    reading();
    for side in [8, 16, 32, 64] {
        rebuilding(side, 16, "with notes", unproved::rebuild_noted);
    }
    for side in [8, 16, 32, 64] {
        rebuilding(side, 10, "with notes", unproved::rebuild_noted);
    }
}

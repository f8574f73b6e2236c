//! The same four calls over the plain code, on the same slices, and with no inlining into what times them.

use crate::case::{Lent, Tile};
use crate::plain;
use crate::plain::bracket::BracketFile;
use crate::plain::direction::{Direction, Fault, Record};
use crate::plain::kind::SumWord;
use crate::plain::plan::Plan;
use crate::plain::source::{Rack, Sizes, Source};
use crate::plain::tile::{Finished, Tables, open};

fn project_all(
    tile: &Tile,
    sums: &mut [SumWord],
    project: impl Fn(usize, usize, Direction, &[SumWord], &mut [SumWord]) -> Result<usize, Fault>,
) -> usize {
    let mut from = 0;
    for record in &tile.records {
        let sums = &mut sums[from..];
        match project(
            tile.columns,
            tile.rows,
            record.direction,
            &tile.picture,
            sums,
        ) {
            Ok(bins) => from += bins,
            Err(_) => return 0,
        }
    }
    from
}

fn project_times(
    tile: &Tile,
    sums: &mut [SumWord],
    times: u32,
    project: impl Fn(usize, usize, Direction, &[SumWord], &mut [SumWord]) -> Result<usize, Fault>,
) -> usize {
    let mut bins = 0;
    for _ in 0..times {
        bins = project_all(tile, sums, &project);
    }
    bins
}

#[inline(never)]
pub fn project(tile: &Tile, sums: &mut [SumWord], times: u32) -> usize {
    project_times(tile, sums, times, plain::project::project)
}

#[inline(never)]
pub fn project_rows(tile: &Tile, sums: &mut [SumWord], times: u32) -> usize {
    project_times(tile, sums, times, plain::project::project_rows)
}

#[inline(never)]
pub fn rebuild(tile: &Tile, lent: &mut Lent, times: u32) -> usize {
    rebuild_times(tile, lent, times, |rack, plan, tables| {
        plain::tile::rebuild(rack, plan, tables)
    })
}

#[inline(never)]
pub fn rebuild_noted(tile: &Tile, lent: &mut Lent, times: u32) -> usize {
    rebuild_times(tile, lent, times, |rack, plan, tables| {
        plain::tile::rebuild_noted(rack, plan, tables)
    })
}

fn rebuild_times(
    tile: &Tile,
    lent: &mut Lent,
    times: u32,
    rebuild: impl Fn(&Rack<SumWord>, &mut Plan, &mut Tables<SumWord>) -> Result<Finished, Fault>,
) -> usize {
    let mut pixels = 0;
    for _ in 0..times {
        let Ok(rack) = Rack::new(tile.columns, tile.rows, &tile.records, &tile.sums) else {
            return 0;
        };
        let mut plan = Plan::fresh();
        let mut tables = Tables {
            picture: &mut lent.picture,
            marks: &mut lent.marks,
            sums: &mut lent.sums,
            counts: &mut lent.counts,
            queue: &mut lent.queue,
        };
        match rebuild(&rack, &mut plan, &mut tables) {
            Ok(finished) => {
                pixels = finished.picture(tables.picture).map_or(0, |own| own.len());
            }
            Err(_) => return 0,
        }
    }
    pixels
}

#[inline(never)]
pub fn read(text: &[u8], sizes: &mut Sizes, records: &mut [Record]) -> usize {
    let Ok(file) = BracketFile::<SumWord>::read(text) else {
        return 0;
    };
    let read = file.sizes();
    let Some(records) = records.get_mut(..read.places) else {
        return 0;
    };
    for (i, record) in records.iter_mut().enumerate() {
        match file.place(i) {
            Ok(found) => *record = found,
            Err(_) => return 0,
        }
    }
    *sizes = read;
    read.places
}

#[inline(never)]
pub fn ask(text: &[u8], sums: &mut [SumWord]) -> usize {
    let Ok(file) = BracketFile::<SumWord>::read(text) else {
        return 0;
    };
    let mut plan = Plan::fresh();
    let Ok(mut tile) = open(&file, &mut plan) else {
        return 0;
    };
    for _ in 0..plan.places().len() {
        match tile.load(&file, &plan, sums) {
            Ok(next) => tile = next,
            Err(_) => return 0,
        }
    }
    plan.total()
}

//! Peeling with a note beside each bin, which tells its last missing pixel.

use super::kind::{Kind, minus};
use super::plan::Plan;
use super::project::project_rows;
use super::tile::{Loading, Peeling, Refused, State, Tables, append, record_of, wrapped};
use super::walk::{Pixel, bin_at};

const MOST_PIXELS: usize = 64 * 64;

pub const MOST_POSITIONS: usize = 16 * (63 * 13 + 1);

/// Of each missing pixel the sum of 1 and of its cell times 2^13, modulo 2^32.
#[derive(Clone, Copy, PartialEq)]
pub struct Note {
    value: u32,
}

impl Kind for Note {
    fn zero() -> Note {
        Note { value: 0 }
    }

    fn spark() -> Note {
        Note { value: 1 }
    }

    fn add(self, other: Note) -> Note {
        Note {
            value: self.value.wrapping_add(other.value),
        }
    }

    fn negate(self) -> Note {
        Note {
            value: self.value.wrapping_neg(),
        }
    }

    fn same(self, other: Note) -> bool {
        self == other
    }
}

impl Note {
    fn of_cell(cell: usize) -> Note {
        Note {
            value: (cell % 0x8_0000) as u32 * 0x2000 + 1,
        }
    }

    fn pixels(self) -> usize {
        (self.value % 0x2000) as usize
    }

    fn cell(self) -> usize {
        (self.value / 0x2000) as usize
    }
}

fn note_bins(plan: &Plan, notes: &mut [Note; MOST_POSITIONS]) {
    let mut tile = [Note { value: 0 }; MOST_PIXELS];
    for (cell, note) in tile.iter_mut().enumerate() {
        *note = Note::of_cell(cell);
    }
    let size = plan.size();
    for place in plan.places() {
        let own = &mut notes[place.start..place.start + place.bins];
        if place.is_whole() {
            let direction = record_of(place).direction;
            let _bins = project_rows(size.columns, size.rows, direction, &tile, own);
        } else {
            own.fill(Note { value: 0 });
        }
    }
}

fn take_off_all<K: Kind>(
    plan: &Plan,
    pixel: Pixel,
    v: K,
    note: Note,
    state: &mut State,
    tables: &mut Tables<K>,
    notes: &mut [Note],
) {
    for place in plan.places() {
        if place.is_whole() {
            let at = bin_at(plan.size(), place, pixel);
            tables.sums[at] = minus(tables.sums[at], v);
            let left = minus(notes[at], note);
            notes[at] = left;
            if left.pixels() == 1 {
                append(state, tables.queue, plan.total(), at);
            }
        }
    }
}

fn peel<K: Kind>(
    plan: &Plan,
    at: usize,
    state: &mut State,
    tables: &mut Tables<K>,
    notes: &mut [Note],
) {
    let note = notes[at];
    if note.pixels() != 1 {
        return;
    }
    let cell = note.cell();
    tables.marks[cell] = 1;
    let v = tables.sums[at];
    tables.picture[cell] = v;
    state.left = state.left.saturating_sub(1);
    let columns = plan.size().columns;
    let pixel = Pixel {
        column: cell % columns,
        row: cell / columns,
        cell,
    };
    take_off_all(plan, pixel, v, note, state, tables, notes);
}

fn peel_alone<K: Kind>(plan: &Plan, tables: &mut Tables<K>) -> State {
    let pixels = plan.pixels();
    tables.picture[..pixels].fill(K::zero());
    tables.marks[..pixels].fill(0);
    let mut notes = [Note { value: 0 }; MOST_POSITIONS];
    note_bins(plan, &mut notes);
    let mut state = State {
        head: 0,
        waiting: 0,
        out: 0,
        left: pixels as u32,
        settled: 0,
    };
    let bins = plan.total();
    for (at, note) in notes[..bins].iter().enumerate() {
        if note.pixels() == 1 {
            append(&mut state, tables.queue, bins, at);
        }
    }
    for _ in 0..bins {
        if state.waiting == 0 {
            break;
        }
        let at = tables.queue[wrapped(state.head as usize, bins)] as usize;
        state.head = wrapped(state.head as usize + 1, bins) as u32;
        state.waiting -= 1;
        state.out = state.out.saturating_add(1);
        peel(plan, at, &mut state, tables, &mut notes);
        state.out = state.out.saturating_sub(1);
        state.settled = state.settled.saturating_add(1);
    }
    for (count, note) in tables.counts[..bins].iter_mut().zip(&notes) {
        *count = note.pixels() as u8;
    }
    state
}

impl Loading {
    pub fn seal_and_peel<K: Kind>(
        self,
        plan: &Plan,
        tables: &mut Tables<K>,
    ) -> Result<Peeling, Refused<Loading>> {
        self.accept(plan, tables)?;
        Ok(Peeling {
            state: peel_alone(plan, tables),
        })
    }
}

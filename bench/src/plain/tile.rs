//! The calls on a tile, and rebuilding one from a source.

use super::direction::{Direction, Fault, Record, Table};
use super::kind::{Kind, minus};
use super::plan::{Place, Plan};
use super::source::{Sizes, Source, plan_of};
use super::walk::{Pixel, bin_at, count_pixels, lone_pixel};

pub struct State {
    pub head: u32,
    pub waiting: u32,
    pub out: u32,
    pub left: u32,
    pub settled: u32,
}

pub struct Loading {
    loaded: usize,
}

pub struct Peeling {
    pub state: State,
}

pub struct Finished {
    cells: usize,
}

pub struct Grant {
    position: u16,
}

pub struct Refused<B> {
    pub back: B,
    pub fault: Fault,
}

impl<B> From<Refused<B>> for Fault {
    fn from(refused: Refused<B>) -> Fault {
        refused.fault
    }
}

fn refused<T, B>(back: B, fault: Fault) -> Result<T, Refused<B>> {
    Err(Refused { back, fault })
}

pub struct Tables<'a, K> {
    pub picture: &'a mut [K],
    pub marks: &'a mut [u8],
    pub sums: &'a mut [K],
    pub counts: &'a mut [u8],
    pub queue: &'a mut [u16],
}

impl<K: Kind> Tables<'_, K> {
    fn check(&self, plan: &Plan) -> Result<(), Fault> {
        let pixels = plan.pixels();
        let bins = plan.total();
        if self.picture.len() < pixels {
            Err(Fault::ShortTable(Table::Picture))
        } else if self.marks.len() < pixels {
            Err(Fault::ShortTable(Table::Marks))
        } else if self.sums.len() < bins {
            Err(Fault::ShortTable(Table::Sums))
        } else if self.counts.len() < bins {
            Err(Fault::ShortTable(Table::Counts))
        } else if self.queue.len() < bins {
            Err(Fault::ShortTable(Table::Queue))
        } else {
            Ok(())
        }
    }

    /// Takes v off the bin of a pixel in each whole place.
    fn take_off_all(&mut self, plan: &Plan, pixel: Pixel, v: K, state: &mut State) {
        for place in plan.places() {
            if place.is_whole() {
                let at = bin_at(plan.size(), place, pixel);
                self.sums[at] = minus(self.sums[at], v);
                let count = self.counts[at].saturating_sub(1);
                self.counts[at] = count;
                if count == 1 {
                    append(state, self.queue, plan.total(), at);
                }
            }
        }
    }

    fn peel_bin(&mut self, plan: &Plan, at: usize, state: &mut State) -> Option<usize> {
        let pixel = lone_pixel(plan, at, self.marks)?;
        self.marks[pixel.cell] = 1;
        let v = self.sums[at];
        self.picture[pixel.cell] = v;
        state.left = state.left.saturating_sub(1);
        self.take_off_all(plan, pixel, v, state);
        Some(pixel.cell)
    }
}

/// n mod bins, with no division where n is below twice that.
pub fn wrapped(n: usize, bins: usize) -> usize {
    if n < bins {
        n
    } else if n - bins < bins {
        n - bins
    } else {
        n % bins
    }
}

pub fn append(state: &mut State, queue: &mut [u16], bins: usize, at: usize) {
    if (state.waiting as usize) < bins {
        let cell = wrapped(state.head as usize + state.waiting as usize, bins);
        queue[cell] = at as u16;
        state.waiting = state.waiting.saturating_add(1);
    }
}

pub fn open<S: Source>(source: &S, plan: &mut Plan) -> Result<Loading, Fault> {
    *plan = plan_of(source)?;
    Ok(Loading { loaded: 0 })
}

pub fn record_of(place: &Place) -> Record {
    let across = place.slope as i32;
    Record {
        direction: Direction {
            p: if place.leftward { -across } else { across },
            q: place.q as i32,
        },
        cause: place.cause,
    }
}

fn fits_plan<S: Source>(source: &S, plan: &Plan, i: usize) -> bool {
    let size = plan.size();
    let sizes = Sizes {
        columns: size.columns,
        rows: size.rows,
        places: plan.places().len(),
    };
    if source.sizes() != sizes {
        return false;
    }
    let record = record_of(&plan.places()[i]);
    source.place(i).is_ok_and(|other| other == record)
}

impl Loading {
    pub fn load<S: Source>(
        self,
        source: &S,
        plan: &Plan,
        sums: &mut [S::Sample],
    ) -> Result<Loading, Refused<Loading>> {
        if sums.len() < plan.total() {
            return refused(self, Fault::ShortTable(Table::Sums));
        }
        let i = self.loaded;
        let Some(place) = plan.places().get(i) else {
            return refused(self, Fault::AllLoaded);
        };
        if !fits_plan(source, plan, i) {
            return refused(self, Fault::OtherSource);
        }
        let own = &mut sums[place.start..place.start + place.bins];
        for (b, sum) in own.iter_mut().enumerate() {
            *sum = source.bin(i, b).unwrap_or(S::Sample::zero());
        }
        Ok(Loading { loaded: i + 1 })
    }

    /// What a seal asks first; where Katz's criterion fails the ghost is written.
    pub fn accept<K: Kind>(
        self,
        plan: &Plan,
        tables: &mut Tables<K>,
    ) -> Result<(), Refused<Loading>> {
        if let Err(fault) = tables.check(plan) {
            return refused(self, fault);
        }
        let places = plan.places().len();
        if self.loaded < places {
            let missing = places - self.loaded;
            return refused(self, Fault::NotLoaded(missing));
        }
        match plan.show_ghost(tables.picture) {
            Err(fault) => refused(self, fault),
            Ok(criterion) if !criterion.enough => {
                refused(self, Fault::Ghost(criterion.columns, criterion.rows))
            }
            Ok(_) => Ok(()),
        }
    }

    pub fn seal<K: Kind>(
        self,
        plan: &Plan,
        tables: &mut Tables<K>,
    ) -> Result<Peeling, Refused<Loading>> {
        let back = Loading {
            loaded: self.loaded,
        };
        self.accept(plan, tables)?;
        let pixels = plan.pixels();
        tables.picture[..pixels].fill(K::zero());
        tables.marks[..pixels].fill(0);
        if let Err(fault) = count_pixels(plan, tables.counts) {
            return refused(back, fault);
        }
        let mut state = State {
            head: 0,
            waiting: 0,
            out: 0,
            left: pixels as u32,
            settled: 0,
        };
        let bins = plan.total();
        for (at, count) in tables.counts[..bins].iter().enumerate() {
            if *count == 1 {
                append(&mut state, tables.queue, bins, at);
            }
        }
        Ok(Peeling { state })
    }
}

impl Peeling {
    pub fn take(self, plan: &Plan, queue: &[u16]) -> Result<(Peeling, Grant), Refused<Peeling>> {
        let bins = plan.total();
        if queue.len() < bins {
            return refused(self, Fault::ShortTable(Table::Queue));
        }
        if self.state.waiting == 0 {
            return refused(self, Fault::NoneWaits);
        }
        let head = self.state.head as usize;
        let cell = wrapped(head, bins);
        let position = queue[cell];
        if position as usize >= bins {
            return refused(self, Fault::BadCell(cell));
        }
        let Peeling { mut state } = self;
        state.head = wrapped(head + 1, bins) as u32;
        state.waiting -= 1;
        state.out = state.out.saturating_add(1);
        Ok((Peeling { state }, Grant { position }))
    }

    pub fn settle<K: Kind>(
        self,
        grant: Grant,
        plan: &Plan,
        tables: &mut Tables<K>,
    ) -> Result<(Peeling, (Option<usize>, u32)), Refused<(Peeling, Grant)>> {
        if let Err(fault) = tables.check(plan) {
            return refused((self, grant), fault);
        }
        let at = grant.position as usize;
        if at >= plan.total() {
            return refused((self, grant), Fault::BadGrant);
        }
        let Peeling { mut state } = self;
        let cell = tables.peel_bin(plan, at, &mut state);
        state.out = state.out.saturating_sub(1);
        state.settled = state.settled.saturating_add(1);
        let left = state.left;
        Ok((Peeling { state }, (cell, left)))
    }

    pub fn finish<K: Kind>(self, plan: &Plan, sums: &[K]) -> Result<Finished, Refused<Peeling>> {
        if sums.len() < plan.total() {
            return refused(self, Fault::ShortTable(Table::Sums));
        }
        let State { left, out, .. } = self.state;
        if left > 0 {
            return refused(self, Fault::PixelsMissing(left));
        }
        if out > 0 {
            return refused(self, Fault::GrantsOut(out));
        }
        let zero = K::zero();
        for (i, place) in plan.places().iter().enumerate() {
            let own = &sums[place.start..place.start + place.bins];
            if let Some(b) = own.iter().position(|sum| !sum.same(zero)) {
                return refused(self, Fault::LeftOver(i, b));
            }
        }
        Ok(Finished {
            cells: plan.pixels(),
        })
    }
}

impl Finished {
    pub fn picture<'a, K>(&self, cells: &'a [K]) -> Result<&'a [K], Fault> {
        cells
            .get(..self.cells)
            .ok_or(Fault::ShortTable(Table::Picture))
    }
}

/// Opens, loads, seals, takes and settles until nothing waits, and finishes.
pub fn rebuild<S: Source>(
    source: &S,
    plan: &mut Plan,
    tables: &mut Tables<S::Sample>,
) -> Result<Finished, Fault> {
    let mut tile = open(source, plan)?;
    tables.check(plan)?;
    for _ in 0..plan.places().len() {
        tile = tile.load(source, plan, tables.sums)?;
    }
    let mut tile = tile.seal(plan, tables)?;
    loop {
        match tile.take(plan, tables.queue) {
            Ok((taken, grant)) => (tile, _) = taken.settle(grant, plan, tables)?,
            Err(refused) => return Ok(refused.back.finish(plan, tables.sums)?),
        }
    }
}

/// The same in one call after the loads, with a note beside each bin.
pub fn rebuild_noted<S: Source>(
    source: &S,
    plan: &mut Plan,
    tables: &mut Tables<S::Sample>,
) -> Result<Finished, Fault> {
    let mut tile = open(source, plan)?;
    tables.check(plan)?;
    for _ in 0..plan.places().len() {
        tile = tile.load(source, plan, tables.sums)?;
    }
    let tile = tile.seal_and_peel(plan, tables)?;
    Ok(tile.finish(plan, tables.sums)?)
}

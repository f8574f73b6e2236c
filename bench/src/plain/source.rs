//! Sources, and the rack.

use super::direction::{Direction, Fault, MOST_PLACES, Record, Size};
use super::kind::Kind;
use super::plan::Plan;

#[repr(C)]
#[derive(Clone, Copy, Debug, Default, PartialEq, Eq)]
pub struct Sizes {
    pub columns: usize,
    pub rows: usize,
    pub places: usize,
}

pub trait Source {
    type Sample: Kind;
    fn sizes(&self) -> Sizes;
    fn place(&self, i: usize) -> Result<Record, Fault>;
    fn bin(&self, i: usize, b: usize) -> Result<Self::Sample, Fault>;
}

pub fn plan_of<S: Source>(source: &S) -> Result<Plan, Fault> {
    let sizes = source.sizes();
    let size = Size::of(sizes.columns, sizes.rows)?;
    let count = sizes.places;
    if count < 1 || count > MOST_PLACES {
        return Err(Fault::PlaceCount);
    }
    let none = Record {
        direction: Direction { p: 0, q: 0 },
        cause: 0,
    };
    let mut records = [none; MOST_PLACES];
    let places = &mut records[..count];
    for (i, entry) in places.iter_mut().enumerate() {
        *entry = source.place(i)?;
    }
    Plan::of(size.columns, size.rows, places)
}

pub struct Rack<'a, K> {
    plan: Plan,
    records: &'a [Record],
    run: &'a [K],
}

impl<'a, K: Kind> Rack<'a, K> {
    pub fn new(
        columns: usize,
        rows: usize,
        records: &'a [Record],
        run: &'a [K],
    ) -> Result<Rack<'a, K>, Fault> {
        let plan = Plan::of(columns, rows, records)?;
        if run.len() != plan.total() {
            return Err(Fault::RunLength(plan.total()));
        }
        Ok(Rack { plan, records, run })
    }
}

impl<K: Kind> Source for Rack<'_, K> {
    type Sample = K;

    fn sizes(&self) -> Sizes {
        Sizes {
            columns: self.plan.size().columns,
            rows: self.plan.size().rows,
            places: self.records.len(),
        }
    }

    fn place(&self, i: usize) -> Result<Record, Fault> {
        self.records.get(i).copied().ok_or(Fault::NoPlace)
    }

    fn bin(&self, i: usize, b: usize) -> Result<K, Fault> {
        let record = self.place(i)?;
        if record.cause != 0 {
            return Err(Fault::Lost(record.cause));
        }
        let place = &self.plan.places()[i];
        if b >= place.bins {
            return Err(Fault::NoBin);
        }
        Ok(self.run[place.start + b])
    }
}

//! Plans, Katz's criterion and the ghost.

use super::direction::{Fault, MOST_PLACES, Record, Size, Table};
use super::kind::{Kind, minus};

#[derive(Clone, Copy)]
pub struct Place {
    pub slope: usize,
    pub leftward: bool,
    pub q: usize,
    pub cause: u8,
    pub start: usize,
    pub bins: usize,
}

#[derive(Clone, Copy)]
pub struct Plan {
    size: Size,
    places: [Place; MOST_PLACES],
    count: usize,
    total: usize,
}

pub struct Criterion {
    pub columns: usize,
    pub rows: usize,
    pub enough: bool,
}

impl Place {
    pub fn lay(size: Size, entry: Record, start: usize) -> Place {
        let direction = entry.direction;
        Place {
            slope: direction.p.unsigned_abs() as usize,
            leftward: direction.p < 0,
            q: direction.q.unsigned_abs() as usize,
            cause: entry.cause,
            start,
            bins: size.bins(direction),
        }
    }

    pub fn is_whole(&self) -> bool {
        self.cause == 0
    }

    pub fn bin_of(&self, size: Size, k: usize, l: usize) -> usize {
        let along = if self.leftward { size.rows - 1 - l } else { l };
        (size.columns - 1 - k) * self.q + along * self.slope
    }

    fn take_off<K: Kind>(&self, size: Size, picture: &mut [K]) {
        let down = self.q * size.columns;
        let (first, last, back) = if self.leftward {
            (0, size.columns - self.slope, down - self.slope)
        } else {
            (self.slope, size.columns, down + self.slope)
        };
        for l in (self.q..size.rows).rev() {
            for k in (first..last).rev() {
                let cell = l * size.columns + k;
                picture[cell] = minus(picture[cell], picture[cell - back]);
            }
        }
    }
}

fn check_places(records: &[Record]) -> Result<(), Fault> {
    let mut last = None;
    for (i, entry) in records.iter().enumerate() {
        let direction = entry.direction;
        if !direction.is_lawful() {
            return Err(Fault::Unlawful(i));
        }
        if !direction.follows(last) {
            return Err(Fault::Disorder(i));
        }
        last = Some(direction);
    }
    Ok(())
}

impl Plan {
    pub fn of(columns: usize, rows: usize, records: &[Record]) -> Result<Plan, Fault> {
        let size = Size::of(columns, rows)?;
        if records.is_empty() || records.len() > MOST_PLACES {
            return Err(Fault::PlaceCount);
        }
        check_places(records)?;
        let none = Place {
            slope: 0,
            leftward: false,
            q: 0,
            cause: 0,
            start: 0,
            bins: 0,
        };
        let mut places = [none; MOST_PLACES];
        let mut total = 0;
        for (place, entry) in places.iter_mut().zip(records) {
            *place = Place::lay(size, *entry, total);
            total += place.bins;
        }
        Ok(Plan {
            size,
            places,
            count: records.len(),
            total,
        })
    }

    pub fn fresh() -> Plan {
        let place = Place {
            slope: 0,
            leftward: false,
            q: 1,
            cause: 0,
            start: 0,
            bins: 1,
        };
        Plan {
            size: Size {
                columns: 1,
                rows: 1,
            },
            places: [place; MOST_PLACES],
            count: 1,
            total: 1,
        }
    }

    pub fn places(&self) -> &[Place] {
        &self.places[..self.count]
    }

    pub fn size(&self) -> Size {
        self.size
    }

    pub fn pixels(&self) -> usize {
        self.size.pixels()
    }

    pub fn total(&self) -> usize {
        self.total
    }

    pub fn criterion(&self) -> Criterion {
        let mut columns = 0;
        let mut rows = 0;
        for place in self.places().iter().filter(|place| place.is_whole()) {
            columns += place.slope;
            rows += place.q;
        }
        Criterion {
            columns,
            rows,
            enough: self.size.columns <= columns || self.size.rows <= rows,
        }
    }

    pub fn show_ghost<K: Kind>(&self, picture: &mut [K]) -> Result<Criterion, Fault> {
        if picture.len() < self.pixels() {
            return Err(Fault::ShortTable(Table::Picture));
        }
        let criterion = self.criterion();
        if !criterion.enough {
            let whole = || self.places().iter().filter(|place| place.is_whole());
            let spark = whole()
                .filter(|place| place.leftward)
                .map(|place| place.slope)
                .sum::<usize>();
            let cells = &mut picture[..self.pixels()];
            cells.fill(K::zero());
            cells[spark] = K::spark();
            for place in whole() {
                place.take_off(self.size, cells);
            }
        }
        Ok(criterion)
    }
}

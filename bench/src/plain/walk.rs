//! The pixels of a bin: finding the one that is missing, and counting them.

use super::direction::{Fault, Size, Table};
use super::plan::{Place, Plan};

#[derive(Clone, Copy)]
pub struct Pixel {
    pub column: usize,
    pub row: usize,
    pub cell: usize,
}

/// A bin of a place, as a line across the tile.
struct Line<'a> {
    size: Size,
    place: &'a Place,
    bin: usize,
}

impl Line<'_> {
    fn corner(&self) -> (usize, usize) {
        let right = self.size.columns - 1;
        let reach = right * self.place.q;
        if reach > self.bin {
            (self.bin / self.place.q, 0)
        } else if self.place.slope > 0 {
            (right, (self.bin - reach) / self.place.slope)
        } else {
            (right, 0)
        }
    }

    fn first(&self) -> Option<(usize, usize)> {
        let (mut x, mut y) = self.corner();
        loop {
            let at = x * self.place.q + y * self.place.slope;
            if at == self.bin {
                return Some((x, y));
            }
            if at > self.bin {
                x = x.checked_sub(1)?;
            } else {
                y += 1;
                if y == self.size.rows {
                    return None;
                }
            }
        }
    }

    fn pixel(&self, x: usize, y: usize) -> Pixel {
        let column = self.size.columns - 1 - x;
        let row = if self.place.leftward {
            self.size.rows - 1 - y
        } else {
            y
        };
        let cell = row * self.size.columns + column;
        Pixel { column, row, cell }
    }

    fn lone(&self, marks: &[u8]) -> Option<Pixel> {
        let (mut x, mut y) = self.first()?;
        let mut lone = None;
        loop {
            let pixel = self.pixel(x, y);
            if marks[pixel.cell] == 0 {
                if lone.is_some() {
                    return None;
                }
                lone = Some(pixel);
            }
            if x < self.place.slope || y + self.place.q >= self.size.rows {
                return lone;
            }
            x -= self.place.slope;
            y += self.place.q;
        }
    }
}

fn place_of(plan: &Plan, at: usize) -> Option<(usize, usize)> {
    for (i, place) in plan.places().iter().enumerate() {
        if at < place.start + place.bins {
            return Some((i, at - place.start));
        }
    }
    None
}

pub fn lone_pixel(plan: &Plan, at: usize, marks: &[u8]) -> Option<Pixel> {
    if marks.len() < plan.pixels() {
        return None;
    }
    let (i, bin) = place_of(plan, at)?;
    let place = &plan.places()[i];
    if !place.is_whole() {
        return None;
    }
    let size = plan.size();
    Line { size, place, bin }.lone(marks)
}

pub fn bin_at(size: Size, place: &Place, pixel: Pixel) -> usize {
    place.start + place.bin_of(size, pixel.column, pixel.row)
}

/// Columns as they come along the bins, q bins apart.
struct Columns {
    next: usize,
    end: usize,
    q: usize,
}

impl Columns {
    fn pass(&mut self, bin: usize) -> u8 {
        if self.next == bin && bin < self.end {
            self.next += self.q;
            1
        } else {
            0
        }
    }
}

fn count_slanted(size: Size, place: &Place, bins: &mut [u8]) {
    let width = size.columns * place.q;
    let height = size.rows * place.slope;
    let mut begins = Columns {
        next: 0,
        end: width,
        q: place.q,
    };
    let mut ends = Columns {
        next: height,
        end: height + width,
        q: place.q,
    };
    for b in 0..bins.len() {
        let before = if b < place.slope {
            0
        } else {
            bins[b - place.slope]
        };
        bins[b] = before + begins.pass(b) - ends.pass(b);
    }
}

fn count_place(size: Size, place: &Place, counts: &mut [u8]) {
    let bins = &mut counts[place.start..place.start + place.bins];
    if !place.is_whole() {
        bins.fill(0);
    } else if place.slope == 0 {
        bins.fill(size.rows as u8);
    } else if place.q == 0 {
        bins.fill(size.columns as u8);
    } else {
        count_slanted(size, place, bins);
    }
}

pub fn count_pixels(plan: &Plan, counts: &mut [u8]) -> Result<(), Fault> {
    if counts.len() < plan.total() {
        return Err(Fault::ShortTable(Table::Counts));
    }
    for place in plan.places() {
        count_place(plan.size(), place, counts);
    }
    Ok(())
}

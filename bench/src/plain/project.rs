//! The projection of a picture along one direction.

use super::direction::{Direction, Fault, Record, Size, Table};
use super::kind::Kind;
use super::plan::Place;

/// The place of the direction, where the call is served.
fn check<K>(
    columns: usize,
    rows: usize,
    direction: Direction,
    picture: &[K],
    sums: &[K],
) -> Result<(Size, Place), Fault> {
    let size = Size::of(columns, rows)?;
    if !direction.is_lawful() {
        return Err(Fault::Unlawful(0));
    }
    if picture.len() < size.pixels() {
        return Err(Fault::ShortTable(Table::Picture));
    }
    let entry = Record {
        direction,
        cause: 0,
    };
    let place = Place::lay(size, entry, 0);
    if sums.len() < place.bins {
        return Err(Fault::ShortTable(Table::Sums));
    }
    Ok((size, place))
}

/// By indexes: the bin and the cell of each pixel.
pub fn project<K: Kind>(
    columns: usize,
    rows: usize,
    direction: Direction,
    picture: &[K],
    sums: &mut [K],
) -> Result<usize, Fault> {
    let (size, place) = check(columns, rows, direction, picture, sums)?;
    let sums = &mut sums[..place.bins];
    sums.fill(K::zero());
    for l in 0..rows {
        for k in 0..columns {
            let bin = place.bin_of(size, k, l);
            sums[bin] = sums[bin].add(picture[l * columns + k]);
        }
    }
    Ok(place.bins)
}

/// By rows: one number steps down the bins of a row, which is a slice.
pub fn project_rows<K: Kind>(
    columns: usize,
    rows: usize,
    direction: Direction,
    picture: &[K],
    sums: &mut [K],
) -> Result<usize, Fault> {
    let (size, place) = check(columns, rows, direction, picture, sums)?;
    let sums = &mut sums[..place.bins];
    sums.fill(K::zero());
    for (l, row) in picture[..size.pixels()].chunks_exact(columns).enumerate() {
        let mut bin = place.bin_of(size, 0, l) + place.q;
        for sample in row {
            bin -= place.q;
            sums[bin] = sums[bin].add(*sample);
        }
    }
    Ok(place.bins)
}

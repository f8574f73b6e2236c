//! The proved calls, which the crate `exported` hands to programs in C and Rust; examples/mojette.h says what each does. A slice crosses as a pointer
//! and then a length; none of these calls asks anything more of its caller. A refused call is answered with 0 here.

use crate::case::{Lent, Tile};
use crate::plain::direction::Record;
use crate::plain::kind::SumWord;
use crate::plain::source::Sizes;

#[repr(C)]
#[derive(Default)]
struct Refusal {
    number: usize,
    first: usize,
    second: usize,
    third: usize,
}

unsafe extern "C" {
    fn mojette_project(
        columns: usize,
        rows: usize,
        p: i32,
        q: i32,
        picture: *const SumWord,
        picture_len: usize,
        sums: *mut SumWord,
        sums_len: usize,
        refusal: *mut Refusal,
    ) -> usize;
    fn mojette_rebuild(
        columns: usize,
        rows: usize,
        records: *const Record,
        records_len: usize,
        run: *const SumWord,
        run_len: usize,
        picture: *mut SumWord,
        picture_len: usize,
        marks: *mut u8,
        marks_len: usize,
        sums: *mut SumWord,
        sums_len: usize,
        counts: *mut u8,
        counts_len: usize,
        queue: *mut u16,
        queue_len: usize,
        refusal: *mut Refusal,
    ) -> usize;
    fn mojette_read(
        text: *const u8,
        text_len: usize,
        sizes: *mut Sizes,
        records: *mut Record,
        records_len: usize,
        refusal: *mut Refusal,
    ) -> usize;
    fn mojette_ask(
        text: *const u8,
        text_len: usize,
        sums: *mut SumWord,
        sums_len: usize,
        refusal: *mut Refusal,
    ) -> usize;
}

/// The sums of all directions, one after another.
fn project_all(tile: &Tile, sums: &mut [SumWord]) -> usize {
    let mut refusal = Refusal::default();
    let mut from = 0;
    for record in &tile.records {
        let sums = &mut sums[from..];
        // SAFETY: each pointer and length are those of one slice, borrowed for the call.
        from += unsafe {
            mojette_project(
                tile.columns,
                tile.rows,
                record.direction.p,
                record.direction.q,
                tile.picture.as_ptr(),
                tile.picture.len(),
                sums.as_mut_ptr(),
                sums.len(),
                &mut refusal,
            )
        };
        if refusal.number != 0 {
            return 0;
        }
    }
    from
}

pub fn project(tile: &Tile, sums: &mut [SumWord], times: u32) -> usize {
    let mut bins = 0;
    for _ in 0..times {
        bins = project_all(tile, sums);
    }
    bins
}

pub fn rebuild(tile: &Tile, lent: &mut Lent, times: u32) -> usize {
    let mut refusal = Refusal::default();
    let mut pixels = 0;
    for _ in 0..times {
        // SAFETY: as above; the five tables are different ones.
        pixels = unsafe {
            mojette_rebuild(
                tile.columns,
                tile.rows,
                tile.records.as_ptr(),
                tile.records.len(),
                tile.sums.as_ptr(),
                tile.sums.len(),
                lent.picture.as_mut_ptr(),
                lent.picture.len(),
                lent.marks.as_mut_ptr(),
                lent.marks.len(),
                lent.sums.as_mut_ptr(),
                lent.sums.len(),
                lent.counts.as_mut_ptr(),
                lent.counts.len(),
                lent.queue.as_mut_ptr(),
                lent.queue.len(),
                &mut refusal,
            )
        };
    }
    pixels
}

pub fn read(text: &[u8], sizes: &mut Sizes, records: &mut [Record]) -> usize {
    let mut refusal = Refusal::default();
    // SAFETY: as above.
    unsafe {
        mojette_read(
            text.as_ptr(),
            text.len(),
            sizes,
            records.as_mut_ptr(),
            records.len(),
            &mut refusal,
        )
    }
}

pub fn ask(text: &[u8], sums: &mut [SumWord]) -> usize {
    let mut refusal = Refusal::default();
    // SAFETY: as above.
    unsafe {
        mojette_ask(
            text.as_ptr(),
            text.len(),
            sums.as_mut_ptr(),
            sums.len(),
            &mut refusal,
        )
    }
}

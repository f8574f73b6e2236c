//! Tiles to work on.

use crate::plain::direction::{Direction, Record};
use crate::plain::kind::SumWord;

/// A tile with its places, the sums of all of them, and the picture that they sum.
pub struct Tile {
    pub columns: usize,
    pub rows: usize,
    pub records: Vec<Record>,
    pub sums: Vec<SumWord>,
    pub picture: Vec<SumWord>,
}

/// The tables that a call is lent.
#[derive(PartialEq)]
pub struct Lent {
    pub picture: Vec<SumWord>,
    pub marks: Vec<u8>,
    pub sums: Vec<SumWord>,
    pub counts: Vec<u8>,
    pub queue: Vec<u16>,
}

/// Sixteen directions in their order, and in how many places lost it is lost too. Any ten of those with q = 7 pass Katz's criterion for 64 rows.
const DIRECTIONS: [(i32, i32, usize); 16] = [
    (1, 0, 1),
    (1, 1, 2),
    (6, 7, 5),
    (5, 7, 7),
    (4, 7, 7),
    (3, 7, 7),
    (2, 7, 7),
    (1, 7, 7),
    (0, 1, 3),
    (-1, 7, 7),
    (-2, 7, 7),
    (-3, 7, 7),
    (-4, 7, 7),
    (-5, 7, 7),
    (-6, 7, 6),
    (-1, 1, 4),
];

pub const PLACES: usize = DIRECTIONS.len();

/// A generator of numbers that look random, from a fixed seed.
struct Xorshift(u64);

impl Xorshift {
    fn next(&mut self) -> u16 {
        self.0 ^= self.0 << 13;
        self.0 ^= self.0 >> 7;
        self.0 ^= self.0 << 17;
        (self.0 >> 24) as u16
    }
}

impl Tile {
    /// A tile of random samples with so many of the sixteen places whole. The sums are worked out here by the definition.
    pub fn of(columns: usize, rows: usize, whole: usize) -> Tile {
        let mut random = Xorshift(0x9E37_79B9_7F4A_7C15);
        let picture: Vec<SumWord> = (0..columns * rows)
            .map(|_| SumWord {
                value: random.next(),
            })
            .collect();
        let mut sums = Vec::new();
        for (p, q, _) in DIRECTIONS {
            sums.extend(sums_by_definition(columns, rows, p, q, &picture));
        }
        Tile {
            columns,
            rows,
            records: DIRECTIONS
                .iter()
                .map(|&(p, q, lost)| Record {
                    direction: Direction { p, q },
                    cause: if lost <= PLACES - whole {
                        lost as u8
                    } else {
                        0
                    },
                })
                .collect(),
            sums,
            picture,
        }
    }

    /// The bracket file of the tile.
    pub fn text(&self) -> String {
        let mut text = format!("(tile sum {} {})\n", self.columns, self.rows);
        let mut from = 0;
        for record in &self.records {
            let Direction { p, q } = record.direction;
            let bins = bins(self.columns, self.rows, p, q);
            text += &format!("(dir {p} {q} (");
            if record.cause == 0 {
                text += "bins";
                for sum in &self.sums[from..from + bins] {
                    text += &format!(" {:04X}", sum.value);
                }
            } else {
                text += &format!("lost {}", record.cause);
            }
            text += "))\n";
            from += bins;
        }
        text + "(end)\n"
    }
}

impl Lent {
    pub fn of(tile: &Tile) -> Lent {
        let nine = SumWord { value: 9 };
        Lent {
            picture: vec![nine; tile.picture.len()],
            marks: vec![9; tile.picture.len()],
            sums: vec![nine; tile.sums.len()],
            counts: vec![9; tile.sums.len()],
            queue: vec![9; tile.sums.len()],
        }
    }
}

fn bins(columns: usize, rows: usize, p: i32, q: i32) -> usize {
    (columns - 1) * q.unsigned_abs() as usize + (rows - 1) * p.unsigned_abs() as usize + 1
}

/// The sums of a direction by raw numbers.
fn sums_by_definition(
    columns: usize,
    rows: usize,
    p: i32,
    q: i32,
    picture: &[SumWord],
) -> Vec<SumWord> {
    let mut sums = vec![SumWord { value: 0 }; bins(columns, rows, p, q)];
    let least = -(columns as i32 - 1) * q + (rows as i32 - 1) * p.min(0);
    for l in 0..rows {
        for k in 0..columns {
            let bin = (l as i32 * p - k as i32 * q - least) as usize;
            sums[bin].value = sums[bin].value.wrapping_add(picture[l * columns + k].value);
        }
    }
    sums
}

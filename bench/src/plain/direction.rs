//! Directions, sizes and refusals.

pub const MOST_SIDE: usize = 64;
pub const MOST_PLACES: usize = 16;
pub const MOST_STEP: u32 = 7;

#[repr(C)]
#[derive(Clone, Copy, Debug, PartialEq, Eq)]
pub struct Direction {
    pub p: i32,
    pub q: i32,
}

#[repr(C)]
#[derive(Clone, Copy, Debug, PartialEq, Eq)]
pub struct Record {
    pub direction: Direction,
    pub cause: u8,
}

#[derive(Clone, Copy, Debug, PartialEq, Eq)]
pub enum Table {
    Picture,
    Marks,
    Sums,
    Counts,
    Queue,
}

#[derive(Clone, Copy, Debug, PartialEq, Eq)]
pub enum Reason {
    Token,
    Size,
    Count,
    Direction,
    Order,
}

#[derive(Clone, Copy, Debug, PartialEq, Eq)]
pub struct TextFault {
    pub byte: usize,
    pub reason: Reason,
}

#[derive(Clone, Copy, Debug, PartialEq, Eq)]
pub struct FileFault {
    pub line: usize,
    pub text: TextFault,
}

#[derive(Clone, Copy, Debug, PartialEq, Eq)]
pub enum Fault {
    Size,
    PlaceCount,
    Unlawful(usize),
    Disorder(usize),
    ShortTable(Table),
    AllLoaded,
    OtherSource,
    NotLoaded(usize),
    Ghost(usize, usize),
    NoneWaits,
    BadCell(usize),
    BadGrant,
    PixelsMissing(u32),
    GrantsOut(u32),
    LeftOver(usize, usize),
    NoPlace,
    Lost(u8),
    NoBin,
    RunLength(usize),
    NoFile(FileFault),
}

impl From<FileFault> for Fault {
    fn from(fault: FileFault) -> Fault {
        Fault::NoFile(fault)
    }
}

fn gcd(a: u32, b: u32) -> u32 {
    if b == 0 { a } else { gcd(b, a % b) }
}

impl Direction {
    pub fn is_lawful(self) -> bool {
        let across = self.p.unsigned_abs();
        let down = self.q.unsigned_abs();
        if across > MOST_STEP || self.q < 0 || down > MOST_STEP {
            return false;
        }
        gcd(across, down) == 1 && (self.q != 0 || self.p == 1)
    }

    pub fn is_before(self, other: Direction) -> bool {
        i64::from(other.p) * i64::from(self.q) < i64::from(self.p) * i64::from(other.q)
    }

    pub fn follows(self, last: Option<Direction>) -> bool {
        last.is_none_or(|before| before.is_before(self))
    }
}

pub fn is_side(n: usize) -> bool {
    (1..=MOST_SIDE).contains(&n)
}

#[derive(Clone, Copy, Debug, PartialEq, Eq)]
pub struct Size {
    pub columns: usize,
    pub rows: usize,
}

impl Size {
    pub fn of(columns: usize, rows: usize) -> Result<Size, Fault> {
        if is_side(columns) && is_side(rows) {
            Ok(Size { columns, rows })
        } else {
            Err(Fault::Size)
        }
    }

    pub fn pixels(self) -> usize {
        self.columns * self.rows
    }

    pub fn bins(self, direction: Direction) -> usize {
        let across = direction.p.unsigned_abs() as usize;
        let down = direction.q.unsigned_abs() as usize;
        (self.columns - 1) * down + (self.rows - 1) * across + 1
    }
}

//! Kinds of sample.

pub trait Kind: Copy {
    fn zero() -> Self;
    fn spark() -> Self;
    fn add(self, other: Self) -> Self;
    fn negate(self) -> Self;
    fn same(self, other: Self) -> bool;
}

pub fn minus<K: Kind>(a: K, b: K) -> K {
    a.add(b.negate())
}

/// Kinds with a code of so many digits.
pub trait Coded: Kind {
    fn kind_name() -> &'static [u8];
    fn digits() -> usize;
    fn from_number(n: u64) -> Self;
}

#[repr(C)]
#[derive(Clone, Copy, Debug, PartialEq, Eq)]
pub struct SumWord {
    pub value: u16,
}

impl Kind for SumWord {
    fn zero() -> SumWord {
        SumWord { value: 0 }
    }

    fn spark() -> SumWord {
        SumWord { value: 1 }
    }

    fn add(self, other: SumWord) -> SumWord {
        SumWord {
            value: self.value.wrapping_add(other.value),
        }
    }

    fn negate(self) -> SumWord {
        SumWord {
            value: self.value.wrapping_neg(),
        }
    }

    fn same(self, other: SumWord) -> bool {
        self == other
    }
}

impl Coded for SumWord {
    fn kind_name() -> &'static [u8] {
        b"sum"
    }

    fn digits() -> usize {
        4
    }

    fn from_number(n: u64) -> SumWord {
        SumWord { value: n as u16 }
    }
}

fn hex_value(b: u8) -> Option<u8> {
    match b {
        b'0'..=b'9' => Some(b - b'0'),
        b'A'..=b'F' => Some(b - (b'A' - 10)),
        _ => None,
    }
}

/// The sample that a word is the code of.
pub fn read_code<K: Coded>(word: &[u8]) -> Option<K> {
    if word.len() != K::digits() {
        return None;
    }
    let mut n: u64 = 0;
    for b in word {
        let digit = hex_value(*b)?;
        n = 16 * n + u64::from(digit);
    }
    Some(K::from_number(n))
}

//! Reading a bracket file, and asking it.

use super::direction::{
    Direction, Fault, FileFault, MOST_PLACES, MOST_STEP, Reason, Record, Size, TextFault, is_side,
};
use super::kind::{Coded, read_code};
use super::source::{Sizes, Source};
use std::marker::PhantomData;
use std::num::NonZeroU8;

#[derive(Clone, Copy)]
enum Mark {
    Open,
    Close,
    Space,
    Newline,
}

#[derive(Clone, Copy)]
enum Token<'a> {
    Mark,
    End,
    Word(&'a [u8]),
}

#[derive(Clone, Copy)]
enum Held {
    Bins(usize),
    Lost(NonZeroU8),
}

#[derive(Clone, Copy)]
struct Line {
    direction: Direction,
    held: Held,
}

pub struct BracketFile<'a, K> {
    text: &'a [u8],
    size: Size,
    lines: [Line; MOST_PLACES],
    count: usize,
    kind: PhantomData<K>,
}

struct Lexer<'a> {
    text: &'a [u8],
    at: usize,
}

impl Mark {
    fn of(b: u8) -> Option<Mark> {
        match b {
            b'(' => Some(Mark::Open),
            b')' => Some(Mark::Close),
            b' ' => Some(Mark::Space),
            b'\n' => Some(Mark::Newline),
            _ => None,
        }
    }

    fn byte(self) -> u8 {
        match self {
            Mark::Open => b'(',
            Mark::Close => b')',
            Mark::Space => b' ',
            Mark::Newline => b'\n',
        }
    }
}

fn run_len(text: &[u8]) -> usize {
    text.iter().take_while(|b| Mark::of(**b).is_none()).count()
}

fn wrong(byte: usize) -> TextFault {
    TextFault {
        byte,
        reason: Reason::Token,
    }
}

fn magnitude(digits: &[u8]) -> Option<u16> {
    if let [] | [b'0', _, ..] = digits {
        return None;
    }
    let mut n = 0;
    for d in digits {
        if !d.is_ascii_digit() {
            return None;
        }
        n = (10 * n + u16::from(*d - b'0')).min(1000);
    }
    Some(n)
}

fn numeral(word: &[u8]) -> Option<i32> {
    match word {
        [b'-', digits @ ..] => {
            let n = magnitude(digits)?;
            if n == 0 { None } else { Some(-i32::from(n)) }
        }
        _ => magnitude(word).map(i32::from),
    }
}

fn exactly(word: &[u8], want: &[u8]) -> Result<(), Reason> {
    if word == want {
        Ok(())
    } else {
        Err(Reason::Token)
    }
}

fn side_of(word: &[u8]) -> Result<usize, Reason> {
    let n = numeral(word).ok_or(Reason::Token)?;
    match usize::try_from(n) {
        Ok(side) if is_side(side) => Ok(side),
        _ => Err(Reason::Size),
    }
}

fn cause_of(word: &[u8]) -> Result<NonZeroU8, Reason> {
    numeral(word)
        .and_then(|n| u8::try_from(n).ok())
        .and_then(NonZeroU8::new)
        .ok_or(Reason::Token)
}

fn p_of(word: &[u8]) -> Result<i32, Reason> {
    let p = numeral(word).ok_or(Reason::Token)?;
    if p.unsigned_abs() <= MOST_STEP {
        Ok(p)
    } else {
        Err(Reason::Direction)
    }
}

fn q_of(word: &[u8], p: i32, last: Option<Direction>) -> Result<Direction, Reason> {
    let q = numeral(word).ok_or(Reason::Token)?;
    let direction = Direction { p, q };
    if !direction.is_lawful() {
        return Err(Reason::Direction);
    }
    if !direction.follows(last) {
        return Err(Reason::Order);
    }
    Ok(direction)
}

fn first_code<K: Coded>(text: &[u8]) -> Option<K> {
    let width = K::digits();
    let sample = read_code::<K>(text.get(..width)?)?;
    if run_len(&text[width..]) == 0 {
        Some(sample)
    } else {
        None
    }
}

enum Start {
    Dir,
    End,
}

fn start_of(word: &[u8], first: bool, room: bool) -> Result<Start, Reason> {
    match word {
        b"dir" if room => Ok(Start::Dir),
        b"end" if !first => Ok(Start::End),
        b"dir" | b"end" => Err(Reason::Count),
        _ => Err(Reason::Token),
    }
}

impl<'a> Lexer<'a> {
    fn mark(&mut self, want: Mark) -> Result<(), TextFault> {
        match self.text.get(self.at) {
            Some(found) if *found == want.byte() => {
                self.at += 1;
                Ok(())
            }
            _ => Err(wrong(self.at)),
        }
    }

    fn next(&mut self) -> Token<'a> {
        let text = self.text;
        let rest = &text[self.at..];
        let Some(first) = rest.first() else {
            return Token::End;
        };
        if Mark::of(*first).is_some() {
            self.at += 1;
            return Token::Mark;
        }
        let size = run_len(rest);
        self.at += size;
        Token::Word(&rest[..size])
    }

    fn end(&mut self) -> Result<(), TextFault> {
        let byte = self.at;
        let Token::End = self.next() else {
            return Err(wrong(byte));
        };
        Ok(())
    }

    fn accept<T>(&mut self, read: impl FnOnce(&[u8]) -> Result<T, Reason>) -> Result<T, TextFault> {
        let byte = self.at;
        let Token::Word(word) = self.next() else {
            return Err(wrong(byte));
        };
        read(word).map_err(|reason| TextFault { byte, reason })
    }

    fn code<K: Coded>(&mut self) -> Result<K, TextFault> {
        let Some(sample) = first_code::<K>(&self.text[self.at..]) else {
            return Err(wrong(self.at));
        };
        self.at += K::digits();
        Ok(sample)
    }

    fn held<K: Coded>(&mut self, bins: usize) -> Result<Held, TextFault> {
        self.mark(Mark::Space)?;
        self.mark(Mark::Open)?;
        let bins_come = self.accept(|word| match word {
            b"bins" => Ok(true),
            b"lost" => Ok(false),
            _ => Err(Reason::Token),
        })?;
        let held = if bins_come {
            let begin = self.at;
            for _ in 0..bins {
                self.mark(Mark::Space)?;
                self.code::<K>()?;
            }
            Held::Bins(begin)
        } else {
            self.mark(Mark::Space)?;
            Held::Lost(self.accept(cause_of)?)
        };
        self.mark(Mark::Close)?;
        self.mark(Mark::Close)?;
        self.mark(Mark::Newline)?;
        Ok(held)
    }

    fn place<K: Coded>(&mut self, size: Size, last: Option<Direction>) -> Result<Line, TextFault> {
        self.mark(Mark::Space)?;
        let p = self.accept(p_of)?;
        self.mark(Mark::Space)?;
        let direction = self.accept(|word| q_of(word, p, last))?;
        let held = self.held::<K>(size.bins(direction))?;
        Ok(Line { direction, held })
    }

    fn head<K: Coded>(&mut self) -> Result<Size, TextFault> {
        self.mark(Mark::Open)?;
        self.accept(|word| exactly(word, b"tile"))?;
        self.mark(Mark::Space)?;
        self.accept(|word| exactly(word, K::kind_name()))?;
        self.mark(Mark::Space)?;
        let columns = self.accept(side_of)?;
        self.mark(Mark::Space)?;
        let rows = self.accept(side_of)?;
        self.mark(Mark::Close)?;
        self.mark(Mark::Newline)?;
        Ok(Size { columns, rows })
    }

    fn file<K: Coded>(&mut self) -> Result<(Size, [Line; MOST_PLACES], usize), TextFault> {
        let size = self.head::<K>()?;
        let line = Line {
            direction: Direction { p: 0, q: 1 },
            held: Held::Bins(0),
        };
        let mut lines = [line; MOST_PLACES];
        let mut count = 0;
        let mut last: Option<Direction> = None;
        loop {
            self.mark(Mark::Open)?;
            let room = count < MOST_PLACES;
            match self.accept(|word| start_of(word, last.is_none(), room))? {
                Start::End => break,
                Start::Dir => {
                    let line = self.place::<K>(size, last)?;
                    last = Some(line.direction);
                    lines[count] = line;
                    count += 1;
                }
            }
        }
        self.mark(Mark::Close)?;
        self.mark(Mark::Newline)?;
        self.end()?;
        Ok((size, lines, count))
    }
}

impl<'a, K: Coded> BracketFile<'a, K> {
    pub fn read(text: &'a [u8]) -> Result<BracketFile<'a, K>, Fault> {
        let mut lexer = Lexer { text, at: 0 };
        let (size, lines, count) = lexer.file::<K>().map_err(|fault| {
            let before = &text[..fault.byte];
            FileFault {
                line: 1 + before.iter().filter(|b| **b == b'\n').count(),
                text: fault,
            }
        })?;
        Ok(BracketFile {
            text,
            size,
            lines,
            count,
            kind: PhantomData,
        })
    }

    fn line(&self, i: usize) -> Result<&Line, Fault> {
        self.lines[..self.count].get(i).ok_or(Fault::NoPlace)
    }
}

impl<K: Coded> Source for BracketFile<'_, K> {
    type Sample = K;

    fn sizes(&self) -> Sizes {
        Sizes {
            columns: self.size.columns,
            rows: self.size.rows,
            places: self.count,
        }
    }

    fn place(&self, i: usize) -> Result<Record, Fault> {
        let line = self.line(i)?;
        let cause = match line.held {
            Held::Bins(_) => 0,
            Held::Lost(cause) => cause.get(),
        };
        Ok(Record {
            direction: line.direction,
            cause,
        })
    }

    fn bin(&self, i: usize, b: usize) -> Result<K, Fault> {
        let line = self.line(i)?;
        let begin = match line.held {
            Held::Bins(begin) => begin,
            Held::Lost(cause) => return Err(Fault::Lost(cause.get())),
        };
        if b >= self.size.bins(line.direction) {
            return Err(Fault::NoBin);
        }
        let first = begin + b * (K::digits() + 1) + 1;
        Ok(self
            .text
            .get(first..first + K::digits())
            .and_then(|code| read_code::<K>(code))
            .unwrap_or(K::zero()))
    }
}

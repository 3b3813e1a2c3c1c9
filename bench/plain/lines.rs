//! The lines of a log and of a capture, in the notation of `candump -L`.

use crate::hex::{self, DIGIT};
use crate::link;
use crate::setup::{Id, Tester};

/// The most ticks of one event.
pub const MOST_TICKS: u16 = 60_000;

/// How many identifiers of 11 bits there are.
const SHORT_IDS: usize = 0x800;

/// The identifiers that are read: all of 11 bits, and those of 29 that testers have. Each has a key: one of 11 bits its
/// number, one of 29 its place behind these. Frames of CAN FD are read where the key's identifier is that of a tester who
/// talks so.
pub struct Known {
    wide: Vec<u64>,
    fd: Vec<bool>,
}

impl Known {
    pub fn of(testers: &[Tester]) -> Known {
        let ids = || testers.iter().flat_map(|it| [it.request, it.response, it.functional].map(|id| (id, it.fd)));
        let wide = ids().filter(|(id, _)| matches!(id, Id::Wide(_))).map(|(id, _)| folded(id));
        let mut known = Known { wide: wide.collect(), fd: Vec::new() };
        known.fd = vec![false; known.keys()];
        for (id, fd) in ids() {
            let key = known.key(id) as usize;
            known.fd[key] = fd;
        }
        known
    }

    /// Returns how many keys there are.
    pub fn keys(&self) -> usize {
        SHORT_IDS + self.wide.len()
    }

    /// Returns the key of an identifier that is read.
    pub fn key(&self, id: Id) -> u16 {
        match id {
            Id::Short(number) => number,
            Id::Wide(_) => self.wide_key(folded(id)).unwrap_or(0),
        }
    }

    #[inline]
    fn wide_key(&self, digits: u64) -> Option<u16> {
        self.wide.iter().position(|&it| it == digits).map(|it| (SHORT_IDS + it) as u16)
    }
}

/// A data frame, with its identifier's key.
pub struct CanFrame {
    pub key: u16,
    len: u8,
    bytes: [u8; 64],
}

impl CanFrame {
    pub fn new() -> CanFrame {
        CanFrame { key: 0, len: 0, bytes: [0; 64] }
    }

    pub fn bytes(&self) -> &[u8] {
        &self.bytes[..self.len as usize]
    }
}

/// What a line says: a stamped one its moment in whole milliseconds, and whether it has a frame that isn't passed over.
pub enum Line {
    Empty,
    Ticks(u16),
    Stamped { moment: u64, has_frame: bool },
}

#[derive(Clone, Copy, PartialEq)]
pub enum LineFault {
    BadLine,
    BadTick,
    TooManyBytes,
}

/// The lines of a text, of which those before a place were taken.
pub struct Lines<'a> {
    text: &'a [u8],
    at: usize,
}

impl<'a> Lines<'a> {
    pub fn new(text: &'a [u8], at: usize) -> Lines<'a> {
        Lines { text, at }
    }

    /// Returns where the next line begins.
    pub fn at(&self) -> usize {
        self.at
    }

    /// Takes a line and says what it is; its frame is left in `frame`. `TIMED` tells whether its moment is wanted.
    #[inline(always)]
    pub fn next<const TIMED: bool>(&mut self, known: &Known, frame: &mut CanFrame) -> Option<Result<Line, LineFault>> {
        match self.peek()? {
            b'(' => Some(self.stamped::<TIMED>(known, frame)),
            b't' if self.text[self.at..].starts_with(b"tick") => {
                self.at += 4;
                Some(self.ticks().ok_or(LineFault::BadTick))
            }
            _ => Some(if self.ends() { Ok(Line::Empty) } else { Err(LineFault::BadLine) }),
        }
    }

    /// Takes the rest of a line, whatever it is.
    pub fn skip(&mut self) {
        while let Some(&eight) = self.text[self.at..].first_chunk() {
            let bytes = u64::from_le_bytes(eight) ^ u64::from_le_bytes([b'\n'; 8]);
            // the lowest byte that is 0 gets its highest bit
            let ends = bytes.wrapping_sub(0x0101_0101_0101_0101) & !bytes & 0x8080_8080_8080_8080;
            if ends != 0 {
                self.at += ends.trailing_zeros() as usize / 8 + 1;
                return;
            }
            self.at += 8;
        }
        let rest = &self.text[self.at..];
        self.at += rest.iter().position(|&it| it == b'\n').map_or(rest.len(), |it| it + 1);
    }

    #[inline]
    fn peek(&self) -> Option<u8> {
        self.text.get(self.at).copied()
    }

    /// Takes the end of a line, with one CR before it.
    #[inline(always)]
    fn ends(&mut self) -> bool {
        if self.peek() == Some(b'\n') {
            self.at += 1;
            return true;
        }
        self.ends_otherwise()
    }

    #[inline(never)]
    fn ends_otherwise(&mut self) -> bool {
        let len = match self.text[self.at..] {
            [b'\r'] => 1,
            [b'\r', b'\n', ..] => 2,
            [] => 0,
            _ => return false,
        };
        self.at += len;
        true
    }

    fn ticks(&mut self) -> Option<Line> {
        if self.ends() {
            return Some(Line::Ticks(1));
        }
        self.at += 1;
        let digits = self.digits(5)?;
        let ticks = decimal(digits);
        let good = self.text[self.at - digits.len() - 1] == b' ' && digits[0] != b'0' && ticks <= MOST_TICKS as u64;
        (good && self.ends()).then_some(Line::Ticks(ticks as u16))
    }

    #[inline(always)]
    fn stamped<const TIMED: bool>(&mut self, known: &Known, frame: &mut CanFrame) -> Result<Line, LineFault> {
        let moment = self.stamp::<TIMED>().ok_or(LineFault::BadLine)?;
        let named = self.run(|it| it == b' ') && self.run(|it| it != b' ' && it != b'\n') && self.run(|it| it == b' ');
        if !named {
            return Err(LineFault::BadLine);
        }
        Ok(Line::Stamped { moment, has_frame: self.frame(known, frame)? })
    }

    /// Takes bytes as long as they are such, and returns whether there was one.
    #[inline]
    fn run(&mut self, is_such: impl Fn(u8) -> bool) -> bool {
        let from = self.at;
        while self.peek().is_some_and(&is_such) {
            self.at += 1;
        }
        self.at > from
    }

    #[inline(always)]
    fn stamp<const TIMED: bool>(&mut self) -> Option<u64> {
        if let Some(moment) = self.text[self.at..].first_chunk().and_then(usual_stamp::<TIMED>) {
            self.at += 19;
            return Some(moment);
        }
        self.any_stamp()
    }

    #[cold]
    fn any_stamp(&mut self) -> Option<u64> {
        self.at += 1;
        let seconds = self.digits(12)?;
        self.byte(b'.')?;
        let fraction = self.digits(9).filter(|it| it.len() >= 6)?;
        self.byte(b')')?;
        Some(decimal(seconds) * 1000 + decimal(&fraction[..3]))
    }

    fn byte(&mut self, wanted: u8) -> Option<()> {
        let found = self.peek() == Some(wanted);
        self.at += 1;
        found.then_some(())
    }

    /// Takes a run of digits, which are as many at most, and one at least.
    fn digits(&mut self, most: usize) -> Option<&'a [u8]> {
        let rest = self.text.get(self.at..)?;
        let count = rest.iter().take_while(|it| it.is_ascii_digit()).count();
        self.at += count;
        (1..=most).contains(&count).then_some(&rest[..count])
    }

    /// Takes a frame and the rest of its line. False says that it is passed over.
    #[inline(always)]
    fn frame(&mut self, known: &Known, frame: &mut CanFrame) -> Result<bool, LineFault> {
        let Some(&[a, b, c, b'#']) = self.text[self.at..].first_chunk() else {
            return self.wide_frame(known, frame);
        };
        let [a, b, c] = [a, b, c].map(|it| DIGIT[it as usize]);
        if a > 7 || (b | c) > 15 {
            return Err(LineFault::BadLine);
        }
        self.at += 4;
        frame.key = (a as u16) << 8 | (b << 4 | c) as u16;
        self.behind_id(known, frame)
    }

    /// The same of one with an identifier of 29 bits.
    #[inline(never)]
    fn wide_frame(&mut self, known: &Known, frame: &mut CanFrame) -> Result<bool, LineFault> {
        let Some(&[a, b, c, d, e, f, g, h, b'#']) = self.text[self.at..].first_chunk() else {
            return Err(LineFault::BadLine);
        };
        let digits = [a, b, c, d, e, f, g, h];
        if digits.iter().fold(0, |all, &it| all | DIGIT[it as usize]) > 15 {
            return Err(LineFault::BadLine);
        }
        self.at += 9;
        let Some(key) = known.wide_key(u64::from_le_bytes(digits) | LOWER) else {
            self.skip();
            return Ok(false);
        };
        frame.key = key;
        self.behind_id(known, frame)
    }

    /// Takes what stands behind an identifier that is read.
    #[inline(always)]
    fn behind_id(&mut self, known: &Known, frame: &mut CanFrame) -> Result<bool, LineFault> {
        if matches!(self.peek(), Some(b'#' | b'R')) {
            return self.other_frame(known, frame);
        }
        self.data(frame)?;
        Ok(true)
    }

    /// Takes what stands behind an identifier of another frame than a classic data frame.
    #[inline(never)]
    fn other_frame(&mut self, known: &Known, frame: &mut CanFrame) -> Result<bool, LineFault> {
        if self.peek() == Some(b'R') || !known.fd[frame.key as usize] {
            self.skip();
            return Ok(false);
        }
        let Some(&[_, flags, ref data @ ..]) = self.text.get(self.at..) else { return Err(LineFault::BadLine) };
        if !flags.is_ascii_hexdigit() {
            return Err(LineFault::BadLine);
        }
        let len = hex::read_long_front(data, &mut frame.bytes);
        if data.get(2 * len).is_some_and(u8::is_ascii_hexdigit) {
            return Err(if len == 64 { LineFault::TooManyBytes } else { LineFault::BadLine });
        }
        if len > 8 && !link::is_long(len) {
            return Err(LineFault::BadLine);
        }
        frame.len = len as u8;
        self.at += 2 + 2 * len;
        self.behind_data()?;
        Ok(true)
    }

    /// Takes the bytes of a data frame and the rest of its line.
    #[inline(always)]
    fn data(&mut self, frame: &mut CanFrame) -> Result<(), LineFault> {
        let len = hex::read_front(&self.text[self.at..], &mut frame.bytes[..8]);
        frame.len = len as u8;
        self.at += 2 * len;
        if len == 8 {
            self.behind_eight()?;
        }
        self.behind_data()
    }

    /// Takes what stands behind the bytes of a data frame.
    #[inline(always)]
    fn behind_data(&mut self) -> Result<(), LineFault> {
        if !self.ends() {
            if self.peek() != Some(b' ') {
                return Err(LineFault::BadLine);
            }
            self.skip();
        }
        Ok(())
    }

    /// Takes what may stand behind eight bytes alone: a raw DLC.
    #[inline]
    fn behind_eight(&mut self) -> Result<(), LineFault> {
        match self.peek() {
            Some(b'_') => {
                let digit = self.text.get(self.at + 1);
                self.at += 2;
                if digit.is_some_and(u8::is_ascii_hexdigit) {
                    Ok(())
                } else {
                    Err(LineFault::BadLine)
                }
            }
            Some(it) if it.is_ascii_hexdigit() => Err(LineFault::TooManyBytes),
            _ => Ok(()),
        }
    }
}

/// The bit by which the lower-case digits differ from the upper-case ones, and that all decimal ones have, in eight bytes.
const LOWER: u64 = u64::from_le_bytes([b' '; 8]);

/// Returns the eight digits of an identifier of 29 bits in lower case, the first one lowest.
fn folded(id: Id) -> u64 {
    let text = id.to_string();
    text.bytes().rev().fold(0, |all, it| all << 8 | it as u64) | LOWER
}

/// Returns the moment of a stamp as candump writes it, with ten digits before its point and six behind it.
#[inline]
fn usual_stamp<const TIMED: bool>(stamp: &[u8; 19]) -> Option<u64> {
    let [b'(', a, b, c, d, e, f, g, h, i, j, b'.', k, l, m, n, o, p, b')'] = *stamp else { return None };
    let front = Eight::read([a, b, c, d, e, f, g, h])?;
    let back = Eight::read([i, j, k, l, m, n, o, p])?;
    Some(if TIMED { front.value() * 100_000 + back.value() / 1000 } else { 0 })
}

/// The values of eight digits, a byte each, the first one lowest.
struct Eight(u64);

impl Eight {
    #[inline]
    fn read(digits: [u8; 8]) -> Option<Eight> {
        let values = u64::from_le_bytes(digits) ^ u64::from_le_bytes(*b"00000000");
        // a value above 9 has its highest bit, or gets it
        let over = (values | (values.wrapping_add(0x7676_7676_7676_7676))) & 0x8080_8080_8080_8080;
        (over == 0).then_some(Eight(values))
    }

    /// Returns the number that they make: pairs of them are joined, then pairs of pairs, then the two that are left.
    #[inline]
    fn value(&self) -> u64 {
        let twos = (self.0 * 10 + (self.0 >> 8)) & 0x00FF_00FF_00FF_00FF;
        let fours = (twos * 100 + (twos >> 16)) & 0x0000_FFFF_0000_FFFF;
        (fours * 10_000 + (fours >> 32)) & 0xFFFF_FFFF
    }
}

/// Returns the value of digits, which are few enough.
fn decimal(digits: &[u8]) -> u64 {
    digits.iter().fold(0, |value, it| value * 10 + (it - b'0') as u64)
}

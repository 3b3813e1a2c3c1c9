//! The journal's text.

use crate::hex;
use crate::text::{Decimal, Paper};

pub const HEADER: [&[u8]; 2] = [b"diag-journal 1\n", b"diag-journal 2\n"];

/// What becomes of the steps that the server takes.
pub trait Journal {
    /// A request of a tester, and what is sent to it; `clock` is the tester's.
    fn request(&mut self, who: usize, clock: u64, functional: bool, request: &[u8], reply: Option<&[u8]>);

    /// Ticks of a tester; `clock` is its clock behind them.
    fn ticks(&mut self, who: usize, clock: u64, count: u64);
}

/// Steps of which nothing is kept.
pub struct NoJournal;

impl Journal for NoJournal {
    #[inline]
    fn request(&mut self, _who: usize, _clock: u64, _functional: bool, _request: &[u8], _reply: Option<&[u8]>) {}

    #[inline]
    fn ticks(&mut self, _who: usize, _clock: u64, _count: u64) {}
}

/// The journal as a text, with each tester's clock before its entries where `TIMED` says so.
pub struct JournalText<P, const TIMED: bool> {
    pub paper: P,
    entries: u64,
}

impl<P: Paper, const TIMED: bool> JournalText<P, TIMED> {
    pub fn new(mut paper: P) -> Self {
        paper.put(HEADER[TIMED as usize]);
        JournalText { paper, entries: 0 }
    }

    /// Returns how many entries there are.
    pub fn entries(&self) -> u64 {
        self.entries
    }

    /// Returns a pen for an entry, behind its first words.
    #[inline]
    fn entry(&mut self, who: usize, clock: u64, kind: u8, most: usize) -> Pen<'_> {
        self.entries += 1;
        let mut pen = Pen { room: self.paper.room(most + 32), at: 0 };
        if TIMED {
            pen.decimal(clock);
            pen.put(b" ");
        }
        pen.put(&[b'1' + who as u8, b' ', kind, b' ']);
        pen
    }
}

impl<P: Paper, const TIMED: bool> Journal for JournalText<P, TIMED> {
    #[inline]
    fn request(&mut self, who: usize, clock: u64, functional: bool, request: &[u8], reply: Option<&[u8]>) {
        let kind = if functional { b'F' } else { b'P' };
        let most = 2 * (request.len() + reply.map_or(0, <[u8]>::len));
        let mut pen = self.entry(who, clock, kind, most);
        pen.hex(request);
        pen.put(b" ");
        match reply {
            Some(reply) => pen.hex(reply),
            None => pen.put(b"-"),
        }
        pen.put(b"\n");
        let count = pen.at;
        self.paper.take(count);
    }

    #[inline]
    fn ticks(&mut self, who: usize, clock: u64, count: u64) {
        let mut pen = self.entry(who, clock, b'T', 20);
        pen.decimal(count);
        pen.put(b"\n");
        let count = pen.at;
        self.paper.take(count);
    }
}

/// A place in a room that is long enough.
struct Pen<'a> {
    room: &'a mut [u8],
    at: usize,
}

impl Pen<'_> {
    #[inline]
    fn put(&mut self, bytes: &[u8]) {
        self.room[self.at..self.at + bytes.len()].copy_from_slice(bytes);
        self.at += bytes.len();
    }

    #[inline]
    fn hex(&mut self, bytes: &[u8]) {
        let end = self.at + 2 * bytes.len();
        hex::write(bytes, &mut self.room[self.at..end]);
        self.at = end;
    }

    #[inline]
    fn decimal(&mut self, number: u64) {
        self.put(Decimal::of(number, 1).digits());
    }
}

//! The frames that the server sends, as the lines that `candump -L` would write of them.

use crate::hex;
use crate::setup::{Setup, Tester};
use crate::text::{Decimal, Outlet, Pages, Paper};

/// What becomes of the frames that are sent.
pub trait Frames {
    fn frame(&mut self, who: usize, time: u64, bytes: &[u8]);
}

/// The bytes of the longest line of a frame of up to 8 bytes, and some: a stamp has 17 digits before its point at most, a
/// name 16 letters, an identifier 8 digits.
const LONGEST: usize = 80;

/// A line of a tester, ready but for the bytes and the stamp's last digits.
struct ReplyLine {
    bytes: [u8; LONGEST],
    point: usize,
    head: usize,
    time: u64,
    behind_stamp: Vec<u8>,
}

impl ReplyLine {
    fn new(tester: &Tester, fd_flags: u8) -> ReplyLine {
        let Tester { name, response, .. } = tester;
        let flags = if tester.fd { format!("#{fd_flags:X}") } else { String::new() };
        let behind_stamp = format!("000) {name} {response}#{flags}").into_bytes();
        let mut line = ReplyLine { bytes: [0; LONGEST], point: 0, head: 0, time: 0, behind_stamp };
        line.set_second(0);
        line
    }

    /// Writes the line of a frame.
    #[inline]
    fn write(&mut self, time: u64, frame: &[u8], on: &mut impl Paper) {
        if time != self.time {
            self.set_time(time);
        }
        let len = 2 * frame.len();
        let behind = &mut self.bytes[self.head..self.head + 17];
        match <&[u8; 8]>::try_from(frame) {
            Ok(full) => hex::write(full, behind),
            Err(_) if frame.len() > 8 => return self.write_long(frame, on),
            Err(_) => hex::write(frame, behind),
        }
        behind[len] = b'\n';
        if let Some(room) = on.room(LONGEST).first_chunk_mut() {
            *room = self.bytes;
        }
        on.take(self.head + len + 1);
    }

    /// Writes the line of a frame of more than 8 bytes, whose time is set.
    #[inline(never)]
    fn write_long(&self, frame: &[u8], on: &mut impl Paper) {
        let end = self.head + 2 * frame.len();
        let room = &mut on.room(end + 1)[..end + 1];
        room[..self.head].copy_from_slice(&self.bytes[..self.head]);
        hex::write(frame, &mut room[self.head..end]);
        room[end] = b'\n';
        on.take(end + 1);
    }

    fn set_time(&mut self, time: u64) {
        if time / 1000 != self.time / 1000 {
            self.set_second(time / 1000);
        }
        self.time = time;
        let millis = (time % 1000) as u16;
        let digits = [millis / 100, millis / 10 % 10, millis % 10];
        self.bytes[self.point + 1..self.point + 4].copy_from_slice(&digits.map(|it| b'0' + it as u8));
    }

    #[cold]
    fn set_second(&mut self, seconds: u64) {
        let number = Decimal::of(seconds, 10);
        let mut at = 0;
        for part in [b"(", number.digits(), b".000", &self.behind_stamp] {
            self.bytes[at..at + part.len()].copy_from_slice(part);
            at += part.len();
        }
        self.point = 1 + number.digits().len();
        self.head = at;
    }
}

fn reply_lines(setup: &Setup) -> Vec<ReplyLine> {
    setup.testers.iter().map(|it| ReplyLine::new(it, setup.transport.fd_flags)).collect()
}

/// Frames that nobody wants.
pub struct NoFrames;

impl Frames for NoFrames {
    #[inline]
    fn frame(&mut self, _who: usize, _time: u64, _bytes: &[u8]) {}
}

/// The frames of each tester as a text of its own.
pub struct OwnTexts {
    testers: Vec<(ReplyLine, Pages)>,
}

impl OwnTexts {
    pub fn new(setup: &Setup) -> OwnTexts {
        OwnTexts { testers: reply_lines(setup).into_iter().map(|it| (it, Pages::default())).collect() }
    }

    /// Returns the texts one behind the other.
    pub fn all(&self) -> impl Iterator<Item = &[u8]> {
        self.testers.iter().flat_map(|(_, text)| text.all())
    }
}

impl Frames for OwnTexts {
    #[inline]
    fn frame(&mut self, who: usize, time: u64, bytes: &[u8]) {
        let (line, text) = &mut self.testers[who];
        line.write(time, bytes, text);
    }
}

/// The frames of all testers as one text, each stamped so much later than the testers' clocks tell.
pub struct BusText {
    lines: Vec<ReplyLine>,
    later: u64,
    pub outlet: Outlet,
}

impl BusText {
    pub fn new(setup: &Setup) -> BusText {
        BusText { lines: reply_lines(setup), later: 0, outlet: Outlet::new() }
    }

    pub fn set_later(&mut self, later: u64) {
        self.later = later;
    }
}

impl Frames for BusText {
    #[inline]
    fn frame(&mut self, who: usize, time: u64, bytes: &[u8]) {
        self.lines[who].write(time.wrapping_add(self.later), bytes, &mut self.outlet);
    }
}

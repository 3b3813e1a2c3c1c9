//! `bus` and `verify`: a capture of the whole bus, answered as it comes, or compared.

use crate::fault::Fault;
use crate::feed::{Feed, FeedFault};
use crate::frames::{BusText, Frames, NoFrames};
use crate::journal::{Journal, JournalText, NoJournal};
use crate::lines::{CanFrame, Known, Line, LineFault, Lines, MOST_TICKS};
use crate::link::NEVER;
use crate::server::Server;
use crate::setup::Setup;
use crate::text::{self, Outlet};
use crate::verdict::Verdict;

/// The most bytes of a line, its LF not counted.
pub const LINE_BYTES: usize = 4096;

pub enum Wanted {
    Replies,
    Journal,
    End,
    Verdict,
}

pub fn run(setup: &Setup, feed: Feed, wanted: Wanted) -> Result<(), Fault> {
    match wanted {
        Wanted::Replies => {
            let mut bus = Bus::new(setup, BusText::new(setup), NoJournal);
            bus.follow(feed)
        }
        Wanted::Journal => {
            let mut bus = Bus::new(setup, NoFrames, JournalText::<Outlet, true>::new(Outlet::new()));
            bus.follow(feed)
        }
        Wanted::End => {
            let mut bus = Bus::new(setup, NoFrames, NoJournal);
            bus.follow(feed)?;
            text::print([bus.server.end_text(setup).as_bytes()])
        }
        Wanted::Verdict if setup.testers.iter().any(|it| it.fd) => run_verdict::<64>(setup, feed),
        Wanted::Verdict => run_verdict::<8>(setup, feed),
    }
}

/// Compares frames of so many bytes at most.
fn run_verdict<const MOST: usize>(setup: &Setup, feed: Feed) -> Result<(), Fault> {
    let mut bus = Bus::new(setup, Verdict::<MOST>::new(setup), NoJournal);
    bus.follow(feed)?;
    text::print([bus.server.frames.text(setup)?.as_bytes()])
}

/// What is written of a bus as it goes.
trait Written {
    /// Tells what the stamps of frames are later than the testers' clocks.
    fn set_later(&mut self, _later: u64) {}

    /// Takes a frame that the unit in the capture sent to a tester.
    fn record(&mut self, _who: usize, _line: u64, _bytes: &[u8]) {}

    /// Writes what isn't written yet.
    fn leave(&mut self) -> Result<(), Fault> {
        Ok(())
    }
}

impl Written for NoFrames {}

impl Written for NoJournal {}

impl<const MOST: usize> Written for Verdict<MOST> {
    #[inline]
    fn record(&mut self, who: usize, line: u64, bytes: &[u8]) {
        Verdict::<MOST>::record(self, who, line, bytes);
    }
}

impl Written for BusText {
    fn set_later(&mut self, later: u64) {
        BusText::set_later(self, later);
    }

    fn leave(&mut self) -> Result<(), Fault> {
        self.outlet.leave()
    }
}

impl Written for JournalText<Outlet, true> {
    fn leave(&mut self) -> Result<(), Fault> {
        self.paper.leave()
    }
}

/// For whom a frame is, by its identifier: a functional one is of several testers, a bit for each; one of the unit's own
/// is to a tester.
#[derive(Clone, Copy)]
enum For {
    Nobody,
    Testers(u8),
    Tester(u8),
    Unit(u8),
}

/// Returns for whom frames are, by the keys of their identifiers.
fn by_key(setup: &Setup, known: &Known) -> Vec<For> {
    let mut all = vec![For::Nobody; known.keys()];
    for (who, tester) in setup.testers.iter().enumerate() {
        let at = |id| known.key(id) as usize;
        all[at(tester.request)] = For::Tester(who as u8);
        all[at(tester.response)] = For::Unit(who as u8);
        let functional = &mut all[at(tester.functional)];
        let before = if let For::Testers(them) = *functional { them } else { 0 };
        *functional = For::Testers(before | 1 << who);
    }
    all
}

/// Nothing falls due before the moment `due`; all testers' clocks tell `now`.
struct Bus<F, J> {
    server: Server<F, J>,
    known: Known,
    by_key: Vec<For>,
    now: u64,
    due: u64,
    reference: Option<u64>,
    lines: u64,
}

impl<F: Frames + Written, J: Journal + Written> Bus<F, J> {
    fn new(setup: &Setup, frames: F, journal: J) -> Self {
        let known = Known::of(&setup.testers);
        let by_key = by_key(setup, &known);
        let server = Server::new(setup, frames, journal);
        Bus { server, known, by_key, now: 0, due: NEVER, reference: None, lines: 0 }
    }

    /// Takes a capture to its end. Before more is read all whole lines were taken, and what they draw was written.
    fn follow(&mut self, mut feed: Feed) -> Result<(), Fault> {
        loop {
            match feed.advance() {
                Ok(true) => {}
                Ok(false) => return self.leave(),
                Err(FeedFault::Read | FeedFault::Long) => return Err(Fault::Read(1)),
            }
            let taken = self.take(feed.piece());
            self.leave()?;
            taken?;
        }
    }

    fn leave(&mut self) -> Result<(), Fault> {
        self.server.frames.leave()?;
        self.server.journal.leave()
    }

    fn take(&mut self, piece: &[u8]) -> Result<(), Fault> {
        let mut lines = Lines::new(piece, 0);
        let mut frame = CanFrame::new();
        loop {
            let from = lines.at();
            let Some(line) = lines.next::<true>(&self.known, &mut frame) else { return Ok(()) };
            self.lines += 1;
            if line.is_err() || lines.at() - from > LINE_BYTES {
                self.check(line.as_ref().err(), &piece[from..])?;
            }
            match line {
                Ok(Line::Stamped { moment, has_frame }) => self.stamped(moment, has_frame.then_some(&frame)),
                Ok(Line::Ticks(ticks)) => {
                    self.pass(ticks as u64);
                    self.expire_up_to(0);
                }
                _ => {}
            }
        }
    }

    /// Looks at a line that is at fault, or long.
    #[cold]
    fn check(&self, fault: Option<&LineFault>, rest: &[u8]) -> Result<(), Fault> {
        let len = rest.iter().position(|&it| it == b'\n').unwrap_or(rest.len());
        let fault = if len > LINE_BYTES { Some(&LineFault::BadLine) } else { fault };
        fault.map_or(Ok(()), |&fault| Err(Fault::CaptureLine { line: self.lines, fault }))
    }

    #[inline]
    fn stamped(&mut self, moment: u64, frame: Option<&CanFrame>) {
        self.tell(moment);
        if let Some(frame) = frame {
            match self.by_key[frame.key as usize] {
                For::Nobody => {}
                For::Tester(who) => self.frame(who as usize, false, frame.bytes()),
                For::Testers(them) => {
                    let testers = (0..self.server.testers()).filter(|who| them >> who & 1 == 1);
                    testers.for_each(|who| self.frame(who, true, frame.bytes()));
                }
                For::Unit(who) => self.own(who as usize, frame.bytes()),
            }
        }
        if self.due <= self.now {
            self.expire_up_to(0);
        }
    }

    /// Takes the moment of a stamped line.
    #[inline]
    fn tell(&mut self, moment: u64) {
        match self.reference {
            Some(reference) if moment <= reference => return,
            Some(reference) => self.pass(moment - reference),
            None => self.server.frames.set_later(moment.wrapping_sub(self.now)),
        }
        self.reference = Some(moment);
    }

    /// Lets time pass for all testers, by parts.
    #[inline]
    fn pass(&mut self, ticks: u64) {
        let mut left = ticks;
        while left > 0 {
            let part = left.min(MOST_TICKS as u64);
            self.server.pass_all(part);
            left -= part;
        }
        self.now += ticks;
    }

    /// Gives a tester a frame, behind what is due before it.
    #[inline]
    fn frame(&mut self, who: usize, functional: bool, bytes: &[u8]) {
        if self.due <= self.now {
            self.expire_up_to(who + 1);
        }
        self.server.frame(who, functional, bytes);
        self.due = self.due.min(self.server.due(who));
    }

    /// Takes a frame of the unit's own, behind what the server sends with the line.
    #[inline]
    fn own(&mut self, who: usize, bytes: &[u8]) {
        if self.due <= self.now {
            self.expire_up_to(0);
        }
        self.server.frames.record(who, self.lines, bytes);
    }

    /// Sends what is due by now, the earlier first, and at one moment by the testers' order: before the present that of
    /// all testers, and at it that of the first so many, or of all for 0.
    #[cold]
    fn expire_up_to(&mut self, first: usize) {
        let testers = self.server.testers();
        let first = if first == 0 { testers } else { first };
        loop {
            let next = (0..testers).map(|who| (self.server.due(who), who)).min().unwrap_or((NEVER, 0));
            if next >= (self.now, first) {
                self.due = next.0;
                return;
            }
            self.server.expire(next.1);
        }
    }
}

//! The events of one tester's log, one after the other.

use crate::fault::Fault;
use crate::feed::{Feed, FeedFault, Limits};
use crate::lines::{CanFrame, Known, Line, Lines, MOST_TICKS};
use crate::setup::Tester;
use std::fs::File;
use std::slice;

/// The most lines and events of a log, and the most bytes of its file.
const MOST: u64 = 1_000_000;
const BYTES: u64 = 67_108_864;

/// An event; the bytes of a frame stand in the log.
pub enum Event {
    Frame { functional: bool },
    Ticks(u16),
}

/// A log, of which the events before a place were given. Where a stamp lets time pass, ticks and the frame behind them
/// are kept until they are given. The tester asks by the identifiers with the keys `request` and `functional`.
pub struct Log {
    number: usize,
    known: Known,
    request: u16,
    functional: u16,
    feed: Feed,
    at: usize,
    lines: u64,
    events: u64,
    reference: Option<u64>,
    ticks: u64,
    behind: Option<Event>,
    frame: CanFrame,
    end: End,
}

/// How a log ended.
enum End {
    NotYet,
    Well,
    InFile(Fault),
    InLine(Fault),
}

impl Log {
    /// Opens a tester's log by its number from 1.
    pub fn open(number: usize, path: &str, tester: &Tester) -> Result<Log, Fault> {
        let file = File::open(path).map_err(|_| Fault::Read(number))?;
        let feed = Feed::new(Box::new(file), Limits { bytes: BYTES, line: usize::MAX });
        let known = Known::of(slice::from_ref(tester));
        Ok(Log {
            number,
            request: known.key(tester.request),
            functional: known.key(tester.functional),
            known,
            feed,
            at: 0,
            lines: 0,
            events: 0,
            reference: None,
            ticks: 0,
            behind: None,
            frame: CanFrame::new(),
            end: End::NotYet,
        })
    }

    /// Returns the next event, or None at the log's end and where it is at fault. `TIMED` tells whether stamps carry
    /// time.
    #[inline]
    pub fn next<const TIMED: bool>(&mut self) -> Option<Event> {
        if TIMED && self.ticks > 0 {
            return Some(self.part());
        }
        if TIMED && self.behind.is_some() {
            return self.behind.take();
        }
        self.read::<TIMED>()
    }

    /// Returns the bytes of the frame that was given last.
    pub fn bytes(&self) -> &[u8] {
        self.frame.bytes()
    }

    pub fn has_ended(&self) -> bool {
        !matches!(self.end, End::NotYet)
    }

    pub fn is_at_fault(&self) -> bool {
        matches!(self.end, End::InFile(_) | End::InLine(_))
    }

    /// Looks at what is left, and returns the fault by which the file can't be read whole.
    pub fn file_fault<const TIMED: bool>(&mut self) -> Option<Fault> {
        while !self.has_ended() {
            self.next::<TIMED>();
        }
        match &self.end {
            End::InFile(fault) => Some(fault.clone()),
            _ => self.feed.drain().err().map(|it| self.of_file(it)),
        }
    }

    /// Looks at what is left, and returns the fault of the first line that has one.
    pub fn line_fault<const TIMED: bool>(&mut self) -> Option<Fault> {
        while !self.has_ended() {
            self.next::<TIMED>();
        }
        match &self.end {
            End::InLine(fault) => Some(fault.clone()),
            _ => None,
        }
    }

    fn of_file(&self, fault: FeedFault) -> Fault {
        match fault {
            FeedFault::Read => Fault::Read(self.number),
            FeedFault::Long => Fault::Long(self.number),
        }
    }

    /// Reads lines up to one that gives an event.
    #[inline]
    fn read<const TIMED: bool>(&mut self) -> Option<Event> {
        loop {
            let mut lines = Lines::new(self.feed.piece(), self.at);
            while let Some(line) = lines.next::<TIMED>(&self.known, &mut self.frame) {
                self.lines += 1;
                if self.lines > MOST {
                    return self.ends(End::InLine(Fault::LogLines(self.number)));
                }
                match line {
                    Ok(Line::Ticks(ticks)) => {
                        self.at = lines.at();
                        return self.give::<TIMED>(0, Event::Ticks(ticks));
                    }
                    Ok(Line::Stamped { moment, has_frame: true }) => {
                        let functional = self.frame.key == self.functional;
                        if functional || self.frame.key == self.request {
                            self.at = lines.at();
                            return self.give::<TIMED>(moment, Event::Frame { functional });
                        }
                    }
                    Ok(_) => {}
                    Err(fault) => {
                        let fault = Fault::LogLine { log: self.number, line: self.lines, fault };
                        return self.ends(End::InLine(fault));
                    }
                }
            }
            self.at = 0;
            match self.feed.advance() {
                Ok(true) => {}
                Ok(false) => return self.ends(End::Well),
                Err(fault) => return self.ends(End::InFile(self.of_file(fault))),
            }
        }
    }

    #[cold]
    fn ends(&mut self, end: End) -> Option<Event> {
        self.end = end;
        None
    }

    /// Returns an event of a line, or the first ticks before it.
    #[inline]
    fn give<const TIMED: bool>(&mut self, moment: u64, event: Event) -> Option<Event> {
        self.events += 1;
        if TIMED && matches!(event, Event::Frame { .. }) {
            let reference = self.reference.unwrap_or(moment);
            self.ticks = moment.saturating_sub(reference);
            self.reference = Some(reference.max(moment));
            self.events += self.ticks.div_ceil(MOST_TICKS as u64);
        }
        if self.events > MOST {
            return self.ends(End::InLine(Fault::LogEvents(self.number)));
        }
        if !TIMED || self.ticks == 0 {
            return Some(event);
        }
        self.behind = Some(event);
        Some(self.part())
    }

    /// Takes as many of the ticks that wait as one event may have.
    fn part(&mut self) -> Event {
        let ticks = self.ticks.min(MOST_TICKS as u64);
        self.ticks -= ticks;
        Event::Ticks(ticks as u16)
    }
}

//! `replay`: whether a journal's replies are those of the server.

use crate::fault::Fault;
use crate::feed::{Feed, FeedFault, Limits};
use crate::frames::NoFrames;
use crate::hex::{self, UPPER_DIGIT};
use crate::journal::{NoJournal, HEADER};
use crate::lines::MOST_TICKS;
use crate::serial::MOST_ENTRIES;
use crate::server::Server;
use crate::setup::Setup;
use crate::text;
use std::fs::File;

/// The most bytes of a journal's file, and of a message.
const BYTES: u64 = 268_435_456;
const LONGEST_MESSAGE: usize = 65_535;

pub fn run(setup: &Setup, path: &str) -> Result<(), Fault> {
    let file = File::open(path).map_err(|_| Fault::Read(1))?;
    let mut feed = Feed::new(Box::new(file), Limits { bytes: BYTES, line: usize::MAX });
    let mut replay = Replay::new(setup);
    let read = replay.read(&mut feed);
    if let Err(Fault::JournalLine(_)) = read {
        feed.drain().map_err(of_file)?;
    }
    read?;
    if let Some(entry) = replay.differs {
        return Err(Fault::Differs(entry));
    }
    let count = format!("entries {}\n", replay.entries());
    text::print([count.as_bytes(), replay.server.end_text(setup).as_bytes()])
}

fn of_file(fault: FeedFault) -> Fault {
    match fault {
        FeedFault::Read => Fault::Read(1),
        FeedFault::Long => Fault::Long(1),
    }
}

/// A replay. Behind the first entry that differs only the form of the entries is looked at.
struct Replay {
    server: Server<NoFrames, NoJournal>,
    timed: bool,
    lines: u64,
    clocks: [u64; 8],
    message: Vec<u8>,
    differs: Option<u64>,
}

impl Replay {
    fn new(setup: &Setup) -> Replay {
        Replay {
            server: Server::new(setup, NoFrames, NoJournal),
            timed: false,
            lines: 0,
            clocks: [0; 8],
            message: vec![0; LONGEST_MESSAGE],
            differs: None,
        }
    }

    /// Returns how many entries were read; the header is no entry.
    fn entries(&self) -> u64 {
        self.lines - 1
    }

    fn read(&mut self, feed: &mut Feed) -> Result<(), Fault> {
        while feed.advance().map_err(of_file)? {
            self.take(feed.piece()).ok_or(Fault::JournalLine(self.lines))?;
        }
        if self.lines == 0 {
            Err(Fault::JournalLine(1))
        } else {
            Ok(())
        }
    }

    /// Takes the lines of a piece. None says that the last one taken is at fault.
    fn take(&mut self, piece: &[u8]) -> Option<()> {
        let mut text = Text { rest: piece };
        while !text.rest.is_empty() {
            self.lines += 1;
            if self.lines == 1 {
                self.header(&mut text)?;
            } else {
                self.entry(&mut text)?;
            }
        }
        Some(())
    }

    fn header(&mut self, text: &mut Text) -> Option<()> {
        let version = HEADER.iter().position(|it| text.rest.starts_with(it))?;
        self.timed = version == 1;
        text.rest = &text.rest[HEADER[version].len()..];
        Some(())
    }

    fn entry(&mut self, text: &mut Text) -> Option<()> {
        if self.entries() > MOST_ENTRIES {
            return None;
        }
        let clock = if self.timed { Some(text.clock()?) } else { None };
        let Some((&[place @ b'1'..=b'8', b' ', kind, b' '], rest)) = text.rest.split_first_chunk() else { return None };
        text.rest = rest;
        let who = (place - b'1') as usize;
        match kind {
            b'T' => {
                let count = text.number(b'\n').filter(|it| *it <= MOST_TICKS as u64 && *it > 0)?;
                self.clocks[who] += count;
                self.ticks(who, count);
            }
            b'P' | b'F' => {
                let len = text.message(&mut self.message)?;
                self.request(who, kind == b'F', len, text)?;
            }
            _ => return None,
        }
        clock.is_none_or(|it| it == self.clocks[who]).then_some(())
    }

    fn ticks(&mut self, who: usize, count: u64) {
        if who >= self.server.testers() {
            self.differ();
        } else if self.differs.is_none() {
            self.server.pass(who, count);
        }
    }

    /// Answers the request that was read, and takes the reply that is written.
    fn request(&mut self, who: usize, functional: bool, len: usize, text: &mut Text) -> Option<()> {
        if self.differs.is_none() && who < self.server.testers() {
            let reply = self.server.answer(who, functional, &self.message[..len]);
            if text.takes_reply(reply) {
                return Some(());
            }
        }
        self.differ();
        text.reply()
    }

    #[cold]
    fn differ(&mut self) {
        self.differs.get_or_insert(self.lines - 1);
    }
}

/// A text, of which what was read is gone.
struct Text<'a> {
    rest: &'a [u8],
}

impl Text<'_> {
    /// Takes a number without leading zeros and the byte behind it.
    #[inline]
    fn number(&mut self, end: u8) -> Option<u64> {
        let mut number: u64 = 0;
        let mut count = 0;
        loop {
            let byte = *self.rest.get(count)?;
            count += 1;
            match byte {
                b'0'..=b'9' => number = number.checked_mul(10)?.checked_add((byte - b'0') as u64)?,
                _ if byte == end && count > 1 => break,
                _ => return None,
            }
        }
        let has_zeros = self.rest[0] == b'0' && count > 2;
        self.rest = &self.rest[count..];
        (!has_zeros).then_some(number)
    }

    fn clock(&mut self) -> Option<u64> {
        self.number(b' ')
    }

    /// Takes the hex of a message and the space behind it, and returns how many bytes it has.
    #[inline]
    fn message(&mut self, message: &mut [u8]) -> Option<usize> {
        let mut len = 0;
        for (pair, byte) in self.rest.chunks_exact(2).zip(message) {
            match hex::byte_of(&UPPER_DIGIT, pair[0], pair[1]) {
                Some(it) => *byte = it,
                None => break,
            }
            len += 1;
        }
        self.rest = self.rest[2 * len..].strip_prefix(b" ")?;
        (len > 0).then_some(len)
    }

    /// Takes a reply and the line's end where they are just these bytes.
    #[inline]
    fn takes_reply(&mut self, reply: Option<&[u8]>) -> bool {
        let rest = match reply {
            None => self.rest.strip_prefix(b"-\n"),
            Some(reply) => hex::strip(self.rest, reply).and_then(|it| it.strip_prefix(b"\n")),
        };
        match rest {
            Some(rest) => {
                self.rest = rest;
                true
            }
            None => false,
        }
    }

    /// Takes any reply and the line's end.
    fn reply(&mut self) -> Option<()> {
        let end = self.rest.iter().position(|&it| it == b'\n')?;
        let (reply, rest) = self.rest.split_at(end);
        self.rest = &rest[1..];
        let digits = reply.iter().all(|&it| UPPER_DIGIT[it as usize] != hex::NONE);
        let good = digits && reply.len() % 2 == 0 && (2..=2 * LONGEST_MESSAGE).contains(&reply.len());
        (reply == b"-" || good).then_some(())
    }
}

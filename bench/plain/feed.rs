//! A file by pieces, each of which ends with a line.

use std::io::{self, ErrorKind, Read};

/// The most bytes of one read.
const READ: usize = 65_536;

/// The most bytes of a file, and the bytes of a line without its end behind which no more of it is waited for.
pub struct Limits {
    pub bytes: u64,
    pub line: usize,
}

pub enum FeedFault {
    Read,
    Long,
}

/// In front of the buffer stands the piece that was given last, then what was read of the line behind it.
pub struct Feed {
    source: Box<dyn Read>,
    limits: Limits,
    buffer: Vec<u8>,
    piece: usize,
    filled: usize,
    read: u64,
}

impl Feed {
    pub fn new(source: Box<dyn Read>, limits: Limits) -> Feed {
        Feed { source, limits, buffer: Vec::new(), piece: 0, filled: 0, read: 0 }
    }

    /// Returns the piece that was read last.
    pub fn piece(&self) -> &[u8] {
        &self.buffer[..self.piece]
    }

    /// Reads the next piece, and returns whether there is one. The last one may lack its line end, and so does one
    /// whose line is too long.
    pub fn advance(&mut self) -> Result<bool, FeedFault> {
        self.buffer.copy_within(self.piece..self.filled, 0);
        self.filled -= self.piece;
        self.piece = 0;
        while self.filled <= self.limits.line {
            let from = self.filled;
            if self.read_more()? == 0 {
                break;
            }
            let more = &self.buffer[from..self.filled];
            if let Some(at) = more.iter().rposition(|&it| it == b'\n') {
                self.piece = from + at + 1;
                return Ok(true);
            }
        }
        self.piece = self.filled;
        Ok(self.piece > 0)
    }

    /// Reads what is left and drops it.
    pub fn drain(&mut self) -> Result<(), FeedFault> {
        loop {
            self.filled = 0;
            self.piece = 0;
            if self.read_more()? == 0 {
                return Ok(());
            }
        }
    }

    fn read_more(&mut self) -> Result<usize, FeedFault> {
        if self.buffer.len() < self.filled + READ {
            self.buffer.resize((self.filled + READ).max(2 * self.filled), 0);
        }
        let room = &mut self.buffer[self.filled..self.filled + READ];
        let count = read_some(&mut self.source, room).map_err(|_| FeedFault::Read)?;
        self.filled += count;
        self.read += count as u64;
        if self.read > self.limits.bytes {
            Err(FeedFault::Long)
        } else {
            Ok(count)
        }
    }
}

fn read_some(source: &mut dyn Read, room: &mut [u8]) -> io::Result<usize> {
    loop {
        match source.read(room) {
            Err(fault) if fault.kind() == ErrorKind::Interrupted => {}
            done => return done,
        }
    }
}

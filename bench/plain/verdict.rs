//! The frames that the unit in a capture sent, beside those of the server.

use crate::fault::Fault;
use crate::frames::Frames;
use crate::hex;
use crate::setup::Setup;
use std::collections::VecDeque;

/// The bytes of a frame, which are `MOST` at most.
#[derive(Clone, Copy, PartialEq)]
struct Bytes<const MOST: usize> {
    bytes: [u8; MOST],
    len: u8,
}

impl<const MOST: usize> Bytes<MOST> {
    #[inline]
    fn of(frame: &[u8]) -> Self {
        let mut bytes = [0; MOST];
        bytes[..frame.len()].copy_from_slice(frame);
        Bytes { bytes, len: frame.len() as u8 }
    }

    fn text(&self) -> String {
        let mut text = vec![0; 2 * self.len as usize];
        hex::write(&self.bytes[..self.len as usize], &mut text);
        String::from_utf8_lossy(&text).into_owned()
    }
}

/// A frame of the capture, and the number of its line.
struct Recorded<const MOST: usize> {
    line: u64,
    bytes: Bytes<MOST>,
}

/// A frame of the capture where the server sends other bytes, or none.
struct Difference<const MOST: usize> {
    line: u64,
    sent: Bytes<MOST>,
    expected: Option<Bytes<MOST>>,
}

/// The frames by which the capture and the server are apart, of one tester. Nothing is kept behind a difference.
#[derive(Default)]
struct Pair<const MOST: usize> {
    ahead: VecDeque<Recorded<MOST>>,
    behind: VecDeque<Bytes<MOST>>,
    count: u64,
    difference: Option<Difference<MOST>>,
}

impl<const MOST: usize> Pair<MOST> {
    #[inline]
    fn expect(&mut self, bytes: Bytes<MOST>) {
        if self.difference.is_some() {
            return;
        }
        match self.ahead.pop_front() {
            Some(frame) => self.compare(frame, bytes),
            None => self.behind.push_back(bytes),
        }
    }

    #[inline]
    fn record(&mut self, frame: Recorded<MOST>) {
        self.count += 1;
        if self.difference.is_some() {
            return;
        }
        match self.behind.pop_front() {
            Some(bytes) => self.compare(frame, bytes),
            None => self.ahead.push_back(frame),
        }
    }

    #[inline]
    fn compare(&mut self, frame: Recorded<MOST>, bytes: Bytes<MOST>) {
        if frame.bytes != bytes {
            self.difference = Some(Difference { line: frame.line, sent: frame.bytes, expected: Some(bytes) });
            self.ahead.clear();
            self.behind.clear();
        }
    }

    /// Returns the first difference, where the capture ends here.
    fn first_difference(&self) -> Option<Difference<MOST>> {
        match &self.difference {
            Some(it) => Some(Difference { line: it.line, sent: it.sent, expected: it.expected }),
            None => self.ahead.front().map(|it| Difference { line: it.line, sent: it.bytes, expected: None }),
        }
    }
}

/// Whether a frame says response pending.
#[inline]
fn is_pending(bytes: &[u8]) -> bool {
    matches!(bytes, [0x03, 0x7F, _, 0x78, ..]) && bytes.len() <= 8
}

/// The frames of all testers, beside those of the capture. A frame has `MOST` bytes at most.
pub struct Verdict<const MOST: usize> {
    testers: Vec<Pair<MOST>>,
}

impl<const MOST: usize> Verdict<MOST> {
    pub fn new(setup: &Setup) -> Self {
        Verdict { testers: setup.testers.iter().map(|_| Pair::default()).collect() }
    }

    /// Takes a frame of the capture that the unit sent to a tester.
    #[inline]
    pub fn record(&mut self, who: usize, line: u64, bytes: &[u8]) {
        if !is_pending(bytes) {
            self.testers[who].record(Recorded { line, bytes: Bytes::of(bytes) });
        }
    }

    /// Returns how many frames of each tester agree, or the first difference.
    pub fn text(&self, setup: &Setup) -> Result<String, Fault> {
        let names = || setup.testers.iter().map(|it| it.name.as_str());
        let all = names().zip(&self.testers);
        let first = all.clone().filter_map(|(name, it)| Some((name, it.first_difference()?))).min_by_key(|(_, it)| it.line);
        if let Some((name, it)) = first {
            let expected = it.expected.map_or("nothing".to_string(), |it| it.text());
            return Err(Fault::Otherwise(format!("line {}: {name} sent {}, expected {expected}", it.line, it.sent.text())));
        }
        if let Some((name, own, next)) = all.clone().find_map(|(name, it)| Some((name, it, it.behind.front()?))) {
            return Err(Fault::Otherwise(format!("{name} sent {} frames, expected {} next", own.count, next.text())));
        }
        Ok(all.map(|(name, it)| format!("{name} {} frames agree\n", it.count)).collect())
    }
}

impl<const MOST: usize> Frames for Verdict<MOST> {
    #[inline]
    fn frame(&mut self, who: usize, _time: u64, bytes: &[u8]) {
        if !is_pending(bytes) {
            self.testers[who].expect(Bytes::of(bytes));
        }
    }
}

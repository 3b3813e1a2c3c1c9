//! The transport of one tester: ISO 15765-2 with normal addressing. Time is told as the tester's own clock, in ticks.

use crate::frames::Frames;
use crate::setup::Transport;
use std::collections::VecDeque;
use std::mem;

/// The moment at which nothing falls due.
pub const NEVER: u64 = u64::MAX;

/// The most bytes of a Single frame's message by the short form, and of a First frame's without the escape.
const SINGLE: usize = 7;
const SHORT_LENGTH: usize = 4095;

/// How many bytes a frame of CAN FD has where it has more than 8.
const LONG: [usize; 7] = [12, 16, 20, 24, 32, 48, 64];
const LONGEST: usize = 64;

/// The number of such a frame's bytes from any, rounded up.
const ROUNDED: [u8; LONGEST + 1] = rounded();

const fn rounded() -> [u8; LONGEST + 1] {
    let mut table = [0; LONGEST + 1];
    let mut len = 0;
    let mut at = 0;
    while len <= LONGEST {
        if len > LONG[at] {
            at += 1;
        }
        table[len] = LONG[at] as u8;
        len += 1;
    }
    table
}

/// Returns whether a frame of CAN FD can have so many bytes, which are more than 8.
pub fn is_long(len: usize) -> bool {
    LONG.contains(&len)
}

/// What received bytes are. The Consecutive frames behind a First frame bring `part` bytes each, but for the last.
pub enum Kind<'a> {
    Single(&'a [u8]),
    First { length: usize, head: &'a [u8], part: usize },
    Overflow,
    Consecutive { number: u8, part: &'a [u8] },
    FlowControl { status: u8, block: u8, gap: u8 },
    Ignored,
}

/// Reads the protocol control information of a frame of up to 8 bytes, with the length of the longest request.
#[inline(always)]
pub fn kind(bytes: &[u8], max_request: usize) -> Kind<'_> {
    match bytes {
        [first @ 0x01..=0x07, payload @ ..] => payload.get(..*first as usize).map_or(Kind::Ignored, Kind::Single),
        [0x10..=0x1F, ..] if bytes.len() == 8 => first_frame(bytes, max_request),
        [first @ 0x20..=0x2F, part @ ..] => Kind::Consecutive { number: first & 15, part },
        [first @ 0x30..=0x3F, block, gap, ..] => Kind::FlowControl { status: first & 15, block: *block, gap: *gap },
        _ => Kind::Ignored,
    }
}

/// The same of a frame of more than 8 bytes.
pub fn long_kind(bytes: &[u8], max_request: usize) -> Kind<'_> {
    match bytes {
        [0x00, len @ 8..=u8::MAX, payload @ ..] => payload.get(..*len as usize).map_or(Kind::Ignored, Kind::Single),
        [0x10..=0x1F, ..] => first_frame(bytes, max_request),
        [first @ 0x20..=0x2F, part @ ..] => Kind::Consecutive { number: first & 15, part },
        [first @ 0x30..=0x3F, block, gap, ..] => Kind::FlowControl { status: first & 15, block: *block, gap: *gap },
        _ => Kind::Ignored,
    }
}

fn first_frame(bytes: &[u8], max_request: usize) -> Kind<'_> {
    let short = (bytes[0] as usize & 15) << 8 | bytes[1] as usize;
    let escape = u32::from_be_bytes([bytes[2], bytes[3], bytes[4], bytes[5]]) as usize;
    let (length, head) = match short {
        0 if escape > SHORT_LENGTH => (escape, &bytes[6..]),
        8.. if short > bytes.len() - 2 => (short, &bytes[2..]),
        _ => return Kind::Ignored,
    };
    if length > max_request {
        Kind::Overflow
    } else {
        Kind::First { length, head, part: bytes.len() - 1 }
    }
}

/// What a Consecutive frame does: nothing, it asks for another grant, or the message is whole.
#[derive(PartialEq)]
pub enum Progress {
    Nothing,
    Grant,
    Whole,
}

/// The reception of a message, of which each Consecutive frame but the last brings `part` bytes. It is open before a
/// moment, which is 0 where there is none.
pub struct Reception {
    message: Vec<u8>,
    length: usize,
    part: usize,
    number: u8,
    left_of_block: usize,
    open_until: u64,
    block: usize,
    n_cr: u64,
}

impl Reception {
    fn new(of: &Transport) -> Reception {
        let block = if of.block_size == 0 { usize::MAX } else { of.block_size as usize };
        Reception {
            message: Vec::new(),
            length: 0,
            part: 0,
            number: 0,
            left_of_block: 0,
            open_until: 0,
            block,
            n_cr: of.n_cr_ms,
        }
    }

    pub fn message(&self) -> &[u8] {
        &self.message
    }

    pub fn close(&mut self) {
        self.open_until = 0;
    }

    pub fn open(&mut self, length: usize, head: &[u8], part: usize, now: u64) {
        self.message.clear();
        self.message.extend_from_slice(head);
        self.length = length;
        self.part = part;
        self.number = 1;
        self.left_of_block = self.block;
        self.open_until = now + self.n_cr;
    }

    #[inline(always)]
    pub fn consecutive(&mut self, number: u8, part: &[u8], now: u64) -> Progress {
        let wanted = (self.length - self.message.len()).min(self.part);
        if now >= self.open_until || number != self.number || part.len() < wanted || part.len() > self.part {
            self.close();
            return Progress::Nothing;
        }
        self.message.extend_from_slice(&part[..wanted]);
        if self.message.len() == self.length {
            self.close();
            return Progress::Whole;
        }
        self.number = (number + 1) & 15;
        self.open_until = now + self.n_cr;
        self.left_of_block -= 1;
        if self.left_of_block > 0 {
            return Progress::Nothing;
        }
        self.left_of_block = self.block;
        Progress::Grant
    }
}

/// A message under way waits for flow control, or is within a block with so many frames left and ticks between them.
enum Phase {
    Waiting,
    Block { left: usize, gap: u64 },
}

/// The sending of replies: the one under way, of which the first bytes were sent, and those that wait for it. A Single
/// frame has up to `single` bytes of a message.
pub struct Sender {
    who: usize,
    n_bs: u64,
    blank: [u8; 8],
    shortest: usize,
    tx_dl: usize,
    single: usize,
    message: Vec<u8>,
    sent: usize,
    number: u8,
    phase: Phase,
    due: u64,
    waiting: VecDeque<Box<[u8]>>,
}

impl Sender {
    fn new(who: usize, tx_dl: usize, of: &Transport) -> Sender {
        Sender {
            who,
            n_bs: of.n_bs_ms,
            blank: [of.pad_byte; 8],
            shortest: if of.pad { 8 } else { 0 },
            tx_dl,
            single: SINGLE.max(tx_dl - 2),
            message: Vec::new(),
            sent: 0,
            number: 0,
            phase: Phase::Waiting,
            due: NEVER,
            waiting: VecDeque::new(),
        }
    }

    /// Returns when the link next does something of itself.
    pub fn due(&self) -> u64 {
        self.due
    }

    /// Sends a reply, or lets it wait. Its bytes may be taken away.
    pub fn answer(&mut self, reply: &mut Vec<u8>, now: u64, out: &mut impl Frames) {
        if self.due != NEVER {
            self.waiting.push_back(reply.as_slice().into());
        } else if reply.len() <= self.single {
            self.single(reply, now, out);
        } else {
            mem::swap(&mut self.message, reply);
            self.first(now, out);
        }
    }

    pub fn flow_control(&mut self, status: u8, block: u8, gap: u8, now: u64, out: &mut impl Frames) {
        if self.due == NEVER || !matches!(self.phase, Phase::Waiting) {
            return;
        }
        match status {
            0 => {
                let left = if block == 0 { usize::MAX } else { block as usize };
                self.block(left, separation(gap), now, out);
            }
            1 => self.due = now + self.n_bs,
            _ => self.over(now, out),
        }
    }

    /// Does what is due, at the moment at which it is.
    pub fn expire(&mut self, out: &mut impl Frames) {
        match self.phase {
            Phase::Waiting => self.over(self.due, out),
            Phase::Block { left, gap } => self.block(left, gap, self.due, out),
        }
    }

    pub fn grant(&self, bytes: [u8; 3], now: u64, out: &mut impl Frames) {
        self.send(&bytes, &[], now, out);
    }

    /// Sends the frames of a block that are due now.
    fn block(&mut self, mut left: usize, gap: u64, now: u64, out: &mut impl Frames) {
        loop {
            self.consecutive(now, out);
            left -= 1;
            if self.sent == self.message.len() {
                return self.over(now, out);
            }
            if left == 0 {
                self.phase = Phase::Waiting;
                self.due = now + self.n_bs;
                return;
            }
            if gap > 0 {
                self.phase = Phase::Block { left, gap };
                self.due = now + gap;
                return;
            }
        }
    }

    /// Ends the message under way, and begins those that wait.
    fn over(&mut self, now: u64, out: &mut impl Frames) {
        self.due = NEVER;
        while let Some(reply) = self.waiting.pop_front() {
            if reply.len() > self.single {
                self.message = reply.into_vec();
                return self.first(now, out);
            }
            self.single(&reply, now, out);
        }
    }

    fn single(&self, reply: &[u8], now: u64, out: &mut impl Frames) {
        let len = reply.len() as u8;
        if reply.len() <= SINGLE {
            self.send(&[len], reply, now, out);
        } else {
            self.send_long(&[0, len], reply, now, out);
        }
    }

    fn first(&mut self, now: u64, out: &mut impl Frames) {
        let [_, _, high, low] = (self.message.len() as u32).to_be_bytes();
        if self.tx_dl > 8 {
            self.long_first(now, out);
        } else if self.message.len() > SHORT_LENGTH {
            self.sent = 2;
            self.send(&[0x10, 0, 0, 0, high, low], &self.message[..2], now, out);
        } else {
            self.sent = 6;
            self.send(&[0x10 | high, low], &self.message[..6], now, out);
        }
        self.number = 1;
        self.phase = Phase::Waiting;
        self.due = now + self.n_bs;
    }

    /// Sends the First frame where it has more than 8 bytes.
    #[inline(never)]
    fn long_first(&mut self, now: u64, out: &mut impl Frames) {
        let [_, _, high, low] = (self.message.len() as u32).to_be_bytes();
        let head: &[u8] = if self.message.len() > SHORT_LENGTH { &[0x10, 0, 0, 0, high, low] } else { &[0x10 | high, low] };
        self.sent = self.tx_dl - head.len();
        self.send_long(head, &self.message[..self.sent], now, out);
    }

    #[inline]
    fn consecutive(&mut self, now: u64, out: &mut impl Frames) {
        let head = 0x20 | self.number;
        let rest = &self.message[self.sent..];
        if self.tx_dl > 8 && rest.len() > SINGLE {
            let part = &rest[..rest.len().min(self.tx_dl - 1)];
            self.send_long(&[head], part, now, out);
            self.sent += part.len();
        } else if let Some(&[a, b, c, d, e, f, g]) = rest.first_chunk() {
            out.frame(self.who, now, &[head, a, b, c, d, e, f, g]);
            self.sent += 7;
        } else {
            self.send(&[head], rest, now, out);
            self.sent = self.message.len();
        }
        self.number = (self.number + 1) & 15;
    }

    /// Sends a frame of two parts, filled where frames are.
    #[inline]
    fn send(&self, head: &[u8], rest: &[u8], now: u64, out: &mut impl Frames) {
        let len = head.len() + rest.len();
        let mut bytes = self.blank;
        bytes[..head.len()].copy_from_slice(head);
        bytes[head.len()..len].copy_from_slice(rest);
        out.frame(self.who, now, &bytes[..len.max(self.shortest)]);
    }

    /// Sends a frame of two parts that have more than 8 bytes.
    #[inline(never)]
    fn send_long(&self, head: &[u8], rest: &[u8], now: u64, out: &mut impl Frames) {
        let len = head.len() + rest.len();
        let mut bytes = [self.blank[0]; LONGEST];
        bytes[..head.len()].copy_from_slice(head);
        bytes[head.len()..len].copy_from_slice(rest);
        out.frame(self.who, now, &bytes[..ROUNDED[len] as usize]);
    }
}

/// Returns the ticks of a separation time.
fn separation(gap: u8) -> u64 {
    match gap {
        0x00..=0x7F => gap as u64,
        0xF1..=0xF9 => 1,
        _ => 127,
    }
}

pub struct Link {
    pub max_request: usize,
    pub reception: Reception,
    pub sender: Sender,
    pub granted: [u8; 3],
}

impl Link {
    /// Makes a tester's link, which may be by CAN FD.
    pub fn new(who: usize, fd: bool, of: &Transport) -> Link {
        Link {
            max_request: of.max_request,
            reception: Reception::new(of),
            sender: Sender::new(who, if fd { of.tx_dl } else { 8 }, of),
            granted: [0x30, of.block_size, of.st_min],
        }
    }
}

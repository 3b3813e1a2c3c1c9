//! The server with all its links, and the clock of each tester.

use crate::ecu::{Asker, Ecu};
use crate::frames::Frames;
use crate::journal::Journal;
use crate::link::{self, Kind, Link, Progress};
use crate::setup::Setup;

const OVERFLOW: [u8; 3] = [0x32, 0, 0];

/// `F` takes the frames that are sent, `J` the steps.
pub struct Server<F, J> {
    pub frames: F,
    pub journal: J,
    ecu: Ecu,
    links: Vec<Link>,
    clocks: [u64; 8],
    reply: Vec<u8>,
}

impl<F: Frames, J: Journal> Server<F, J> {
    pub fn new(setup: &Setup, frames: F, journal: J) -> Self {
        let links = setup.testers.iter().enumerate().map(|(who, it)| Link::new(who, it.fd, &setup.transport)).collect();
        Server { frames, journal, ecu: Ecu::new(setup), links, clocks: [0; 8], reply: Vec::new() }
    }

    pub fn testers(&self) -> usize {
        self.links.len()
    }

    /// Returns when a tester's link next does something of itself.
    pub fn due(&self, who: usize) -> u64 {
        self.links[who].sender.due()
    }

    /// Lets a link do what is due next, at its moment.
    pub fn expire(&mut self, who: usize) {
        self.links[who].sender.expire(&mut self.frames);
    }

    /// Lets time pass for a tester.
    pub fn pass(&mut self, who: usize, ticks: u64) {
        self.clocks[who] += ticks;
        let now = self.clocks[who];
        self.journal.ticks(who, now, ticks);
        while self.due(who) <= now {
            self.expire(who);
        }
    }

    /// Lets time pass for all testers alike. What falls due is left to the caller.
    #[inline]
    pub fn pass_all(&mut self, ticks: u64) {
        for clock in &mut self.clocks {
            *clock += ticks;
        }
        for who in 0..self.links.len() {
            self.journal.ticks(who, self.clocks[who], ticks);
        }
    }

    /// Takes a frame of a tester.
    #[inline]
    pub fn frame(&mut self, who: usize, functional: bool, bytes: &[u8]) {
        if bytes.len() > 8 {
            return self.long_frame(who, functional, bytes);
        }
        self.take(who, functional, link::kind(bytes, self.links[who].max_request));
    }

    #[cold]
    fn long_frame(&mut self, who: usize, functional: bool, bytes: &[u8]) {
        self.take(who, functional, link::long_kind(bytes, self.links[who].max_request));
    }

    #[inline(always)]
    fn take(&mut self, who: usize, functional: bool, kind: Kind) {
        let now = self.clocks[who];
        let link = &mut self.links[who];
        match kind {
            Kind::Single(payload) => {
                if !functional {
                    link.reception.close();
                }
                self.request(who, functional, Some(payload));
            }
            _ if functional => {}
            Kind::First { length, head, part } => {
                link.reception.open(length, head, part, now);
                link.sender.grant(link.granted, now, &mut self.frames);
            }
            Kind::Overflow => {
                link.reception.close();
                link.sender.grant(OVERFLOW, now, &mut self.frames);
            }
            Kind::Consecutive { number, part } => match link.reception.consecutive(number, part, now) {
                Progress::Nothing => {}
                Progress::Grant => link.sender.grant(link.granted, now, &mut self.frames),
                Progress::Whole => self.request(who, false, None),
            },
            Kind::FlowControl { status, block, gap } => {
                link.sender.flow_control(status, block, gap, now, &mut self.frames)
            }
            Kind::Ignored => {}
        }
    }

    /// Answers a request, which is the message that a tester's link received where none is given.
    #[inline]
    fn request(&mut self, who: usize, functional: bool, request: Option<&[u8]>) {
        self.settle();
        let Link { reception, sender, .. } = &mut self.links[who];
        let request = request.unwrap_or(reception.message());
        let now = self.clocks[who];
        let sends = self.ecu.request(Asker { who, now }, functional, request, &mut self.reply);
        let reply = sends.then_some(self.reply.as_slice());
        self.journal.request(who, now, functional, request, reply);
        if sends {
            sender.answer(&mut self.reply, now, &mut self.frames);
        }
    }

    /// Answers a whole request without its link, and returns what is sent.
    pub fn answer(&mut self, who: usize, functional: bool, request: &[u8]) -> Option<&[u8]> {
        self.settle();
        let asker = Asker { who, now: self.clocks[who] };
        let sends = self.ecu.request(asker, functional, request, &mut self.reply);
        sends.then_some(&self.reply)
    }

    /// Brings the state to the present.
    #[inline]
    fn settle(&mut self) {
        if let Some(holder) = self.ecu.holder() {
            self.ecu.pass(self.clocks[holder]);
        }
    }

    /// Returns the session, the holder and the trouble codes as lines.
    pub fn end_text(&mut self, setup: &Setup) -> String {
        self.settle();
        let mut text = match self.ecu.holder() {
            Some(who) => format!("session extended\nholder {}\n", setup.testers[who].name),
            None => "session default\nholder none\n".to_string(),
        };
        for it in self.ecu.codes() {
            text += &format!("code {:06X} {:02X}\n", it.code, it.status);
        }
        text
    }
}

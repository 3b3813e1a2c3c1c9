//! The diagnostic server: the services of ISO 14229-1 that the program has.

use crate::link::NEVER;
use crate::setup::{Code, Did, Level, Routine, Setup};

/// The most bytes of a reply.
const LONGEST_REPLY: usize = 65_535;

/// The group of all trouble codes, and the status of one that was cleared.
const ALL_CODES: u32 = 0xFF_FFFF;
const CLEARED: u8 = 0x50;

/// Negative response codes.
const SERVICE_NOT_SUPPORTED: u8 = 0x11;
const SUB_FUNCTION_NOT_SUPPORTED: u8 = 0x12;
const INCORRECT_LENGTH: u8 = 0x13;
const RESPONSE_TOO_LONG: u8 = 0x14;
const BUSY: u8 = 0x21;
const CONDITIONS_NOT_CORRECT: u8 = 0x22;
const SEQUENCE_ERROR: u8 = 0x24;
const OUT_OF_RANGE: u8 = 0x31;
const ACCESS_DENIED: u8 = 0x33;
const INVALID_KEY: u8 = 0x35;
const TOO_MANY_ATTEMPTS: u8 = 0x36;
const DELAY_RUNS: u8 = 0x37;
const NOT_IN_SESSION: u8 = 0x7F;

#[derive(Clone, Copy, PartialEq)]
enum Stage {
    Idle,
    Running { until: u64 },
    Done,
}

struct RoutineState {
    setup: Routine,
    stage: Stage,
}

struct LevelState {
    setup: Level,
    next_row: usize,
}

/// A tester's wrong keys. Its delay runs before a moment, which is 0 where there is none.
#[derive(Clone, Copy, Default)]
struct Tries {
    wrong: u8,
    delay_until: u64,
}

/// A seed that was given and not answered yet.
#[derive(Clone, Copy)]
struct Seed {
    level: usize,
    row: usize,
}

/// The tester whose request is answered, and its clock.
#[derive(Clone, Copy)]
pub struct Asker {
    pub who: usize,
    pub now: u64,
}

/// Moments are those of the clock of the tester whom they are about: S3 and the routines of the holder.
pub struct Ecu {
    p2: [u8; 4],
    s3_ms: u64,
    availability: u8,
    attempts: u8,
    delay_ms: u64,
    dids: Vec<Did>,
    codes: Vec<Code>,
    routines: Vec<RoutineState>,
    levels: Vec<LevelState>,
    holder: Option<usize>,
    s3_until: u64,
    routines_due: u64,
    unlocked: u8,
    outstanding: Option<Seed>,
    setting: bool,
    tries: [Tries; 8],
}

impl Ecu {
    pub fn new(setup: &Setup) -> Ecu {
        let [a, b] = setup.p2_ms.to_be_bytes();
        let [c, d] = setup.p2_star_10ms.to_be_bytes();
        Ecu {
            p2: [a, b, c, d],
            s3_ms: setup.s3_ms,
            availability: setup.availability,
            attempts: setup.attempts,
            delay_ms: setup.delay_ms,
            dids: setup.dids.clone(),
            codes: setup.codes.clone(),
            routines: setup.routines.iter().map(|it| RoutineState { setup: it.clone(), stage: Stage::Idle }).collect(),
            levels: setup.levels.iter().map(|it| LevelState { setup: it.clone(), next_row: 0 }).collect(),
            holder: None,
            s3_until: NEVER,
            routines_due: NEVER,
            unlocked: 0,
            outstanding: None,
            setting: true,
            tries: [Tries::default(); 8],
        }
    }

    pub fn holder(&self) -> Option<usize> {
        self.holder
    }

    pub fn codes(&self) -> &[Code] {
        &self.codes
    }

    /// Brings the state to a moment of the holder's clock.
    #[inline]
    pub fn pass(&mut self, now: u64) {
        if now >= self.s3_until.min(self.routines_due) {
            self.settle(now);
        }
    }

    #[cold]
    fn settle(&mut self, now: u64) {
        while self.routines_due <= now.min(self.s3_until) {
            self.finish_routines(self.routines_due);
        }
        if now >= self.s3_until {
            self.end_session();
        }
    }

    /// Ends the routines that are due at a moment, by rising identifier.
    fn finish_routines(&mut self, moment: u64) {
        for routine in &mut self.routines {
            if routine.stage != (Stage::Running { until: moment }) {
                continue;
            }
            routine.stage = Stage::Done;
            let set = routine.setup.sets.as_ref().filter(|_| self.setting);
            if let Some(set) = set {
                if let Ok(at) = self.codes.binary_search_by_key(&set.code, |it| it.code) {
                    self.codes[at].status = set.status;
                }
            }
        }
        self.find_due_routine();
    }

    fn find_due_routine(&mut self) {
        let running = self.routines.iter().filter_map(|it| match it.stage {
            Stage::Running { until } => Some(until),
            _ => None,
        });
        self.routines_due = running.min().unwrap_or(NEVER);
    }

    /// Relocks.
    fn lock(&mut self) {
        self.unlocked = 0;
        self.outstanding = None;
    }

    /// Ends the session, with cleaning.
    fn end_session(&mut self) {
        self.holder = None;
        self.s3_until = NEVER;
        self.lock();
        self.setting = true;
        for routine in &mut self.routines {
            routine.stage = Stage::Idle;
        }
        self.routines_due = NEVER;
    }

    /// Answers a request, for which the state was brought to the present. Where something is sent, it is left in the
    /// reply, which comes in with anything in it.
    #[inline]
    pub fn request(&mut self, asker: Asker, functional: bool, request: &[u8], reply: &mut Vec<u8>) -> bool {
        reply.clear();
        let answer = self.serve(asker, request, reply);
        if self.holder == Some(asker.who) {
            self.s3_until = asker.now + self.s3_ms;
        }
        match answer {
            Ok(()) => !is_suppressed(request),
            Err(code) => {
                reply.clear();
                reply.extend_from_slice(&[0x7F, request[0], code]);
                !(functional && is_silent(code))
            }
        }
    }

    /// Makes the effect and the positive reply of a request, or returns why there is none.
    fn serve(&mut self, asker: Asker, request: &[u8], reply: &mut Vec<u8>) -> Result<(), u8> {
        let service = request[0];
        let holds = self.holder == Some(asker.who);
        if matches!(service, 0x27 | 0x2E | 0x31 | 0x85) && !holds {
            return Err(NOT_IN_SESSION);
        }
        if self.holder.is_some() && !holds && is_exclusive(request) {
            return Err(BUSY);
        }
        match service {
            0x10 => self.session_control(asker, request, reply),
            0x11 => self.reset(request, reply),
            0x14 => self.clear_codes(request, reply),
            0x19 => self.read_codes(request, reply),
            0x22 => self.read_data(asker, request, reply),
            0x27 => self.security_access(asker, request, reply),
            0x2E => self.write_data(asker, request, reply),
            0x31 => self.routine_control(asker, request, reply),
            0x3E => tester_present(request, reply),
            0x85 => self.control_setting(request, reply),
            _ => Err(SERVICE_NOT_SUPPORTED),
        }
    }

    fn session_control(&mut self, asker: Asker, request: &[u8], reply: &mut Vec<u8>) -> Result<(), u8> {
        let sub = sub_function(request, 2, |it| matches!(it, 1 | 3))?;
        exactly(request, 2)?;
        if sub == 3 {
            self.lock();
            self.holder = Some(asker.who);
        } else if self.holder == Some(asker.who) {
            self.end_session();
        }
        let [a, b, c, d] = self.p2;
        reply.extend_from_slice(&[0x50, sub, a, b, c, d]);
        Ok(())
    }

    fn reset(&mut self, request: &[u8], reply: &mut Vec<u8>) -> Result<(), u8> {
        let sub = sub_function(request, 2, |it| matches!(it, 1..=3))?;
        exactly(request, 2)?;
        self.end_session();
        reply.extend_from_slice(&[0x51, sub]);
        Ok(())
    }

    fn clear_codes(&mut self, request: &[u8], reply: &mut Vec<u8>) -> Result<(), u8> {
        exactly(request, 4)?;
        let group = u32::from_be_bytes([0, request[1], request[2], request[3]]);
        if group == ALL_CODES {
            self.codes.iter_mut().for_each(|it| it.status = CLEARED);
        } else {
            let at = self.codes.binary_search_by_key(&group, |it| it.code).map_err(|_| OUT_OF_RANGE)?;
            self.codes[at].status = CLEARED;
        }
        reply.push(0x54);
        Ok(())
    }

    fn read_codes(&self, request: &[u8], reply: &mut Vec<u8>) -> Result<(), u8> {
        let sub = sub_function(request, 2, |it| matches!(it, 1 | 2 | 0x0A))?;
        exactly(request, if sub == 0x0A { 2 } else { 3 })?;
        let mask = if sub == 0x0A { 0 } else { request[2] & self.availability };
        let counted = self.codes.iter().filter(|it| sub == 0x0A || it.status & mask != 0);
        reply.extend_from_slice(&[0x59, sub, self.availability]);
        if sub == 1 {
            let [high, low] = (counted.count() as u16).to_be_bytes();
            reply.extend_from_slice(&[0x01, high, low]);
        } else {
            for it in counted {
                let [_, a, b, c] = it.code.to_be_bytes();
                reply.extend_from_slice(&[a, b, c, it.status & self.availability]);
            }
        }
        Ok(())
    }

    fn read_data(&self, asker: Asker, request: &[u8], reply: &mut Vec<u8>) -> Result<(), u8> {
        if request.len() < 3 || request.len().is_multiple_of(2) {
            return Err(INCORRECT_LENGTH);
        }
        reply.push(0x62);
        let mut known = false;
        let mut locked = false;
        let mut too_long = false;
        for id in request[1..].chunks_exact(2) {
            let Some(did) = self.did([id[0], id[1]]) else { continue };
            known = true;
            locked |= !self.is_open(did.read_level, asker.who);
            too_long |= reply.len() + 2 + did.value.len() > LONGEST_REPLY;
            if !too_long {
                reply.extend_from_slice(id);
                reply.extend_from_slice(&did.value);
            }
        }
        match (known, locked, too_long) {
            (false, ..) => Err(OUT_OF_RANGE),
            (_, true, _) => Err(ACCESS_DENIED),
            (.., true) => Err(RESPONSE_TOO_LONG),
            _ => Ok(()),
        }
    }

    fn did(&self, id: [u8; 2]) -> Option<&Did> {
        let id = u16::from_be_bytes(id);
        self.dids.binary_search_by_key(&id, |it| it.id).ok().map(|at| &self.dids[at])
    }

    /// Returns whether a tester may do what wants a level.
    fn is_open(&self, level: u8, who: usize) -> bool {
        level == 0 || (self.holder == Some(who) && self.unlocked == level)
    }

    fn security_access(&mut self, asker: Asker, request: &[u8], reply: &mut Vec<u8>) -> Result<(), u8> {
        let sub = sub_function(request, 2, |_| true)?;
        let is_seed = sub % 2 == 1;
        let own = if is_seed { sub } else { sub.wrapping_sub(1) };
        let at = self.levels.binary_search_by_key(&own, |it| it.setup.sub).map_err(|_| SUB_FUNCTION_NOT_SUPPORTED)?;
        let key_len = self.levels[at].setup.rows[0].key.len();
        exactly(request, if is_seed { 2 } else { 2 + key_len })?;
        let tries = &mut self.tries[asker.who];
        if asker.now < tries.delay_until {
            return Err(DELAY_RUNS);
        }
        if tries.delay_until > 0 {
            *tries = Tries::default();
        }
        reply.extend_from_slice(&[0x67, sub]);
        if is_seed {
            self.give_seed(at, reply)
        } else {
            self.take_key(at, &request[2..], asker)?
        }
        Ok(())
    }

    fn give_seed(&mut self, at: usize, reply: &mut Vec<u8>) {
        let level = &mut self.levels[at];
        let rows = &level.setup.rows;
        if self.unlocked == level.setup.sub {
            reply.resize(reply.len() + rows[0].seed.len(), 0);
            return;
        }
        let row = match self.outstanding {
            Some(seed) if seed.level == at => seed.row,
            _ => {
                let row = level.next_row;
                level.next_row = (row + 1) % rows.len();
                self.outstanding = Some(Seed { level: at, row });
                row
            }
        };
        reply.extend_from_slice(&rows[row].seed);
    }

    fn take_key(&mut self, at: usize, key: &[u8], asker: Asker) -> Result<(), u8> {
        let seed = self.outstanding.filter(|it| it.level == at).ok_or(SEQUENCE_ERROR)?;
        self.outstanding = None;
        let level = &self.levels[at].setup;
        let tries = &mut self.tries[asker.who];
        if level.rows[seed.row].key == key {
            self.unlocked = level.sub;
            tries.wrong = 0;
            return Ok(());
        }
        tries.wrong += 1;
        if tries.wrong < self.attempts {
            return Err(INVALID_KEY);
        }
        tries.delay_until = asker.now + self.delay_ms;
        Err(TOO_MANY_ATTEMPTS)
    }

    fn write_data(&mut self, asker: Asker, request: &[u8], reply: &mut Vec<u8>) -> Result<(), u8> {
        let [_, a, b, data @ ..] = request else { return Err(INCORRECT_LENGTH) };
        if data.is_empty() {
            return Err(INCORRECT_LENGTH);
        }
        let id = u16::from_be_bytes([*a, *b]);
        let at = self.dids.binary_search_by_key(&id, |it| it.id).map_err(|_| OUT_OF_RANGE)?;
        let did = &self.dids[at];
        if !did.write {
            return Err(OUT_OF_RANGE);
        }
        if !self.is_open(did.write_level, asker.who) {
            return Err(ACCESS_DENIED);
        }
        if did.value.len() != data.len() {
            return Err(INCORRECT_LENGTH);
        }
        self.dids[at].value.copy_from_slice(data);
        reply.extend_from_slice(&[0x6E, *a, *b]);
        Ok(())
    }

    fn routine_control(&mut self, asker: Asker, request: &[u8], reply: &mut Vec<u8>) -> Result<(), u8> {
        let sub = sub_function(request, 4, |it| matches!(it, 1..=3))?;
        exactly(request, 4)?;
        let id = u16::from_be_bytes([request[2], request[3]]);
        let at = self.routines.binary_search_by_key(&id, |it| it.setup.id).map_err(|_| OUT_OF_RANGE)?;
        if !self.is_open(self.routines[at].setup.level, asker.who) {
            return Err(ACCESS_DENIED);
        }
        let routine = &mut self.routines[at];
        match (sub, routine.stage) {
            (2 | 3, Stage::Idle) => return Err(SEQUENCE_ERROR),
            (1, Stage::Running { .. }) => return Err(CONDITIONS_NOT_CORRECT),
            _ => {}
        }
        reply.extend_from_slice(&[0x71, sub, request[2], request[3]]);
        match sub {
            1 => routine.stage = Stage::Running { until: asker.now + routine.setup.time_ms },
            2 => routine.stage = Stage::Idle,
            _ if routine.stage == Stage::Done => {
                reply.push(0);
                reply.extend_from_slice(&routine.setup.result);
            }
            _ => reply.push(1),
        }
        self.find_due_routine();
        Ok(())
    }

    fn control_setting(&mut self, request: &[u8], reply: &mut Vec<u8>) -> Result<(), u8> {
        let sub = sub_function(request, 2, |it| matches!(it, 1 | 2))?;
        match &request[2..] {
            [] | [0xFF, 0xFF, 0xFF] => {}
            [_, _, _] => return Err(OUT_OF_RANGE),
            _ => return Err(INCORRECT_LENGTH),
        }
        self.setting = sub == 1;
        reply.extend_from_slice(&[0xC5, sub]);
        Ok(())
    }
}

fn tester_present(request: &[u8], reply: &mut Vec<u8>) -> Result<(), u8> {
    sub_function(request, 2, |it| it == 0)?;
    exactly(request, 2)?;
    reply.extend_from_slice(&[0x7E, 0]);
    Ok(())
}

/// Returns the sub-function of a request that is long enough.
#[inline]
fn sub_function(request: &[u8], least: usize, is_known: impl Fn(u8) -> bool) -> Result<u8, u8> {
    if request.len() < least {
        return Err(INCORRECT_LENGTH);
    }
    let sub = request[1] & 0x7F;
    if is_known(sub) {
        Ok(sub)
    } else {
        Err(SUB_FUNCTION_NOT_SUPPORTED)
    }
}

#[inline]
fn exactly(request: &[u8], len: usize) -> Result<(), u8> {
    if request.len() == len {
        Ok(())
    } else {
        Err(INCORRECT_LENGTH)
    }
}

/// Returns whether a request is refused while another tester holds the session.
fn is_exclusive(request: &[u8]) -> bool {
    match request {
        [0x11 | 0x14, ..] => true,
        [0x10, sub, ..] => sub & 0x7F == 3,
        _ => false,
    }
}

/// Returns whether a request asks that its positive reply isn't sent.
fn is_suppressed(request: &[u8]) -> bool {
    match request {
        [0x10 | 0x11 | 0x19 | 0x27 | 0x31 | 0x3E | 0x85, sub, ..] => sub & 0x80 != 0,
        _ => false,
    }
}

/// Returns whether a negative reply isn't sent to a functional request.
fn is_silent(code: u8) -> bool {
    matches!(code, SERVICE_NOT_SUPPORTED | SUB_FUNCTION_NOT_SUPPORTED | OUT_OF_RANGE | NOT_IN_SESSION)
}

//! `serial`: one event of each log in turn.

use crate::fault::Fault;
use crate::frames::{Frames, NoFrames, OwnTexts};
use crate::journal::JournalText;
use crate::log::{Event, Log};
use crate::server::Server;
use crate::setup::Setup;
use crate::text::{self, Pages};

/// The most entries of a journal that is kept.
pub const MOST_ENTRIES: u64 = 1_000_000;

/// The journal of a run whose stamps carry time, or don't.
type Kept<const TIMED: bool> = JournalText<Pages, TIMED>;

pub fn run(setup: &Setup, paths: &[String], only_journal: bool, stamps: bool) -> Result<(), Fault> {
    let (wanted, given) = (setup.testers.len(), paths.len());
    if wanted != given {
        return Err(Fault::Files { wanted, given });
    }
    if stamps {
        run_timed::<true>(setup, paths, only_journal)
    } else {
        run_timed::<false>(setup, paths, only_journal)
    }
}

fn run_timed<const TIMED: bool>(setup: &Setup, paths: &[String], only_journal: bool) -> Result<(), Fault> {
    let logs = open::<TIMED>(setup, paths)?;
    let journal: Kept<TIMED> = JournalText::new(Pages::default());
    if only_journal {
        let server = play(Server::new(setup, NoFrames, journal), logs)?;
        return text::print(server.journal.paper.all());
    }
    let mut server = play(Server::new(setup, OwnTexts::new(setup), journal), logs)?;
    let end = server.end_text(setup);
    text::print(server.frames.all().chain(server.journal.paper.all()).chain([end.as_bytes()]))
}

fn open<const TIMED: bool>(setup: &Setup, paths: &[String]) -> Result<Vec<Log>, Fault> {
    let mut logs = Vec::new();
    for (at, (tester, path)) in setup.testers.iter().zip(paths).enumerate() {
        match Log::open(at + 1, path, tester) {
            Ok(log) => logs.push(log),
            Err(fault) => return Err(file_fault::<TIMED>(&mut logs).unwrap_or(fault)),
        }
    }
    Ok(logs)
}

/// Plays all logs. A fault leaves nothing written: files are read before any is looked at, and all logs are looked at,
/// in their order, before the first event is taken.
fn play<F: Frames, const TIMED: bool>(
    mut server: Server<F, Kept<TIMED>>,
    mut logs: Vec<Log>,
) -> Result<Server<F, Kept<TIMED>>, Fault> {
    if take_turns(&mut server, &mut logs) {
        return Ok(server);
    }
    let in_lines = |logs: &mut Vec<Log>| logs.iter_mut().find_map(Log::line_fault::<TIMED>);
    Err(file_fault::<TIMED>(&mut logs).or_else(|| in_lines(&mut logs)).unwrap_or(Fault::JournalFull))
}

fn file_fault<const TIMED: bool>(logs: &mut [Log]) -> Option<Fault> {
    logs.iter_mut().find_map(Log::file_fault::<TIMED>)
}

/// Takes the events in rounds, one of every log that hasn't ended. False says that a log is at fault or the journal is
/// full.
fn take_turns<F: Frames, const TIMED: bool>(server: &mut Server<F, Kept<TIMED>>, logs: &mut [Log]) -> bool {
    let mut going: Vec<(usize, &mut Log)> = logs.iter_mut().enumerate().collect();
    while !going.is_empty() {
        let mut ended = false;
        for (who, log) in &mut going {
            match log.next::<TIMED>() {
                Some(Event::Frame { functional }) => server.frame(*who, functional, log.bytes()),
                Some(Event::Ticks(ticks)) => server.pass(*who, ticks as u64),
                None => ended = true,
            }
            if server.journal.entries() > MOST_ENTRIES {
                return false;
            }
        }
        if ended {
            if going.iter().any(|(_, log)| log.is_at_fault()) {
                return false;
            }
            going.retain(|(_, log)| !log.has_ended());
        }
    }
    true
}

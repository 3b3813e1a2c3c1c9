//! The faults of a run, each with its text and its status.

use crate::lines::LineFault;
use std::fmt::{self, Display, Formatter};

/// Files and testers are counted from 1, and file 0 is the setup.
#[derive(Clone)]
pub enum Fault {
    Usage,
    Files { wanted: usize, given: usize },
    Config(String),
    LogLine { log: usize, line: u64, fault: LineFault },
    LogLines(usize),
    LogEvents(usize),
    CaptureLine { line: u64, fault: LineFault },
    JournalLine(u64),
    Long(usize),
    JournalFull,
    Read(usize),
    Write,
    Differs(u64),
    Otherwise(String),
}

impl Fault {
    pub fn status(&self) -> u8 {
        match self {
            Fault::Usage | Fault::Files { .. } => 1,
            Fault::Config(_) => 2,
            Fault::LogLine { .. } | Fault::LogLines(_) | Fault::LogEvents(_) => 3,
            Fault::CaptureLine { .. } | Fault::JournalLine(_) | Fault::Long(_) => 3,
            Fault::JournalFull => 5,
            Fault::Read(_) | Fault::Write => 7,
            Fault::Differs(_) | Fault::Otherwise(_) => 8,
        }
    }
}

impl Display for Fault {
    fn fmt(&self, out: &mut Formatter) -> fmt::Result {
        match self {
            Fault::Usage => write!(out, "usage: uds_play COMMAND [FLAG..] CONFIG [FILE..]; see uds_play --help"),
            Fault::Files { wanted, given } => write!(out, "{wanted} files wanted, {given} given"),
            Fault::Config(what) => write!(out, "config: {what}"),
            Fault::LogLine { log, line, fault } => write!(out, "log {log} line {line}: {fault}"),
            Fault::LogLines(log) => write!(out, "log {log}: too many lines"),
            Fault::LogEvents(log) => write!(out, "log {log}: too many events"),
            Fault::CaptureLine { line, fault } => write!(out, "capture line {line}: {fault}"),
            Fault::JournalLine(line) => write!(out, "journal line {line}"),
            Fault::Long(file) => write!(out, "file {file}: too long"),
            Fault::JournalFull => write!(out, "journal full"),
            Fault::Read(file) => write!(out, "cannot read file {file}"),
            Fault::Write => write!(out, "cannot write"),
            Fault::Differs(entry) => write!(out, "entry {entry} differs"),
            Fault::Otherwise(what) => out.write_str(what),
        }
    }
}

impl Display for LineFault {
    fn fmt(&self, out: &mut Formatter) -> fmt::Result {
        out.write_str(match self {
            LineFault::BadLine => "bad line",
            LineFault::BadTick => "bad tick",
            LineFault::TooManyBytes => "too many bytes",
        })
    }
}

//! A plain twin of `uds_play`, for measuring only: it does what `uds_play serial`, `bus`, `verify` and `replay` do, byte
//! for byte, in ordinary Rust with the standard library alone. Nothing of it is proved, and nothing uses it but a
//! benchmark, which holds the program's speed and memory against it.
//!
//!     plain serial [--journal] [--stamps] CONFIG LOG..
//!     plain bus [--journal | --end] CONFIG [CAPTURE]
//!     plain verify CONFIG [CAPTURE]
//!     plain replay CONFIG JOURNAL
//!
//! Build it in this folder:
//!
//!     rustc -O -C target-cpu=x86-64 --edition 2021 main.rs -o plain
//!
//! Files are read by pieces, and each line is looked at once, where its event is used. What `serial` prints is kept
//! until all logs have ended well, for a fault leaves nothing written; what `bus` prints leaves as it comes. Left out
//! are `play`, `live`, `--help`, `--version` and notes, with or without `--quiet`, and of the setup's TOML what no setup
//! uses.

mod bus;
mod ecu;
mod fault;
mod feed;
mod frames;
mod hex;
mod journal;
mod lines;
mod link;
mod log;
mod replay;
mod serial;
mod server;
mod setup;
mod text;
mod verdict;

use fault::Fault;
use feed::{Feed, Limits};
use setup::Setup;
use std::fs::File;
use std::io::{self, Read};
use std::process::ExitCode;

/// The most bytes of a setup.
const CONFIG_BYTES: u64 = 1_048_576;

/// What a command does with its words.
type Job = fn(Words) -> Result<(), Fault>;

/// The words behind the command: its flags, of which each is given once at most, and its files.
struct Words {
    flags: Vec<String>,
    files: Vec<String>,
}

impl Words {
    /// Takes the words apart, or finds one that isn't among the command's.
    fn read(words: impl Iterator<Item = String>, known: &[&str]) -> Option<Words> {
        let mut all = Words { flags: Vec::new(), files: Vec::new() };
        let mut only_files = false;
        for word in words {
            if only_files || word == "-" || !word.starts_with('-') {
                all.files.push(word);
            } else if word == "--" {
                only_files = true;
            } else if known.contains(&word.as_str()) && !all.flags.contains(&word) {
                all.flags.push(word);
            } else {
                return None;
            }
        }
        (!all.files.is_empty()).then_some(all)
    }

    fn has(&self, flag: &str) -> bool {
        self.flags.iter().any(|it| it == flag)
    }

    /// Returns the setup's path.
    fn config(&self) -> &str {
        &self.files[0]
    }

    /// Returns the paths behind the setup's.
    fn others(&self) -> &[String] {
        &self.files[1..]
    }
}

fn read_setup(path: &str) -> Result<Setup, Fault> {
    let file = File::open(path).map_err(|_| Fault::Read(0))?;
    let mut text = Vec::new();
    file.take(CONFIG_BYTES + 1).read_to_end(&mut text).map_err(|_| Fault::Read(0))?;
    if text.len() as u64 > CONFIG_BYTES {
        return Err(Fault::Config("too long".into()));
    }
    Setup::read(&text).map_err(|what| Fault::Config(what.to_string()))
}

fn run_serial(words: Words) -> Result<(), Fault> {
    let setup = read_setup(words.config())?;
    serial::run(&setup, words.others(), words.has("--journal"), words.has("--stamps"))
}

fn run_bus(words: Words) -> Result<(), Fault> {
    let wanted = match (words.has("--journal"), words.has("--end")) {
        (true, true) => return Err(Fault::Usage),
        (true, false) => bus::Wanted::Journal,
        (false, true) => bus::Wanted::End,
        (false, false) => bus::Wanted::Replies,
    };
    follow(words, wanted)
}

fn run_verify(words: Words) -> Result<(), Fault> {
    follow(words, bus::Wanted::Verdict)
}

/// Follows a capture.
fn follow(words: Words, wanted: bus::Wanted) -> Result<(), Fault> {
    let source = match words.others() {
        [] => "-",
        [path] => path,
        _ => return Err(Fault::Usage),
    };
    let setup = read_setup(words.config())?;
    let reader: Box<dyn Read> = match source {
        "-" => Box::new(io::stdin().lock()),
        path => Box::new(File::open(path).map_err(|_| Fault::Read(1))?),
    };
    bus::run(&setup, Feed::new(reader, Limits { bytes: u64::MAX, line: bus::LINE_BYTES }), wanted)
}

fn run_replay(words: Words) -> Result<(), Fault> {
    let setup = read_setup(words.config())?;
    match words.others() {
        [path] => replay::run(&setup, path),
        others => Err(Fault::Files { wanted: 1, given: others.len() }),
    }
}

fn run() -> Result<(), Fault> {
    let words: Option<Vec<String>> = std::env::args_os().skip(1).map(|it| it.into_string().ok()).collect();
    let mut words = words.ok_or(Fault::Usage)?.into_iter();
    let (known, job): (&[&str], Job) = match words.next().as_deref() {
        Some("serial") => (&["--journal", "--stamps", "--quiet"], run_serial),
        Some("bus") => (&["--journal", "--end", "--quiet"], run_bus),
        Some("verify") => (&["--quiet"], run_verify),
        Some("replay") => (&["--quiet"], run_replay),
        _ => return Err(Fault::Usage),
    };
    job(Words::read(words, known).ok_or(Fault::Usage)?)
}

fn main() -> ExitCode {
    match run() {
        Ok(()) => ExitCode::SUCCESS,
        Err(fault) => {
            eprintln!("uds_play: {fault}");
            ExitCode::from(fault.status())
        }
    }
}

//! The setup file. Of TOML it takes what setups use: comments, tables and lists of tables, and keys with a whole number,
//! a truth value or a text on one line.

use crate::hex;
use crate::link;
use std::fmt::{self, Display, Formatter};

/// The functional identifier of a tester of 29 bits that has none of its own.
const WIDE_FUNCTIONAL: u32 = 0x18DB_33F1;

/// An identifier of 11 bits, or of 29.
#[derive(Clone, Copy, PartialEq, Eq, PartialOrd, Ord)]
pub enum Id {
    Short(u16),
    Wide(u32),
}

impl Display for Id {
    fn fmt(&self, out: &mut Formatter) -> fmt::Result {
        match self {
            Id::Short(it) => write!(out, "{it:03X}"),
            Id::Wide(it) => write!(out, "{it:08X}"),
        }
    }
}

/// The settings of a tester's link. Frames of up to 8 bytes are filled where `pad` says so, longer ones always. Frames to
/// testers by CAN FD have `tx_dl` bytes at most, and these flags.
pub struct Transport {
    pub block_size: u8,
    pub st_min: u8,
    pub max_request: usize,
    pub pad: bool,
    pub pad_byte: u8,
    pub tx_dl: usize,
    pub fd_flags: u8,
    pub n_bs_ms: u64,
    pub n_cr_ms: u64,
}

pub struct Tester {
    pub name: String,
    pub request: Id,
    pub response: Id,
    pub functional: Id,
    /// It talks by CAN FD.
    pub fd: bool,
}

#[derive(Clone)]
pub struct Did {
    pub id: u16,
    pub value: Vec<u8>,
    pub read_level: u8,
    pub write: bool,
    pub write_level: u8,
}

#[derive(Clone)]
pub struct Code {
    pub code: u32,
    pub status: u8,
}

#[derive(Clone)]
pub struct Routine {
    pub id: u16,
    pub time_ms: u64,
    pub result: Vec<u8>,
    pub level: u8,
    /// The code that gets a status at the end.
    pub sets: Option<Code>,
}

#[derive(Clone)]
pub struct Row {
    pub seed: Vec<u8>,
    pub key: Vec<u8>,
}

#[derive(Clone)]
pub struct Level {
    pub sub: u8,
    pub rows: Vec<Row>,
}

/// A setup in which every value is allowed; identifiers, codes, routines and levels rise.
pub struct Setup {
    pub p2_ms: u16,
    pub p2_star_10ms: u16,
    pub s3_ms: u64,
    pub transport: Transport,
    pub availability: u8,
    pub attempts: u8,
    pub delay_ms: u64,
    pub testers: Vec<Tester>,
    pub dids: Vec<Did>,
    pub codes: Vec<Code>,
    pub routines: Vec<Routine>,
    pub levels: Vec<Level>,
}

/// The faults of a setup. Values that are out of range are kept as a flag until all keys were looked at.
pub enum SetupFault {
    Syntax,
    Missing(&'static str),
    BadValue(&'static str),
    Range,
    Empty,
    Duplicate,
    UnknownCode,
    UnknownLevel,
}

impl Display for SetupFault {
    fn fmt(&self, out: &mut Formatter) -> fmt::Result {
        match self {
            SetupFault::Syntax => write!(out, "syntax"),
            SetupFault::Missing(key) => write!(out, "missing {key}"),
            SetupFault::BadValue(key) => write!(out, "bad value {key}"),
            SetupFault::Range => write!(out, "range"),
            SetupFault::Empty => write!(out, "empty"),
            SetupFault::Duplicate => write!(out, "duplicate"),
            SetupFault::UnknownCode => write!(out, "unknown code"),
            SetupFault::UnknownLevel => write!(out, "unknown level"),
        }
    }
}

// ---- TOML

enum Value {
    Number(i128),
    Truth(bool),
    Text(String),
    Tables(Vec<Table>),
}

#[derive(Default)]
struct Table {
    entries: Vec<(String, Value)>,
}

impl Table {
    fn get(&self, key: &str) -> Option<&Value> {
        self.entries.iter().find(|(own, _)| own == key).map(|(_, value)| value)
    }

    /// Puts a new row at the end of a list, which a path from here names.
    fn add_row(&mut self, path: &[&str]) -> Option<()> {
        let (key, rest) = path.split_first()?;
        if self.get(key).is_none() {
            self.entries.push((key.to_string(), Value::Tables(Vec::new())));
        }
        let rows = self.rows(key)?;
        if rest.is_empty() {
            rows.push(Table::default());
            return Some(());
        }
        rows.last_mut()?.add_row(rest)
    }

    fn rows(&mut self, key: &str) -> Option<&mut Vec<Table>> {
        self.entries.iter_mut().find_map(|(own, value)| match value {
            Value::Tables(rows) if own == key => Some(rows),
            _ => None,
        })
    }

    /// Returns the last row of a list.
    fn last(&mut self, path: &[&str]) -> Option<&mut Table> {
        path.iter().try_fold(self, |table, key| table.rows(key)?.last_mut())
    }
}

fn toml(text: &str) -> Option<Table> {
    let mut root = Table::default();
    let mut path: Vec<&str> = Vec::new();
    for line in text.lines() {
        let line = without_comment(line).trim();
        if line.is_empty() {
            continue;
        }
        if let Some(name) = line.strip_prefix("[[").and_then(|it| it.strip_suffix("]]")) {
            path = name.split('.').map(str::trim).collect();
            root.add_row(&path)?;
        } else {
            let (key, value) = line.split_once('=')?;
            let key = key.trim();
            let table = root.last(&path)?;
            let is_bare = !key.is_empty() && key.bytes().all(|it| it.is_ascii_alphanumeric() || b"_-".contains(&it));
            if !is_bare || table.get(key).is_some() {
                return None;
            }
            table.entries.push((key.to_string(), value_of(value.trim())?));
        }
    }
    Some(root)
}

fn without_comment(line: &str) -> &str {
    let mut quoted = false;
    for (at, it) in line.char_indices() {
        match it {
            '"' => quoted = !quoted,
            '#' if !quoted => return &line[..at],
            _ => {}
        }
    }
    line
}

fn value_of(text: &str) -> Option<Value> {
    match text {
        "true" => return Some(Value::Truth(true)),
        "false" => return Some(Value::Truth(false)),
        _ => {}
    }
    if let Some(inner) = text.strip_prefix('"').and_then(|it| it.strip_suffix('"')) {
        return (!inner.contains(['"', '\\'])).then(|| Value::Text(inner.to_string()));
    }
    let digits = text.replace('_', "");
    let number = match digits.strip_prefix("0x") {
        Some(hex) => i128::from_str_radix(hex, 16),
        None => digits.parse(),
    };
    number.ok().map(Value::Number)
}

// ---- keys

/// The keys of a table, whose full names begin with the list's; and whether a value was out of range.
struct Keys<'a> {
    table: &'a Table,
    out_of_range: bool,
}

impl<'a> Keys<'a> {
    fn of(table: &'a Table) -> Keys<'a> {
        Keys { table, out_of_range: false }
    }

    fn value(&self, name: &'static str) -> Option<&'a Value> {
        self.table.get(name.rsplit('.').next()?)
    }

    fn range(&mut self, allowed: bool) {
        self.out_of_range |= !allowed;
    }

    fn any_number(&mut self, name: &'static str) -> Result<Option<u32>, SetupFault> {
        match self.value(name) {
            None => Ok(None),
            Some(Value::Number(it)) => u32::try_from(*it).map(Some).map_err(|_| SetupFault::BadValue(name)),
            Some(_) => Err(SetupFault::BadValue(name)),
        }
    }

    fn number(&mut self, name: &'static str, least: u32, most: u32, default: Option<u32>) -> Result<u32, SetupFault> {
        let number = self.any_number(name)?.or(default).ok_or(SetupFault::Missing(name))?;
        self.range((least..=most).contains(&number));
        Ok(number)
    }

    /// Reads a level; one that no level can have becomes one that none has.
    fn level(&mut self, name: &'static str) -> Result<u8, SetupFault> {
        Ok(u8::try_from(self.any_number(name)?.unwrap_or(0)).unwrap_or(u8::MAX))
    }

    fn truth(&mut self, name: &'static str, default: bool) -> Result<bool, SetupFault> {
        match self.value(name) {
            None => Ok(default),
            Some(Value::Truth(it)) => Ok(*it),
            Some(_) => Err(SetupFault::BadValue(name)),
        }
    }

    fn text(&mut self, name: &'static str) -> Result<Option<&'a str>, SetupFault> {
        match self.value(name) {
            None => Ok(None),
            Some(Value::Text(it)) => Ok(Some(it)),
            Some(_) => Err(SetupFault::BadValue(name)),
        }
    }

    fn hex(&mut self, name: &'static str, least: usize, most: usize) -> Result<Vec<u8>, SetupFault> {
        let text = match self.text(name)? {
            Some(text) => text,
            None if least == 0 => "",
            None => return Err(SetupFault::Missing(name)),
        };
        let bytes = hex::read(text).ok_or(SetupFault::BadValue(name))?;
        self.range((least..=most).contains(&bytes.len()));
        Ok(bytes)
    }

    /// Reads the rows of a list, of which there may be so many.
    fn list<T>(
        &mut self,
        name: &'static str,
        most: usize,
        read: impl Fn(&mut Keys<'a>) -> Result<T, SetupFault>,
    ) -> Result<Vec<T>, SetupFault> {
        let tables: &'a [Table] = match self.value(name) {
            None => &[],
            Some(Value::Tables(tables)) => tables,
            Some(_) => return Err(SetupFault::BadValue(name)),
        };
        self.range(tables.len() <= most);
        let mut rows = Vec::new();
        for table in tables {
            let mut keys = Keys::of(table);
            rows.push(read(&mut keys)?);
            self.range(!keys.out_of_range);
        }
        Ok(rows)
    }
}

/// Reads a tester; `functional` is the setup's identifier for those of 11 bits.
fn tester(keys: &mut Keys, functional: u32) -> Result<Tester, SetupFault> {
    let name = keys.text("tester.name")?.ok_or(SetupFault::Missing("tester.name"))?;
    keys.range((1..=16).contains(&name.len()) && name.bytes().all(|it| it.is_ascii_alphanumeric() || it == b'_'));
    let request = keys.any_number("tester.request")?.ok_or(SetupFault::Missing("tester.request"))?;
    let response = keys.any_number("tester.response")?.ok_or(SetupFault::Missing("tester.response"))?;
    let wide = keys.truth("tester.extended", false)?;
    let own = keys.any_number("tester.functional")?;
    let fd = keys.truth("tester.fd", false)?;
    let functional = own.unwrap_or(if wide { WIDE_FUNCTIONAL } else { functional });
    let most = if wide { 0x1FFF_FFFF } else { 0x7FF };
    keys.range([request, response].into_iter().chain(own).all(|it| it <= most));
    let id = |number| if wide { Id::Wide(number) } else { Id::Short(number as u16) };
    Ok(Tester { name: name.to_string(), request: id(request), response: id(response), functional: id(functional), fd })
}

fn did(keys: &mut Keys) -> Result<Did, SetupFault> {
    Ok(Did {
        id: keys.number("did.id", 0, 0xFFFF, None)? as u16,
        value: keys.hex("did.value", 1, 255)?,
        read_level: keys.level("did.read_level")?,
        write: keys.truth("did.write", false)?,
        write_level: keys.level("did.write_level")?,
    })
}

fn code(keys: &mut Keys) -> Result<Code, SetupFault> {
    Ok(Code {
        code: keys.number("code.code", 0, 0xFF_FFFE, None)?,
        status: keys.number("code.status", 0, 255, None)? as u8,
    })
}

fn routine(keys: &mut Keys) -> Result<Routine, SetupFault> {
    Ok(Routine {
        id: keys.number("routine.id", 0, 0xFFFF, None)? as u16,
        time_ms: keys.number("routine.time_ms", 1, 600_000, None)? as u64,
        result: keys.hex("routine.result", 0, 32)?,
        level: keys.level("routine.level")?,
        sets: match keys.any_number("routine.code")? {
            Some(code) => Some(Code { code, status: keys.number("routine.status", 0, 255, None)? as u8 }),
            None => None,
        },
    })
}

fn row(keys: &mut Keys) -> Result<Row, SetupFault> {
    let seed = keys.hex("level.row.seed", 1, 16)?;
    keys.range(seed.iter().any(|&it| it != 0));
    Ok(Row { seed, key: keys.hex("level.row.key", 1, 16)? })
}

fn level(keys: &mut Keys) -> Result<Level, SetupFault> {
    let sub = keys.number("level.sub", 1, 65, None)? as u8;
    keys.range(sub % 2 == 1);
    let rows = keys.list("level.row", 64, row)?;
    let lengths = |it: &Row| (it.seed.len(), it.key.len());
    keys.range(rows.windows(2).all(|two| lengths(&two[0]) == lengths(&two[1])));
    Ok(Level { sub, rows })
}

impl Setup {
    /// Reads a setup, or finds its first fault.
    pub fn read(bytes: &[u8]) -> Result<Setup, SetupFault> {
        let text = std::str::from_utf8(bytes).map_err(|_| SetupFault::Syntax)?;
        let root = toml(text).ok_or(SetupFault::Syntax)?;
        let mut keys = Keys::of(&root);
        let mut setup = Setup::of(&mut keys)?;
        if keys.out_of_range {
            return Err(SetupFault::Range);
        }
        setup.sort();
        setup.check()?;
        Ok(setup)
    }

    fn of(keys: &mut Keys) -> Result<Setup, SetupFault> {
        let p2_ms = keys.number("p2_ms", 0, 0xFFFF, Some(50))? as u16;
        let p2_star_10ms = keys.number("p2_star_10ms", 0, 0xFFFF, Some(500))? as u16;
        let s3_ms = keys.number("s3_ms", 1, 600_000, Some(5000))? as u64;
        let transport = Setup::transport(keys)?;
        let availability = keys.number("availability", 0, 255, Some(255))? as u8;
        let functional = keys.number("functional", 0, 0x7FF, Some(0x7DF))?;
        Ok(Setup {
            p2_ms,
            p2_star_10ms,
            s3_ms,
            transport,
            availability,
            attempts: keys.number("attempts", 1, 255, Some(3))? as u8,
            delay_ms: keys.number("delay_ms", 1, 600_000, Some(10_000))? as u64,
            testers: keys.list("tester", 8, |keys| tester(keys, functional))?,
            dids: keys.list("did", 64, did)?,
            codes: keys.list("code", 256, code)?,
            routines: keys.list("routine", 16, routine)?,
            levels: keys.list("level", 4, level)?,
        })
    }

    fn transport(keys: &mut Keys) -> Result<Transport, SetupFault> {
        let n_bs_ms = keys.number("n_bs_ms", 1, 60_000, Some(1000))? as u64;
        let n_cr_ms = keys.number("n_cr_ms", 1, 60_000, Some(1000))? as u64;
        let block_size = keys.number("block_size", 0, 255, Some(0))? as u8;
        let st_min = keys.number("st_min", 0, 249, Some(0))? as u8;
        keys.range(matches!(st_min, 0..=127 | 241..=249));
        let max_request = keys.number("max_request", 8, 65_535, Some(4095))? as usize;
        let pad = keys.truth("pad", true)?;
        let pad_byte = keys.number("pad_byte", 0, 255, Some(0xCC))? as u8;
        let tx_dl = keys.number("tx_dl", 8, 64, Some(64))? as usize;
        keys.range(link::is_long(tx_dl) || tx_dl == 8);
        let fd_flags = keys.number("fd_flags", 0, 15, Some(1))? as u8;
        Ok(Transport { block_size, st_min, max_request, pad, pad_byte, tx_dl, fd_flags, n_bs_ms, n_cr_ms })
    }

    fn sort(&mut self) {
        self.dids.sort_by_key(|it| it.id);
        self.codes.sort_by_key(|it| it.code);
        self.routines.sort_by_key(|it| it.id);
        self.levels.sort_by_key(|it| it.sub);
    }

    fn check(&self) -> Result<(), SetupFault> {
        if self.testers.is_empty() || self.levels.iter().any(|it| it.rows.is_empty()) {
            return Err(SetupFault::Empty);
        }
        let ids = || self.testers.iter().flat_map(|it| [it.request, it.response]);
        let repeats = has_two(ids())
            || ids().any(|id| self.testers.iter().any(|it| it.functional == id))
            || self.testers.iter().any(|one| self.testers.iter().any(|it| it.functional == one.functional && it.fd != one.fd))
            || has_two(self.testers.iter().map(|it| &it.name))
            || has_two(self.dids.iter().map(|it| it.id))
            || has_two(self.codes.iter().map(|it| it.code))
            || has_two(self.routines.iter().map(|it| it.id))
            || has_two(self.levels.iter().map(|it| it.sub));
        if repeats {
            return Err(SetupFault::Duplicate);
        }
        let mut set = self.routines.iter().filter_map(|it| it.sets.as_ref());
        if set.any(|it| self.codes.iter().all(|own| own.code != it.code)) {
            return Err(SetupFault::UnknownCode);
        }
        let named = self.dids.iter().flat_map(|it| [it.read_level, it.write_level]);
        let mut named = named.chain(self.routines.iter().map(|it| it.level));
        if named.any(|it| it != 0 && self.levels.iter().all(|own| own.sub != it)) {
            return Err(SetupFault::UnknownLevel);
        }
        Ok(())
    }
}

fn has_two<T: Ord>(items: impl Iterator<Item = T>) -> bool {
    let mut items: Vec<T> = items.collect();
    items.sort();
    items.windows(2).any(|two| two[0] == two[1])
}

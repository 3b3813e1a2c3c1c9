//! Text on its way out.

use crate::fault::Fault;
use std::io::{self, Write};

/// The bytes of a page that leaves, and of one that is kept, which takes memory only as far as it is written on.
const PAGE: usize = 65_536;
const KEPT_PAGE: usize = 4 * PAGE;

/// What text is written on.
pub trait Paper {
    /// Returns room for so many bytes, or more, behind the text.
    fn room(&mut self, most: usize) -> &mut [u8];

    /// Says how many bytes of the room were written.
    fn take(&mut self, count: usize);

    fn put(&mut self, bytes: &[u8]) {
        self.room(bytes.len())[..bytes.len()].copy_from_slice(bytes);
        self.take(bytes.len());
    }
}

/// Pages that are kept until the end.
#[derive(Default)]
pub struct Pages {
    full: Vec<Vec<u8>>,
    page: Vec<u8>,
    used: usize,
}

impl Pages {
    /// Returns the text page by page.
    pub fn all(&self) -> impl Iterator<Item = &[u8]> {
        let last = &self.page[..self.used];
        self.full.iter().map(Vec::as_slice).chain([last])
    }

    #[cold]
    fn next_page(&mut self, most: usize) {
        let mut page = std::mem::replace(&mut self.page, vec![0; most.max(KEPT_PAGE)]);
        page.truncate(self.used);
        self.full.push(page);
        self.used = 0;
    }
}

impl Paper for Pages {
    #[inline]
    fn room(&mut self, most: usize) -> &mut [u8] {
        if self.page.len() - self.used < most {
            self.next_page(most);
        }
        &mut self.page[self.used..]
    }

    #[inline]
    fn take(&mut self, count: usize) {
        self.used += count;
    }
}

/// One page, which is written to standard output when it is full. The first write that fails is kept.
pub struct Outlet {
    page: Vec<u8>,
    used: usize,
    failed: bool,
}

impl Outlet {
    pub fn new() -> Outlet {
        Outlet { page: vec![0; PAGE], used: 0, failed: false }
    }

    /// Writes what stands on the page.
    pub fn leave(&mut self) -> Result<(), Fault> {
        self.empty();
        if self.failed {
            Err(Fault::Write)
        } else {
            Ok(())
        }
    }

    fn empty(&mut self) {
        self.failed |= print([&self.page[..self.used]]).is_err();
        self.used = 0;
    }

    #[cold]
    fn next_page(&mut self, most: usize) {
        self.empty();
        if self.page.len() < most {
            self.page.resize(most, 0);
        }
    }
}

impl Paper for Outlet {
    #[inline]
    fn room(&mut self, most: usize) -> &mut [u8] {
        if self.page.len() - self.used < most {
            self.next_page(most);
        }
        &mut self.page[self.used..]
    }

    #[inline]
    fn take(&mut self, count: usize) {
        self.used += count;
    }
}

/// Writes texts to standard output.
pub fn print<'a>(texts: impl IntoIterator<Item = &'a [u8]>) -> Result<(), Fault> {
    let mut out = io::stdout().lock();
    let write = || {
        texts.into_iter().try_for_each(|it| out.write_all(it))?;
        out.flush()
    };
    write().map_err(|_| Fault::Write)
}

/// The two digits of each number below 100.
const HUNDRED: [[u8; 2]; 100] = hundred();

const fn hundred() -> [[u8; 2]; 100] {
    let mut table = [[0; 2]; 100];
    let mut at = 0;
    while at < 100 {
        table[at] = [b'0' + (at / 10) as u8, b'0' + (at % 10) as u8];
        at += 1;
    }
    table
}

/// A number in decimal, with as many digits as it needs, or as are wanted at least.
pub struct Decimal {
    digits: [u8; 20],
    from: usize,
}

impl Decimal {
    #[inline]
    pub fn of(mut number: u64, least: usize) -> Decimal {
        let mut digits = [b'0'; 20];
        let mut from = 20;
        while number > 9 {
            from -= 2;
            digits[from..from + 2].copy_from_slice(&HUNDRED[(number % 100) as usize]);
            number /= 100;
        }
        if number > 0 {
            from -= 1;
            digits[from] = b'0' + number as u8;
        }
        Decimal { digits, from: from.min(20 - least) }
    }

    pub fn digits(&self) -> &[u8] {
        &self.digits[self.from..]
    }
}

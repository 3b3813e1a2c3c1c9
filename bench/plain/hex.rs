//! Hex digits by tables.

/// What stands for a byte that is no digit.
pub const NONE: u8 = 0xFF;

/// The value of each byte as a digit of either case, and as an upper-case one.
pub const DIGIT: [u8; 256] = digits(true);
pub const UPPER_DIGIT: [u8; 256] = digits(false);

/// The value of each byte as the higher and as the lower one of two digits; above 0xFF where it is none.
const HIGH: [u16; 256] = places(16);
const LOW: [u16; 256] = places(1);

/// The two upper-case digits of each byte.
const PAIR: [[u8; 2]; 256] = pairs();

const fn digits(lower: bool) -> [u8; 256] {
    let mut table = [NONE; 256];
    let mut at = 0;
    while at < 256 {
        let byte = at as u8;
        table[at] = match byte {
            b'0'..=b'9' => byte - b'0',
            b'A'..=b'F' => byte - b'A' + 10,
            b'a'..=b'f' if lower => byte - b'a' + 10,
            _ => NONE,
        };
        at += 1;
    }
    table
}

const fn places(weight: u16) -> [u16; 256] {
    let mut table = [0x100; 256];
    let mut at = 0;
    while at < 256 {
        if DIGIT[at] != NONE {
            table[at] = DIGIT[at] as u16 * weight;
        }
        at += 1;
    }
    table
}

const fn pairs() -> [[u8; 2]; 256] {
    let digits = b"0123456789ABCDEF";
    let mut table = [[0; 2]; 256];
    let mut at = 0;
    while at < 256 {
        table[at] = [digits[at >> 4], digits[at & 15]];
        at += 1;
    }
    table
}

/// Writes the bytes by two digits each, as far as there is room.
#[inline]
pub fn write(bytes: &[u8], room: &mut [u8]) {
    for (pair, byte) in room.chunks_exact_mut(2).zip(bytes) {
        pair.copy_from_slice(&PAIR[*byte as usize]);
    }
}

/// Reads bytes of two digits each, of either case, as far as there are such and there is room, and returns how many.
#[inline(always)]
pub fn read_front(text: &[u8], room: &mut [u8]) -> usize {
    let mut count = 0;
    for (pair, byte) in text.chunks_exact(2).zip(room) {
        let value = HIGH[pair[0] as usize] | LOW[pair[1] as usize];
        if value > 0xFF {
            break;
        }
        *byte = value as u8;
        count += 1;
    }
    count
}

/// The same for up to 64 bytes: behind the first eight, eight at once as long as there are so many.
#[inline(always)]
pub fn read_long_front(text: &[u8], room: &mut [u8; 64]) -> usize {
    let count = read_front(text, &mut room[..8]);
    if count < 8 {
        return count;
    }
    count + read_eights(&text[16..], &mut room[8..])
}

#[inline(never)]
fn read_eights(text: &[u8], room: &mut [u8]) -> usize {
    let mut count = 0;
    for (digits, bytes) in text.chunks_exact(16).zip(room.chunks_exact_mut(8)) {
        let values: [u16; 8] = std::array::from_fn(|at| HIGH[digits[2 * at] as usize] | LOW[digits[2 * at + 1] as usize]);
        if values.iter().fold(0, |all, it| all | it) > 0xFF {
            break;
        }
        bytes.iter_mut().zip(values).for_each(|(byte, value)| *byte = value as u8);
        count += 8;
    }
    count + read_front(&text[2 * count..], &mut room[count..])
}

/// Returns the bytes of a whole text of digits.
pub fn read(text: &str) -> Option<Vec<u8>> {
    let pairs = text.as_bytes().chunks(2);
    pairs
        .map(|pair| match *pair {
            [high, low] => byte_of(&DIGIT, high, low),
            _ => None,
        })
        .collect()
}

/// Returns the byte of two digits of a table.
#[inline]
pub fn byte_of(table: &[u8; 256], high: u8, low: u8) -> Option<u8> {
    let (high, low) = (table[high as usize], table[low as usize]);
    ((high | low) < 16).then_some(high << 4 | low)
}

/// Returns what stands behind the digits of the bytes, or None where a text doesn't begin with them.
#[inline]
pub fn strip<'a>(text: &'a [u8], bytes: &[u8]) -> Option<&'a [u8]> {
    let (front, rest) = text.split_at_checked(2 * bytes.len())?;
    let pairs = front.chunks_exact(2).zip(bytes);
    pairs.into_iter().all(|(pair, byte)| *pair == PAIR[*byte as usize]).then_some(rest)
}

//! Blocks, read. What fields can take of a block is its first 36 bytes; of an acceptable one all others but the checksum are zero,
//! and add nothing to the sum. So only a block that is refused is summed whole. `fast_lister` has this file too, without the
//! standard library.

use super::{refused, refused_at, Refusal};

pub type Block = [u8; 512];

/// So many labels, key and value in 16 bits each, and then zeros.
pub struct Part<const N: usize> {
    pub count: usize,
    pub labels: [u32; N],
}

pub enum Entry {
    Container(Part<8>),
    /// Its direction, the select part, the allow part.
    Policy(u8, Part<4>, Part<4>),
}

/// User key, system key and system value.
pub struct Settings {
    pub user: u8,
    pub key: u8,
    pub value: u16,
}

fn word(b: &Block, k: usize) -> u64 {
    u64::from_le_bytes(b.as_chunks().0[k])
}

/// Whether the bytes from 36 to 509 are zero.
fn is_front(b: &Block) -> bool {
    (5..63).fold(word(b, 4) >> 32 | word(b, 63) << 16, |x, k| x | word(b, k)) == 0
}

/// The checksum where these bytes are zero, from five words: four bytes at even places and four at odd ones side by side, each in 16
/// bits, in which the sums over the words and the sums of these find room.
fn front_checksum(b: &Block) -> u16 {
    const BYTES: u64 = 0x00ff_00ff_00ff_00ff;
    let (mut even, mut odd, mut evens, mut odds) = (0, 0, 0, 0);
    for k in 0..5 {
        (evens, odds) = (evens + even, odds + odd);
        (even, odd) = (even + (word(b, k) & BYTES), odd + (word(b, k) >> 8 & BYTES));
    }
    let sum = |x: u64| x.wrapping_mul(0x0001_0001_0001_0001) >> 48;
    // the four of them times 0, 1, 2 and 3
    let by_place = |x: u64| x.wrapping_mul(0x0000_0001_0002_0003) >> 48;
    let by_word = 4 * (sum(even) + sum(odd)) - (sum(evens) + sum(odds));
    ((8 * by_word + 2 * (by_place(even) + by_place(odd)) + sum(even) + 2 * sum(odd)) % 65521) as u16
}

/// A byte's factor in the sum: 0 for those of the checksum itself.
const FACTORS: [i16; 512] = {
    let (mut factors, mut i) = ([0; 512], 0);
    while i < 510 {
        factors[i] = i as i16 + 1;
        i += 1;
    }
    factors
};

/// The checksum of any block: bytes and factors of 16 bits are multiplied and added in pairs by one instruction.
fn checksum(b: &Block) -> u16 {
    let mut sum = 0;
    for (bytes, factors) in b.as_chunks::<16>().0.iter().zip(FACTORS.as_chunks::<16>().0) {
        let bytes = bytes.map(i16::from);
        sum += (0..16).map(|i| i32::from(bytes[i]) * i32::from(factors[i])).sum::<i32>();
    }
    (sum as u32 % 65521) as u16
}

fn stored(b: &Block) -> u16 {
    u16::from_be_bytes([b[510], b[511]])
}

/// Eight labels, or what stands in their place.
fn labels(b: &Block) -> [u32; 8] {
    core::array::from_fn(|k| u32::from_be_bytes([b[4 + 4 * k], b[5 + 4 * k], b[6 + 4 * k], b[7 + 4 * k]]))
}

pub const fn key(label: u32) -> u32 {
    label >> 16
}

const fn value(label: u32) -> u32 {
    label & 0xffff
}

/// Whether the first n are a list of labels and the others zero. All are looked at alike, a bit or more for each fault: that a word
/// past the count is not zero; else the sign of what is below zero.
fn is_list<const N: usize>(words: &[u32; N], n: usize) -> bool {
    let mut faults = 0;
    for k in 0..N {
        let (w, last) = (words[k], if k == 0 { 0 } else { key(words[k - 1]) });
        let used = if k < n { u32::MAX } else { 0 };
        let below = (value(w).wrapping_sub(1) | key(w).wrapping_sub(last + 1) | 64u32.wrapping_sub(key(w))) >> 31;
        faults |= w & !used | below & used;
    }
    faults == 0 && n <= N
}

fn container(b: &Block) -> Option<Entry> {
    let part = Part { count: usize::from(b[1]), labels: labels(b) };
    (is_list(&part.labels, part.count) && b[2] | b[3] == 0).then_some(Entry::Container(part))
}

fn policy(b: &Block) -> Option<Entry> {
    let (s, a, all) = (usize::from(b[2]), usize::from(b[3]), labels(b));
    if s > 4 || a > 4 || b[1] == 0 || b[1] > 2 {
        return None;
    }
    let mut from = [0; 12];
    from[..8].copy_from_slice(&all);
    let select = Part { count: s, labels: core::array::from_fn(|k| if k < s { from[k] } else { 0 }) };
    let allow = Part { count: a, labels: core::array::from_fn(|k| if k < a { from[s + k] } else { 0 }) };
    let rest = (0..8).fold(0, |x, k| x | if k < s + a { 0 } else { all[k] });
    (is_list(&select.labels, s) & is_list(&allow.labels, a) & (rest == 0)).then_some(Entry::Policy(b[1], select, allow))
}

/// The entry of a block, if it is acceptable.
fn accepted(b: &Block) -> Option<Entry> {
    if !is_front(b) || stored(b) != front_checksum(b) {
        return None;
    }
    match b[0] {
        67 => container(b),
        80 => policy(b),
        _ => None,
    }
}

/// The lowest byte from one on that is not zero, where there is such a byte.
fn lowest(b: &Block, from: usize) -> usize {
    let (mut k, mut w) = (from / 8, word(b, from / 8) & u64::MAX << (8 * (from % 8)));
    while w == 0 {
        k += 1;
        w = word(b, k);
    }
    8 * k + w.trailing_zeros() as usize / 8
}

/// The refusal of a block that is not acceptable: the first that applies.
fn fault(b: &Block) -> Refusal {
    if stored(b) != checksum(b) {
        return refused_at(4, 510);
    }
    let (first, second) = match b[0] {
        67 if b[1] > 8 => return refused_at(6, 1),
        67 => (b[1], 0),
        80 if b[1] == 0 || b[1] > 2 => return refused_at(6, 1),
        80 if b[2] > 4 => return refused_at(6, 2),
        80 if b[3] > 4 => return refused_at(6, 3),
        80 => (b[2], b[3]),
        _ => return refused(5),
    };
    let (first, count) = (usize::from(first), usize::from(first + second));
    let (all, mut falls) = (labels(b), None);
    for (k, label) in all[..count].iter().enumerate() {
        let at = 4 + 4 * k;
        if key(*label) == 0 || key(*label) > 64 {
            return refused_at(7, at);
        }
        if value(*label) == 0 {
            return refused_at(7, at + 2);
        }
        if k != 0 && k != first && key(*label) <= key(all[k - 1]) {
            falls = falls.or(Some(at));
        }
    }
    match falls {
        Some(at) => refused_at(8, at),
        None if b[0] == 67 && b[2] | b[3] != 0 => refused_at(9, lowest(b, 2)),
        None => refused_at(9, lowest(b, 4 + 4 * count)),
    }
}

#[inline]
pub fn read_entry(b: &[u8]) -> Result<Entry, Refusal> {
    let b: &Block = b.try_into().map_err(|_| refused(3))?;
    accepted(b).ok_or_else(|| fault(b))
}

pub fn read_settings(b: &[u8]) -> Result<Settings, Refusal> {
    let b: &Block = b.try_into().map_err(|_| refused(3))?;
    let front = is_front(b);
    if stored(b) != if front { front_checksum(b) } else { checksum(b) } {
        return Err(refused_at(4, 510));
    }
    if b[0] != 83 {
        return Err(refused(5));
    }
    let (user, key, value) = (b[1], b[2], u16::from_be_bytes([b[4], b[5]]));
    if user == 0 || user > 64 {
        return Err(refused_at(7, 1));
    }
    if key > 64 {
        return Err(refused_at(7, 2));
    }
    if (key == 0) != (value == 0) {
        return Err(refused_at(7, 4));
    }
    if b[3] != 0 {
        return Err(refused_at(9, 3));
    }
    if !front || b[6..36].iter().any(|x| *x != 0) {
        return Err(refused_at(9, lowest(b, 6)));
    }
    Ok(Settings { user, key, value })
}

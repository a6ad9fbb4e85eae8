//! Random blocks, calls and memories. Few keys and values, so that labels often agree.

use crate::answers::{outcome, Finding, Tally};
use crate::bytes::{self, Pair, EGRESS, INGRESS};
use crate::c;
use crate::layout::{CONTAINERS, CONTAINER_SLOTS, POLICIES, POLICY_SLOTS, SETTINGS_WORDS, WORDS};
use crate::random::Random;
use crate::reference::{Call, Register};
use std::ops::RangeInclusive;

/// So many of the keys 1 to `keys`, in rising order, each with one of `values` values.
pub fn labels(r: &mut Random, n: RangeInclusive<u64>, keys: u64, values: u64) -> Vec<Pair> {
    let (least, most) = n.into_inner();
    let n = if least == most { least } else { least + r.below(most - least + 1) };
    let mut all: Vec<u16> = (1..=keys as u16).collect();
    while all.len() as u64 > n {
        all.remove(r.below(all.len() as u64) as usize);
    }
    all.into_iter().map(|k| (k, 1 + r.below(values) as u16)).collect()
}

pub fn container(r: &mut Random) -> Vec<u8> {
    bytes::container(&labels(r, 0..=5, 5, 3))
}

pub fn policy(r: &mut Random) -> Vec<u8> {
    bytes::policy(*r.pick(&[INGRESS, EGRESS]), &labels(r, 0..=2, 5, 3), &labels(r, 0..=2, 5, 3))
}

pub fn settings(r: &mut Random) -> Vec<u8> {
    if r.once_in(3) {
        bytes::settings(1 + r.below(5) as u8, 0, 0)
    } else {
        bytes::settings(1 + r.below(5) as u8, 1 + r.below(5) as u8, 1 + r.below(3) as u16)
    }
}

/// A block with faults: bytes changed, counts and kinds out of limits, a wrong length; sealed again or not.
pub fn damaged(r: &mut Random) -> Vec<u8> {
    let mut block = match r.below(3) {
        0 => settings(r),
        1 => container(r),
        _ => policy(r),
    };
    for _ in 0..=r.below(3) {
        let at = match r.below(4) {
            0 => r.below(4),
            1 => r.below(24),
            2 => 4 + r.below(40),
            _ => r.below(512),
        };
        block[at as usize] = *r.pick(&[0, 1, 2, 3, 4, 5, 8, 9, 64, 65, 67, 79, 80, 83, 255]);
    }
    if !r.once_in(4) {
        bytes::seal(&mut block);
    }
    if r.once_in(10) {
        block.resize(*r.pick(&[0, 1, 100, 510, 511, 513, 1024]), 0);
    }
    block
}

fn slot(r: &mut Random) -> u64 {
    match r.below(12) {
        0 => *r.pick(&[127, 128, 255, 256, 257, 1 << 16, 1 << 32, u64::MAX]),
        1 => r.below(256),
        _ => r.below(14),
    }
}

/// Any three numbers, more often such as a finding has.
pub fn cursor(r: &mut Random) -> Finding {
    let any = |r: &mut Random| if r.once_in(6) { r.below(65536) as u16 } else { r.below(12) as u16 };
    let kind = if r.once_in(12) { r.below(65536) } else { r.below(9) };
    (kind as u16, any(r), any(r))
}

/// Lengths of lists for findings.
pub const LISTS: [usize; 7] = [0, 1, 2, 255, 256, 257, 70_000];

pub fn findings(r: &mut Random, n: usize) -> Call {
    Call::Findings(cursor(r), r.words(n))
}

/// A buffer for a file: of as many bytes as a file of some entries has, or about that, or of none, or of more than any file has.
fn buffer(r: &mut Random) -> Vec<u8> {
    let blocks = 512 * (1 + r.below(24) as usize);
    let n = *r.pick(&[blocks, blocks, blocks - 1, blocks + 1, blocks + 300, 0, 200_000]);
    r.bytes(n)
}

/// So many blocks to admit, of eight one with faults.
pub fn batch(r: &mut Random, blocks: usize) -> Vec<u8> {
    let mut all = vec![];
    for i in 1..=blocks {
        all.extend(match r.below(8) {
            0 => damaged(r),
            1..=3 => policy(r),
            _ => container(r),
        });
        all.resize(512 * i, 0);
    }
    all
}

/// Counts at which a tally stays, near that, and any.
pub fn tally(r: &mut Random) -> Tally {
    let mut count = || match r.below(4) {
        0 => u64::MAX,
        1 => u64::MAX - r.below(8),
        2 => r.below(8),
        _ => r.number(),
    };
    Tally { taken: count(), refused: count() }
}

/// A batch of a few blocks, once in eight of a length that is no whole number of them. The list is long enough, or one short.
fn admit_batch(r: &mut Random) -> Call {
    let n = r.below(7) as usize;
    let mut bytes = batch(r, n);
    if r.once_in(8) {
        bytes.resize(512 * n + 1 + r.below(511) as usize, 0);
    }
    let room = *r.pick(&[2 * n, 2 * n, 2 * n + 1, 2 * n + 5, (2 * n).saturating_sub(1)]);
    Call::AdmitBatch(bytes, r.numbers(room), tally(r))
}

pub fn call(r: &mut Random) -> Call {
    match r.below(36) {
        0..=8 => Call::Admit(container(r)),
        9..=13 => Call::Admit(policy(r)),
        14 | 31 => Call::Admit(damaged(r)),
        15 | 16 => Call::RemoveContainer(slot(r)),
        17 | 18 => Call::RemovePolicy(slot(r)),
        19 | 20 => Call::Reaches(slot(r), slot(r)),
        21 | 22 => Call::CarriesUser(slot(r), *r.pick(&[0, 1, 2, 3, 4, 65535, 65536, 65537, 131073, u64::MAX])),
        23 | 24 => Call::NextFinding(cursor(r)),
        25 => Call::Counts,
        26 => Call::Rebuild,
        27 => Call::Audit,
        28 => Call::Open(if r.once_in(3) { settings(r) } else { damaged(r) }),
        32 | 33 => Call::Write(buffer(r)),
        34 | 35 => admit_batch(r),
        _ => {
            let n = if r.once_in(3) { *r.pick(&LISTS) } else { r.below(40) as usize };
            findings(r, n)
        }
    }
}

pub fn calls(r: &mut Random, n: usize) -> Vec<Call> {
    (0..n).map(|_| call(r)).collect()
}

// ---- memories

/// A memory that random admissions and removals made, in step.
pub fn memory(r: &mut Random, entries: usize) -> Vec<u64> {
    let mut m = vec![0; WORDS];
    assert_eq!(outcome(c::open(&mut m, &settings(r))), Ok(0));
    for _ in 0..entries {
        let block = if r.once_in(3) { policy(r) } else { container(r) };
        c::admit(&mut m, &block);
        if r.once_in(6) {
            c::remove_container(&mut m, r.below(12));
        }
        if r.once_in(9) {
            c::remove_policy(&mut m, r.below(6));
        }
    }
    m
}

/// Stored bits of standing entries changed at random: well formed still, and seldom in step.
pub fn disordered(r: &mut Random, memory: &[u64]) -> Vec<u64> {
    let mut register = Register::decode(memory).expect("a well-formed memory");
    let cs: Vec<usize> = (0..CONTAINER_SLOTS).filter(|c| register.containers[*c].is_some()).collect();
    let ps: Vec<usize> = (0..POLICY_SLOTS).filter(|q| register.policies[*q].is_some()).collect();
    for _ in 0..r.below(40) {
        if cs.is_empty() {
            break;
        }
        let (a, b) = (*r.pick(&cs), *r.pick(&cs));
        let kind = if ps.is_empty() { 0 } else { r.below(3) };
        let row = if kind == 0 { a } else { *r.pick(&ps) };
        let bits = match kind {
            0 => &mut register.matrix,
            1 => &mut register.selected,
            _ => &mut register.allowed,
        };
        bits.set(row, b, !bits.get(row, b));
    }
    register.encode()
}

pub fn in_step_or_not(r: &mut Random, entries: usize) -> Vec<u64> {
    let m = memory(r, entries);
    if r.once_in(2) {
        disordered(r, &m)
    } else {
        m
    }
}

/// A bit or two changed, anywhere or where entries stand.
pub fn flip(r: &mut Random, m: &mut [u64]) {
    for _ in 0..=r.below(2) {
        let at = match r.below(5) {
            0 => r.below(SETTINGS_WORDS as u64),
            1 => CONTAINERS as u64 + r.below(120),
            2 => POLICIES as u64 + r.below(60),
            _ => r.below(WORDS as u64),
        };
        let bits = if r.once_in(2) { 3 } else { 64 };
        m[at as usize] ^= 1 << r.below(bits);
    }
}

pub const OTHER_SIZES: [usize; 7] = [0, 1, 3, 100, WORDS - 1, WORDS + 1, 2 * WORDS];

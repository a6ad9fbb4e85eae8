//! What lister has to write, by documents 01 and 02, and inputs for it.

use crate::answers::{refused, Refusal};
use crate::bytes::{self, container, policy, settings, EGRESS, INGRESS};
use crate::cases;
use crate::random::Random;
use crate::reference::{read_entry, read_settings, Entry, Register};
use std::fmt::Write;

/// The entry at the lowest free slot of its table; the bits come later.
fn put(r: &mut Register, block: &[u8]) -> Result<(), Refusal> {
    match read_entry(block)? {
        Entry::Container(x) => *r.containers.iter_mut().find(|slot| slot.is_none()).ok_or(refused(12))? = Some(x),
        Entry::Policy(p) => *r.policies.iter_mut().find(|slot| slot.is_none()).ok_or(refused(12))? = Some(p),
    }
    Ok(())
}

/// The whole sheet for these bytes.
pub fn expected(input: &[u8]) -> String {
    let mut blocks = input.chunks(512);
    let mut r = match read_settings(blocks.next().unwrap_or(&[])) {
        Ok(settings) => Register::opened(settings),
        Err(Refusal { number, position }) => return format!("REFUSED 1 {number} {position}\n"),
    };
    let mut written = String::new();
    for (i, block) in blocks.enumerate() {
        if let Err(Refusal { number, position }) = put(&mut r, block) {
            writeln!(written, "REFUSED {} {number} {position}", i + 2).unwrap();
        }
    }
    r.rebuild();
    let (containers, policies) = (r.containers.iter().flatten().count(), r.policies.iter().flatten().count());
    writeln!(written, "CONTAINERS {containers} POLICIES {policies} PAIRS {}", r.pairs()).unwrap();
    for (k, a, b) in r.findings() {
        writeln!(written, "{k} {a} {b}").unwrap();
    }
    written
}

/// The refusals among its lines.
pub fn refusals(input: &[u8]) -> String {
    expected(input).split_inclusive('\n').filter(|line| line.starts_with("REFUSED ")).collect()
}

/// The blocks of document 01's printed sheet.
pub fn printed() -> Vec<u8> {
    [
        settings(1, 2, 9),
        container(&[(1, 11), (3, 1)]),
        container(&[(1, 11), (3, 2)]),
        container(&[(1, 12), (3, 1)]),
        container(&[(1, 99), (2, 9)]),
        policy(INGRESS, &[(3, 2)], &[(3, 1)]),
        policy(INGRESS, &[(1, 11), (3, 2)], &[(1, 11), (3, 1)]),
        policy(EGRESS, &[(3, 2)], &[(1, 13)]),
    ]
    .concat()
}

/// Where they are stored, and the sheet.
pub const PRINTED_BLOCKS: &str = concat!(env!("CARGO_MANIFEST_DIR"), "/../examples/printed-sheet.blocks");
pub const PRINTED: &str = "\
CONTAINERS 4 POLICIES 3 PAIRS 12
3 0 2
3 0 3
3 2 0
3 2 1
3 2 3
3 3 0
3 3 2
4 3 1
5 1 0
7 2 1
";

/// Containers without a label and no policy: each is open to all, and a stranger to all others.
pub fn strangers(n: usize) -> Vec<u8> {
    [settings(1, 0, 0), container(&[]).repeat(n)].concat()
}

/// A block that is refused with 4.
pub fn spoiled() -> Vec<u8> {
    bytes::spoiled(container(&[(1, 1)]))
}

/// Settings and random blocks, so many in all, of which the last may be short. Of 16 entries so many are valid, and of ten openings
/// one may be refused.
pub fn random(r: &mut Random, blocks: usize, valid: u64) -> Vec<u8> {
    let mut input = vec![];
    for i in 0..blocks {
        let good = if i == 0 { !r.once_in(10) } else { r.below(16) < valid };
        let mut block = match r.below(3) {
            _ if !good => cases::damaged(r),
            _ if i == 0 => cases::settings(r),
            0 => cases::policy(r),
            _ => cases::container(r),
        };
        block.resize(512, 0);
        input.extend(block);
    }
    if r.once_in(3) {
        input.truncate(input.len() - input.len().min(r.below(512) as usize));
    }
    input
}

//! The C interface, as include/bihokura.h declares it, behind safe functions.

use crate::answers::{Finding, Tally};

extern "C" {
    fn bihokura_words() -> u64;
    fn bihokura_open(memory: *mut u64, words: usize, block: *const u8, len: usize) -> u64;
    fn bihokura_admit(memory: *mut u64, words: usize, block: *const u8, len: usize) -> u64;
    fn bihokura_remove_container(memory: *mut u64, words: usize, slot: u64) -> u64;
    fn bihokura_remove_policy(memory: *mut u64, words: usize, slot: u64) -> u64;
    fn bihokura_reaches(memory: *const u64, words: usize, a: u64, b: u64) -> u64;
    fn bihokura_carries_user(memory: *const u64, words: usize, slot: u64, value: u64) -> u64;
    fn bihokura_next_finding(memory: *const u64, words: usize, kind: u16, a: u16, b: u16) -> u64;
    fn bihokura_findings(memory: *const u64, words: usize, kind: u16, a: u16, b: u16, list: *mut u64, numbers: usize) -> u64;
    fn bihokura_counts(memory: *const u64, words: usize) -> u64;
    fn bihokura_rebuild(memory: *mut u64, words: usize) -> u64;
    fn bihokura_audit(memory: *const u64, words: usize) -> u64;
    fn bihokura_write(memory: *const u64, words: usize, bytes: *mut u8, length: usize) -> u64;
    fn bihokura_admit_batch(
        memory: *mut u64,
        words: usize,
        blocks: *const u8,
        length: usize,
        answers: *mut u16,
        numbers: usize,
        tally: *mut Tally,
    ) -> u64;
}

pub fn words() -> usize {
    unsafe { bihokura_words() as usize }
}

pub fn open(memory: &mut [u64], block: &[u8]) -> u64 {
    unsafe { bihokura_open(memory.as_mut_ptr(), memory.len(), block.as_ptr(), block.len()) }
}

pub fn admit(memory: &mut [u64], block: &[u8]) -> u64 {
    unsafe { bihokura_admit(memory.as_mut_ptr(), memory.len(), block.as_ptr(), block.len()) }
}

pub fn remove_container(memory: &mut [u64], slot: u64) -> u64 {
    unsafe { bihokura_remove_container(memory.as_mut_ptr(), memory.len(), slot) }
}

pub fn remove_policy(memory: &mut [u64], slot: u64) -> u64 {
    unsafe { bihokura_remove_policy(memory.as_mut_ptr(), memory.len(), slot) }
}

pub fn reaches(memory: &[u64], a: u64, b: u64) -> u64 {
    unsafe { bihokura_reaches(memory.as_ptr(), memory.len(), a, b) }
}

pub fn carries_user(memory: &[u64], slot: u64, value: u64) -> u64 {
    unsafe { bihokura_carries_user(memory.as_ptr(), memory.len(), slot, value) }
}

pub fn next_finding(memory: &[u64], (kind, a, b): Finding) -> u64 {
    unsafe { bihokura_next_finding(memory.as_ptr(), memory.len(), kind, a, b) }
}

pub fn findings(memory: &[u64], (kind, a, b): Finding, list: &mut [u64]) -> u64 {
    unsafe { bihokura_findings(memory.as_ptr(), memory.len(), kind, a, b, list.as_mut_ptr(), list.len()) }
}

pub fn counts(memory: &[u64]) -> u64 {
    unsafe { bihokura_counts(memory.as_ptr(), memory.len()) }
}

pub fn rebuild(memory: &mut [u64]) -> u64 {
    unsafe { bihokura_rebuild(memory.as_mut_ptr(), memory.len()) }
}

pub fn audit(memory: &[u64]) -> u64 {
    unsafe { bihokura_audit(memory.as_ptr(), memory.len()) }
}

pub fn write(memory: &[u64], bytes: &mut [u8]) -> u64 {
    unsafe { bihokura_write(memory.as_ptr(), memory.len(), bytes.as_mut_ptr(), bytes.len()) }
}

pub fn admit_batch(memory: &mut [u64], blocks: &[u8], answers: &mut [u16], tally: &mut Tally) -> u64 {
    let (words, length, numbers) = (memory.len(), blocks.len(), answers.len());
    unsafe { bihokura_admit_batch(memory.as_mut_ptr(), words, blocks.as_ptr(), length, answers.as_mut_ptr(), numbers, tally) }
}

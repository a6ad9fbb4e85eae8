//! The numbers that the calls of the C interface answer, made and read: the refusal's number in the top byte, 0 where the call
//! was accepted, and below it what the call answers, or the position at fault.

pub use crate::refusal::{refused, refused_at, Refusal};

const NUMBER: u32 = 56;

/// What an accepted call answered, or its refusal. Of a refusal all that is below the number is the position, so that no bit is lost.
pub fn outcome(answer: u64) -> Result<u64, Refusal> {
    match answer >> NUMBER {
        0 => Ok(answer),
        number => Err(refused_at(number, (answer - (number << NUMBER)) as usize)),
    }
}

pub fn answer(outcome: Result<u64, Refusal>) -> u64 {
    outcome.unwrap_or_else(|refusal| (refusal.number << NUMBER) + refusal.position as u64)
}

/// A block's two numbers in the list of a batch: 0 and the slot, or the refusal's number and the position.
pub fn pair(outcome: Result<u64, Refusal>) -> [u16; 2] {
    match outcome {
        Ok(slot) => [0, slot as u16],
        Err(refusal) => [refusal.number as u16, refusal.position as u16],
    }
}

/// Kind, a and b.
pub type Finding = (u16, u16, u16);

/// Where a walk begins.
pub const START: Finding = (0, 0, 0);

pub fn code((kind, a, b): Finding) -> u64 {
    (u64::from(kind) << 32) + (u64::from(a) << 16) + u64::from(b)
}

/// The finding of a code; the start, where there is none.
pub fn finding(code: u64) -> Finding {
    ((code >> 32) as u16, (code >> 16) as u16, code as u16)
}

pub const fn counted(containers: u64, policies: u64, pairs: u64) -> u64 {
    containers + (policies << 16) + (pairs << 32)
}

/// Standing containers, standing policies and PAIRS.
pub const fn counts(answer: u64) -> (u64, u64, u64) {
    (answer & 0xffff, (answer >> 16) & 0xffff, answer >> 32)
}

/// The tally that a batch is lent: how many blocks were taken, and how many refused.
#[repr(C)]
#[derive(Clone, Copy, Default, PartialEq, Eq, Debug)]
pub struct Tally {
    pub taken: u64,
    pub refused: u64,
}

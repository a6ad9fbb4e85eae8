//! Why a call was refused. `fast_lister` has this file too, without the standard library.

/// The number of document 01 or, from 13 on, of 02; and the byte of the block at fault, 0 where there is none to tell.
#[derive(Clone, Copy, PartialEq, Eq, PartialOrd, Ord, Debug)]
pub struct Refusal {
    pub number: u64,
    pub position: usize,
}

/// A number alone.
pub const fn refused(number: u64) -> Refusal {
    refused_at(number, 0)
}

pub const fn refused_at(number: u64, position: usize) -> Refusal {
    Refusal { number, position }
}

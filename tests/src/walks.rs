//! Walks through the findings, by any side's calls.

use crate::answers::{finding, Finding, START};

/// What repeated next finding gives from the start.
pub fn walk(next: impl Fn(Finding) -> u64) -> impl Iterator<Item = u64> {
    let mut at = START;
    std::iter::from_fn(move || {
        let code = next(at);
        at = finding(code);
        (code != 0).then_some(code)
    })
}

/// What repeated findings gives from the start, into lists of any lengths: each the front of one buffer, as long as `length` says.
/// `met` gets what each call puts.
pub fn walk_by_lists(
    findings: impl Fn(Finding, &mut [u64]) -> u64,
    buffer: &mut [u64],
    mut length: impl FnMut() -> usize,
    mut met: impl FnMut(&[u64]),
) {
    let mut at = START;
    loop {
        let n = length();
        let some = findings(at, &mut buffer[..n]) as usize;
        met(&buffer[..some]);
        if some < n {
            return;
        }
        at = buffer[..some].last().map_or(at, |code| finding(*code));
    }
}

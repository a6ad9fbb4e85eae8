//! lister in plain Rust over the baseline, for `bench`: the same input, the same lines. `plain_lister trials` works by the first
//! release's algorithms and works a row out again at each finding, `plain_lister labels` by the register's.

use bihokura_tests::answers::{counts, finding, outcome, Finding, Refusal};
use bihokura_tests::baseline::{self as b, Algorithms, ByLabels, ByTrials};
use bihokura_tests::layout::WORDS;
use bihokura_tests::walks::walk_by_lists;
use std::io::{Read, Write};

fn main() {
    match std::env::args().nth(1).as_deref() {
        Some("trials") => list::<ByTrials, 1>(|m, after, some| {
            some[0] = b::next_after(m, after);
            usize::from(some[0] != 0)
        }),
        Some("labels") => list::<ByLabels, 256>(b::findings_after),
        _ => panic!("plain_lister trials or plain_lister labels"),
    }
}

/// The findings after three numbers, put into a list, and how many were put.
type Listing = fn(&[u64], Finding, &mut [u64]) -> usize;

fn list<A: Algorithms, const AT_A_TIME: usize>(findings: Listing) {
    let mut input = Vec::new();
    std::io::stdin().read_to_end(&mut input).unwrap();
    let mut out = std::io::BufWriter::with_capacity(65536, std::io::stdout().lock());
    if input.is_empty() {
        writeln!(out, "REFUSED 1 3 0").unwrap();
        return;
    }
    let mut m = vec![0; WORDS];
    for (i, block) in input.chunks(512).enumerate() {
        let answer = if i == 0 { b::open(&mut m, block) } else { b::admit::<A>(&mut m, block) };
        if let Err(Refusal { number, position }) = outcome(answer) {
            writeln!(out, "REFUSED {} {number} {position}", i + 1).unwrap();
            if i == 0 {
                return;
            }
        }
    }
    let (containers, policies, pairs) = counts(b::counts(&m));
    writeln!(out, "CONTAINERS {containers} POLICIES {policies} PAIRS {pairs}").unwrap();
    let put = |some: &[u64]| {
        for (kind, a, b) in some.iter().copied().map(finding) {
            writeln!(out, "{kind} {a} {b}").unwrap();
        }
    };
    walk_by_lists(|after, list| findings(&m, after, list) as u64, &mut [0; AT_A_TIME], || AT_A_TIME, put);
}

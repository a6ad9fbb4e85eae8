//! The same call on each side, and the comparison of a side with the reference: a list of calls that fails is made shorter and
//! shown.

use crate::answers::Tally;
use crate::baseline::{self, Algorithms, ByLabels, ByTrials};
use crate::c;
use crate::reference::{self, Call, Left};
use std::fmt::LowerHex;

/// What answers calls on a memory.
pub type Side = fn(&[u64], &Call) -> Left;

/// The call of a module that has a function for each; some of them have a parameter for the algorithms.
macro_rules! made {
    ($side:ident $(, $by:ty)?; $memory:expr, $call:expr) => {{
        let (mut memory, mut lent) = ($memory.to_vec(), $call.lent());
        let m = &mut memory[..];
        let answer = match $call {
            Call::Open(block) => $side::open(m, block),
            Call::Admit(block) => $side::admit$(::<$by>)?(m, block),
            Call::RemoveContainer(i) => $side::remove_container(m, *i),
            Call::RemovePolicy(i) => $side::remove_policy$(::<$by>)?(m, *i),
            Call::Reaches(a, b) => $side::reaches(m, *a, *b),
            Call::CarriesUser(i, value) => $side::carries_user(m, *i, *value),
            Call::NextFinding(after) => $side::next_finding(m, *after),
            Call::Findings(after, _) => $side::findings(m, *after, &mut lent.list),
            Call::Counts => $side::counts(m),
            Call::Rebuild => $side::rebuild$(::<$by>)?(m),
            Call::Audit => $side::audit$(::<$by>)?(m),
            Call::Write(_) => $side::write(m, &mut lent.bytes),
            Call::AdmitBatch(blocks, ..) => $side::admit_batch$(::<$by>)?(m, blocks, &mut lent.numbers, &mut lent.tally),
        };
        Left { memory, lent, answer }
    }};
}

pub fn on_c(memory: &[u64], call: &Call) -> Left {
    made!(c; memory, call)
}

fn on_baseline<A: Algorithms>(memory: &[u64], call: &Call) -> Left {
    made!(baseline, A; memory, call)
}

pub const BASELINES: [Side; 2] = [on_baseline::<ByLabels>, on_baseline::<ByTrials>];
pub const ALL: [Side; 3] = [on_c, BASELINES[0], BASELINES[1]];

/// The first place at which two lists of one length differ.
fn difference<T: PartialEq + LowerHex>(what: &str, found: &[T], expected: &[T]) -> Option<String> {
    let i = found.iter().zip(expected).position(|(x, y)| x != y)?;
    Some(format!("{what} {i} is {:#x}, expected {:#x}", found[i], expected[i]))
}

/// What the call leaves by the reference, or how a side differs from it.
fn left(sides: &[Side], memory: &[u64], call: &Call) -> Result<Left, String> {
    let expected = reference::step(memory, call);
    for (k, side) in sides.iter().enumerate() {
        let found = side(memory, call);
        if found.answer != expected.answer {
            return Err(format!("side {k}: answer {:#x}, expected {:#x}", found.answer, expected.answer));
        }
        let (lent, right) = (&found.lent, &expected.lent);
        let counts = |t: Tally| [t.taken, t.refused];
        let how = difference("word", &found.memory, &expected.memory)
            .or_else(|| difference("number", &lent.list, &right.list))
            .or_else(|| difference("byte", &lent.bytes, &right.bytes))
            .or_else(|| difference("number of the batch", &lent.numbers, &right.numbers))
            .or_else(|| difference("count of the tally", &counts(lent.tally), &counts(right.tally)));
        if let Some(how) = how {
            return Err(format!("side {k}: {how}"));
        }
    }
    Ok(expected)
}

/// The number of the first call that differs, and how.
fn run(sides: &[Side], memory: &[u64], calls: &[Call]) -> Result<(), (usize, String)> {
    let mut m = memory.to_vec();
    for (i, call) in calls.iter().enumerate() {
        m = left(sides, &m, call).map_err(|how| (i, how))?.memory;
    }
    Ok(())
}

/// The sides do the calls from a memory on as the reference does.
pub fn check(sides: &[Side], memory: &[u64], calls: &[Call]) {
    let Err((at, _)) = run(sides, memory, calls) else {
        return;
    };
    let mut list = calls[..=at].to_vec();
    let mut i = 0;
    while i < list.len() {
        let mut fewer = list.clone();
        fewer.remove(i);
        if run(sides, memory, &fewer).is_err() {
            list = fewer;
        } else {
            i += 1;
        }
    }
    let (at, how) = run(sides, memory, &list).unwrap_err();
    let shown: Vec<String> = list.iter().map(show).collect();
    panic!("call {at} of {} differs: {how}\n{}", list.len(), shown.join("\n"));
}

fn show(call: &Call) -> String {
    let front = |b: &[u8]| {
        let end = b.iter().take(510).rposition(|x| *x != 0).map_or(0, |i| i + 1);
        format!("{} bytes {:?}", b.len(), &b[..end])
    };
    match call {
        Call::Open(b) => format!("  open {}", front(b)),
        Call::Admit(b) => format!("  admit {}", front(b)),
        Call::Findings(after, list) => format!("  findings after {after:?}, a list of {}", list.len()),
        Call::Write(bytes) => format!("  write into {} bytes", bytes.len()),
        Call::AdmitBatch(bytes, numbers, tally) => {
            let blocks: Vec<String> = bytes.chunks(512).map(|b| format!("\n    {}", front(b))).collect();
            format!("  admit a batch, a list of {}, {tally:?}{}", numbers.len(), blocks.concat())
        }
        other => format!("  {other:?}"),
    }
}

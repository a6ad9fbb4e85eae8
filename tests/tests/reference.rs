//! The reference itself, on document 01's printed example and instances.

use bihokura_tests::answers::{counted, outcome, refused, refused_at};
use bihokura_tests::bytes::{container, settings};
use bihokura_tests::layout::WORDS;
use bihokura_tests::reference::{step, Call, Register};
use bihokura_tests::sheet::{expected, printed, PRINTED, PRINTED_BLOCKS};
use std::process::Command;

fn run(calls: &[Call]) -> (Vec<u64>, Vec<u64>) {
    let mut m = vec![0; WORDS];
    let mut answers = Vec::new();
    for call in calls {
        let left = step(&m, call);
        m = left.memory;
        answers.push(left.answer);
    }
    (m, answers)
}

#[test]
fn the_printed_example() {
    assert_eq!(expected(&printed()), PRINTED);
    let blocks = printed();
    let mut blocks = blocks.chunks(512).map(<[u8]>::to_vec);
    let mut calls = vec![Call::Open(blocks.next().unwrap())];
    calls.extend(blocks.map(Call::Admit).chain([Call::Counts, Call::Audit]));
    let (m, answers) = run(&calls);
    assert_eq!(answers, [0, 0, 1, 2, 3, 0, 1, 2, counted(4, 3, 12), 1]);
    let written = step(&m, &Call::Write(vec![7; 4100]));
    assert!(written.answer == 4096 && written.lent.bytes == [printed(), vec![7; 4]].concat());
    let found = Register::decode(&m).unwrap().findings();
    let expected = [(3, 0, 2), (3, 0, 3), (3, 2, 0), (3, 2, 1), (3, 2, 3), (3, 3, 0), (3, 3, 2), (4, 3, 1), (5, 1, 0), (7, 2, 1)];
    assert_eq!(found, expected);
}

#[test]
fn checks_and_refusals() {
    assert_eq!(settings(1, 2, 9)[510..], [0, 145]);
    assert_eq!(container(&[(1, 11), (3, 1)])[510..], [0, 207]);
    let (_, answers) = run(&[
        Call::Open(settings(1, 0, 0)),
        Call::Admit(container(&[(3, 0), (1, 1)])),
        Call::Admit(container(&[(3, 1), (1, 1)])),
        Call::Reaches(255, 0),
        Call::Reaches(256, 0),
        Call::Write(vec![7; 511]),
    ]);
    let refusals = [refused_at(7, 6), refused_at(8, 8), refused(11), refused(10), refused(13)];
    assert_eq!(answers[0], 0);
    assert_eq!(answers[1..].iter().map(|answer| outcome(*answer)).collect::<Vec<_>>(), refusals.map(Err));
}

/// The stored blocks are those that the program `printed_sheet` writes.
#[test]
fn the_stored_blocks() {
    let written = Command::new(env!("CARGO_BIN_EXE_printed_sheet")).output().unwrap();
    assert!(written.status.success() && written.stdout == std::fs::read(PRINTED_BLOCKS).unwrap());
}

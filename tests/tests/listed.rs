//! The list of calls of `Listed.antt`, whose answers antt computes through the reference model's step (`listed-answers`), run
//! through the exported calls.

use bihokura_tests::answers::{answer, code, counted, refused_at, Finding, Tally, START};
use bihokura_tests::bytes::{container, policy, sealed, settings, Pair, EGRESS, INGRESS};
use bihokura_tests::layout::WORDS;
use bihokura_tests::reference::{step, Call, Lent};
use bihokura_tests::sheet::printed;
use bihokura_tests::sides::{on_c, Side};

static ZEROS: [u64; WORDS + 1] = [0; WORDS + 1];

/// A call with its answer and what it leaves of what else it is lent. It is lent so many words: our memory, or zeros of another size.
struct Line(usize, Call, u64, Lent);

/// What stands in a list or a buffer before it is lent.
const BEFORE: u8 = 77;

fn line(size: usize, call: Call, answer: u64) -> Line {
    let kept = call.lent();
    Line(size, call, answer, kept)
}

/// A batch with a list of so many numbers and a tally, what it puts into the list, and the tally left.
fn batch(blocks: &[Vec<u8>], room: usize, from: (u64, u64), put: &[u16], to: (u64, u64)) -> Line {
    let tally = |(taken, refused)| Tally { taken, refused };
    let mut line = line(WORDS, Call::AdmitBatch(blocks.concat(), vec![u16::from(BEFORE); room], tally(from)), 0);
    line.3.numbers[..put.len()].copy_from_slice(put);
    line.3.tally = tally(to);
    line
}

fn listed() -> Vec<Line> {
    let ours = |call, answer| line(WORDS, call, answer);
    let refusal = |number, position| answer(Err(refused_at(number, position)));
    let refuses = |call, number, position| line(WORDS, call, refusal(number, position));
    let other = |n, call| line(n, call, refusal(1, 0));
    let found = |after, next| ours(Call::NextFinding(after), code(next));
    let none = |after| ours(Call::NextFinding(after), 0);
    let listing = |after, room| Call::Findings(after, vec![u64::from(BEFORE); room]);
    let puts = |call, put: &[Finding]| {
        let mut line = ours(call, put.len() as u64);
        line.3.list.iter_mut().zip(put).for_each(|(to, finding)| *to = code(*finding));
        line
    };
    let writing = |room| Call::Write(vec![BEFORE; room]);
    // of the printed blocks, those of these numbers
    let writes = |call, numbers: &[usize]| {
        let file: Vec<u8> = numbers.iter().flat_map(|n| printed()[512 * n..512 * n + 512].to_vec()).collect();
        let mut line = ours(call, file.len() as u64);
        line.3.bytes[..file.len()].copy_from_slice(&file);
        line
    };
    let con = |labels: &[Pair]| Call::Admit(container(labels));
    let pol = |d, s: &[Pair], a: &[Pair]| Call::Admit(policy(d, s, a));
    let mut unchecked = vec![0; 512];
    unchecked[0] = 67;
    let lent = |blocks: &[Vec<u8>], room| Call::AdmitBatch(blocks.concat(), vec![u16::from(BEFORE); room], Tally::default());
    let three = [container(&[(3, 2)]), unchecked.clone(), policy(EGRESS, &[(3, 2)], &[])];
    let mut list = vec![
        ours(Call::Counts, counted(0, 0, 0)),
        none(START),
        puts(listing(START, 3), &[]),
        refuses(writing(511), 13, 0),
        writes(writing(512), &[0]),
        refuses(Call::RemoveContainer(0), 11, 0),
        ours(con(&[(1, 11), (3, 1)]), 0),
        other(WORDS - 1, con(&[(1, 11), (3, 2)])),
        ours(con(&[(1, 11), (3, 2)]), 1),
        ours(con(&[(1, 12), (3, 1)]), 2),
        ours(con(&[(1, 99), (2, 9)]), 3),
        ours(pol(INGRESS, &[(3, 2)], &[(3, 1)]), 0),
        ours(pol(INGRESS, &[(1, 11), (3, 2)], &[(1, 11), (3, 1)]), 1),
        ours(pol(EGRESS, &[(3, 2)], &[(1, 13)]), 2),
        ours(Call::Counts, counted(4, 3, 12)),
        found(START, (3, 0, 2)),
        found((4, 3, 1), (5, 1, 0)),
        none((7, 2, 1)),
        puts(listing(START, 3), &[(3, 0, 2), (3, 0, 3), (3, 2, 0)]),
        puts(listing((3, 3, 2), 5), &[(4, 3, 1), (5, 1, 0), (7, 2, 1)]),
        puts(listing((3, 2, 0), 0), &[]),
        puts(listing((7, 2, 1), 1), &[]),
        other(WORDS - 1, listing(START, 3)),
        refuses(writing(4095), 13, 0),
        writes(writing(5000), &[0, 1, 2, 3, 4, 5, 6, 7]),
        other(WORDS - 1, writing(5000)),
        ours(Call::Reaches(1, 0), 0),
        ours(Call::Reaches(1, 1), 1),
        ours(Call::Reaches(2, 1), 1),
        refuses(Call::Reaches(4, 256), 10, 0),
        refuses(Call::Reaches(3, 4), 11, 0),
        ours(Call::CarriesUser(2, 12), 1),
        ours(Call::CarriesUser(2, 65548), 0),
        refuses(Call::CarriesUser(255, 12), 11, 0),
        refuses(Call::CarriesUser(256, 12), 10, 0),
        refuses(Call::Admit(vec![0; 511]), 3, 0),
        refuses(Call::Admit(unchecked), 4, 510),
        refuses(Call::Admit(sealed(&[83, 1])), 5, 0),
        refuses(Call::Admit(sealed(&[67, 9])), 6, 1),
        refuses(Call::Admit(sealed(&[67, 2, 0, 0, 0, 3, 0, 1, 0, 1, 0, 0])), 7, 10),
        refuses(Call::Admit(sealed(&[80, 2, 0, 2, 0, 3, 0, 1, 0, 3, 0, 2])), 8, 8),
        refuses(Call::Admit(sealed(&[67, 0, 0, 1])), 9, 3),
        refuses(Call::Open(sealed(&[83, 65])), 7, 1),
        other(WORDS + 1, Call::Open(settings(3, 0, 0))),
        ours(Call::Audit, 1),
        ours(Call::RemovePolicy(2), 0),
        refuses(Call::RemovePolicy(2), 11, 0),
        refuses(Call::RemovePolicy(128), 10, 0),
        ours(Call::Reaches(1, 0), 1),
        ours(Call::RemoveContainer(0), 0),
        refuses(Call::Reaches(0, 1), 11, 0),
        writes(writing(3072), &[0, 2, 3, 4, 5, 6]),
        ours(con(&[]), 0),
        ours(Call::Counts, counted(4, 2, 14)),
        found((5, 65535, 65535), (7, 1, 1)),
        ours(Call::Rebuild, 0),
        ours(Call::Counts, counted(4, 2, 14)),
        refuses(lent(&[vec![0; 511]], 0), 14, 0),
        refuses(lent(&three, 5), 13, 0),
        batch(&[], 0, (3, 4), &[], (3, 4)),
        other(WORDS - 1, lent(&three, 6)),
        batch(&three, 7, (u64::MAX - 1, 8), &[0, 4, 4, 510, 0, 2], (u64::MAX, 9)),
        ours(Call::Counts, counted(5, 3, 19)),
        ours(Call::Audit, 1),
        ours(Call::Open(settings(3, 0, 0)), 0),
        ours(Call::Counts, counted(0, 0, 0)),
    ];
    list.extend((0..128).map(|q| ours(pol(INGRESS, &[], &[]), q)));
    list.extend([
        refuses(pol(INGRESS, &[], &[]), 12, 0),
        ours(con(&[]), 0),
        ours(Call::RemovePolicy(5), 0),
        ours(pol(INGRESS, &[], &[]), 5),
        other(0, Call::Audit),
        ours(Call::Counts, counted(1, 128, 1)),
        ours(Call::Audit, 1),
    ]);
    list
}

fn run(call: Side) {
    let memory: Vec<u64> = (0..WORDS as u64).collect();
    let opened = call(&memory, &Call::Open(settings(1, 2, 9)));
    assert_eq!(opened.answer, 0);
    let mut memory = opened.memory;
    for (i, Line(size, asked, answer, lent)) in listed().into_iter().enumerate() {
        let left = call(if size == WORDS { &memory } else { &ZEROS[..size] }, &asked);
        assert_eq!(left.answer, answer, "call {i}: {asked:?}");
        assert!(left.lent == lent, "call {i}: {asked:?}");
        if size == WORDS {
            memory = left.memory;
        } else {
            assert_eq!(left.memory, ZEROS[..size]);
        }
    }
}

#[test]
fn the_exported_calls_answer_as_computed() {
    run(on_c);
}

#[test]
fn the_reference_answers_as_computed() {
    run(step);
}

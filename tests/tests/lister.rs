//! The program lister against the separately written register, on whole inputs.

use bihokura_tests::bytes::{self, container, policy, settings, INGRESS};
use bihokura_tests::cases;
use bihokura_tests::process::{end, fed, in_pieces, piped, rest, wait_until_read, with_lines, LIMIT, PROGRAM};
use bihokura_tests::random::{case, seeds, Random};
use bihokura_tests::sheet::{self, expected, spoiled, strangers};
use std::io::Write;

fn run(input: &[u8]) -> String {
    let ended = fed(piped(PROGRAM).spawn().unwrap(), input);
    assert_eq!(ended.code, Some(0));
    ended.out
}

fn agrees(blocks: &[Vec<u8>]) {
    let input = blocks.concat();
    same(&run(&input), &input);
}

/// The report is the one expected; where it is not, the first line that differs is shown.
fn same(report: &str, input: &[u8]) {
    let right = expected(input);
    if report != right {
        let at = report.lines().zip(right.lines()).take_while(|(x, y)| x == y).count();
        let (x, y) = (report.lines().nth(at), right.lines().nth(at));
        panic!("{} bytes of input: line {} is {x:?}, expected {y:?}", input.len(), at + 1);
    }
}

fn opening() -> Vec<u8> {
    settings(1, 2, 2)
}

fn entries(seed: u64, n: usize) -> Vec<Vec<u8>> {
    let mut r = Random::new(seed);
    let mut all = vec![opening()];
    all.extend((0..n).map(|_| if r.below(5) < 3 { cases::container(&mut r) } else { cases::policy(&mut r) }));
    all
}

#[test]
fn refused_openings_and_short_blocks() {
    agrees(&[]);
    agrees(&[opening()]);
    agrees(&[opening()[..300].to_vec()]);
    agrees(&[container(&[(1, 1)]), opening(), container(&[(1, 1)])]);
    agrees(&[bytes::spoiled(opening()), opening()]);
    agrees(&[
        opening(),
        container(&[(1, 1)]),
        bytes::spoiled(container(&[(1, 1)])),
        opening(),
        container(&[(2, 2)])[..100].to_vec(),
    ]);
}

/// Document 02, Note 5: the number and the position of each refusal. A short last block, and an input without any, are refused at 0.
#[test]
fn the_position_at_fault() {
    let entries = [
        bytes::spoiled(container(&[])),
        opening(),
        container(&[(1, 1); 9]),
        policy(INGRESS, &[], &[(1, 1); 5]),
        policy(INGRESS, &[(1, 1)], &[(1, 1), (2, 0)]),
        container(&[(1, 1), (1, 1)]),
        bytes::sealed(&[67, 0, 0, 0, 0, 9]),
        vec![67; 511],
    ];
    let lines = "\
REFUSED 2 4 510
REFUSED 3 5 0
REFUSED 4 6 1
REFUSED 5 6 3
REFUSED 6 7 14
REFUSED 7 8 8
REFUSED 8 9 5
REFUSED 9 3 0
CONTAINERS 0 POLICIES 0 PAIRS 0
";
    assert_eq!(run(&[opening(), entries.concat()].concat()), lines);
    let openings =
        [(vec![], "3 0"), (settings(1, 65, 9), "7 2"), (settings(1, 0, 9), "7 4"), (bytes::sealed(&[83, 1, 0, 1]), "9 3")];
    for (input, refusal) in openings {
        assert_eq!(run(&input), format!("REFUSED 1 {refusal}\n"));
    }
}

/// Pieces of nine blocks first, and of 128 from there on.
#[test]
fn inputs_around_a_piece_of_input() {
    for n in [7, 8, 9, 126, 127, 128, 135, 136, 137, 255, 256] {
        agrees(&entries(n as u64, n));
    }
}

/// A first read that fills nine blocks, where the next block is whole, begun, or all that there is.
#[test]
fn inputs_that_end_near_the_first_piece() {
    let input = entries(90, 12).concat();
    for n in [4607, 4608, 4609, 5119, 5120, 5121] {
        same(&run(&input[..n]), &input[..n]);
        for most in [100, 1000, 4608] {
            same(&run_in_pieces(&mut Random::new(n as u64), &input[..n], most, true), &input[..n]);
        }
    }
}

/// The findings of few blocks are more than the first buffer for text has room for.
#[test]
fn few_blocks_and_many_findings() {
    for n in [2, 3, 4, 5, 6, 7, 8, 9, 20] {
        let input = strangers(n);
        same(&run(&input), &input);
        let input = [opening(), vec![policy(INGRESS, &[], &[(3, 1)]); n].concat()].concat();
        same(&run(&input), &input);
    }
}

#[test]
fn full_tables() {
    agrees(&entries(7, 700));
    let mut all = vec![settings(1, 0, 0)];
    all.extend(vec![container(&[(2, 1)]); 300]);
    all.extend(vec![policy(INGRESS, &[], &[(3, 1)]); 130]);
    all.push(vec![1, 2]);
    agrees(&all);
}

/// The report where the input comes in pieces of up to so many bytes, or all of so many, each read before the next is written.
fn run_in_pieces(r: &mut Random, input: &[u8], most: u64, equal: bool) -> String {
    let mut r = Random::new(r.number());
    let length = move |_| if equal { most } else { 1 + r.below(most) } as usize;
    let mut child = piped(PROGRAM).spawn().unwrap();
    let writer = in_pieces(child.stdin.take().unwrap(), input.to_vec(), length, wait_until_read);
    let ended = end(child);
    writer.join().unwrap();
    assert_eq!(ended.code, Some(0));
    ended.out
}

#[test]
fn random_inputs_in_random_pieces() {
    seeds(1, 60, |r| {
        let n = match r.below(8) {
            0 => r.below(4),
            1 | 2 => r.below(30),
            3 | 4 => r.below(200),
            5 => 2000,
            _ => r.below(2001),
        };
        let valid = *r.pick(&[1, 2, 8, 15, 16]);
        let input = sheet::random(r, n as usize, valid);
        let (few, many) = ([1, 2, 7, 100, 511, 512, 513], [511, 512, 513, 700, 4096, 5000, 65_536, 65_537, 100_000]);
        let (most, equal) = (*r.pick(if n < 30 { &few[..] } else { &many[..] }), r.once_in(3));
        case(format_args!("{n} blocks, pieces of {most}, all equal: {equal}"), || {
            same(&run_in_pieces(r, &input, most, equal), &input);
        });
    });
}

#[test]
fn three_hundred_blocks() {
    for n in [299, 300, 301] {
        let mut blocks = entries(n as u64, n - 1);
        agrees(&blocks);
        same(&run_in_pieces(&mut Random::new(n as u64), &blocks.concat(), 3000, false), &blocks.concat());
        blocks[n - 1] = spoiled();
        agrees(&blocks);
    }
}

/// Entries are admitted all along, and refused all along, past block 5,000 too.
#[test]
fn refusals_after_block_five_thousand() {
    let mut r = Random::new(200);
    let mut input = settings(1, 2, 2);
    input.extend((1..5100).flat_map(|i| match i % 51 {
        0 => cases::policy(&mut r),
        1 => cases::container(&mut r),
        _ => spoiled(),
    }));
    let last = expected(&input);
    assert!(last.contains("REFUSED 5002 4 510\n") && last.contains("REFUSED 5100 4 510\n"));
    assert!(last.contains("CONTAINERS 100 POLICIES 99 "));
    same(&run(&input), &input);
    same(&run_in_pieces(&mut r, &input, 100_000, false), &input);
    input.extend(vec![container(&[(1, 1)]); 300].concat());
    assert!(expected(&input).contains("REFUSED 5257 12 0\n"));
    same(&run(&input), &input);
}

#[test]
fn long_reports() {
    let mut longest = 0;
    for n in [60, 91, 92, 93, 94, 126, 127, 128, 129, 256] {
        let input = strangers(n);
        same(&run(&input), &input);
        longest = expected(&input).len();
        assert!(n < 94 || longest > 64 * 1024);
        assert!(n < 129 || longest > 128 * 1024);
    }
    assert!(longest > 512 * 1024);
}

/// Each refused block's line is read before any more is written.
#[test]
fn refusals_come_at_once() {
    let mut r = Random::new(300);
    let (child, mut to, lines) = with_lines(piped(PROGRAM));
    let mut written = opening();
    to.write_all(&written).unwrap();
    let mut all = String::new();
    for _ in 0..60 {
        let mut blocks: Vec<Vec<u8>> = (0..r.below(4)).map(|_| cases::container(&mut r)).collect();
        blocks.push(match r.below(3) {
            0 => spoiled(),
            1 => opening(),
            _ => container(&[(2, 1), (1, 1)]),
        });
        let blocks = blocks.concat();
        let cut = r.below(blocks.len() as u64) as usize;
        to.write_all(&blocks[..cut]).unwrap();
        to.write_all(&blocks[cut..]).unwrap();
        written.extend(blocks);
        let line = lines.recv_timeout(LIMIT).expect("a line before more is written");
        assert_eq!(Some(&line[..]), sheet::refusals(&written).split_inclusive('\n').next_back());
        all += &line;
    }
    drop(to);
    all += &rest(&lines);
    same(&all, &written);
    assert_eq!(end(child).code, Some(0));
}

#[test]
fn a_refused_opening_comes_at_once() {
    let (child, mut to, lines) = with_lines(piped(PROGRAM));
    to.write_all(&spoiled()).unwrap();
    assert_eq!(lines.recv_timeout(LIMIT).expect("a line before more is written"), "REFUSED 1 4 510\n");
    drop(to);
    assert_eq!(rest(&lines), "");
    assert_eq!(end(child).code, Some(0));
}

//! Document 02, Note 3, through the C interface: a standing container reaches itself whatever the policies and whatever comes and goes;
//! what is isolated; and bits (a, a) that are stored clear.

use bihokura_tests::answers::{code, counts, finding, outcome, refused, Finding, START};
use bihokura_tests::bytes::{container, policy, settings, EGRESS, INGRESS};
use bihokura_tests::cases::{calls, in_step_or_not};
use bihokura_tests::layout::{self, CONTAINER_SLOTS, WORDS};
use bihokura_tests::random::seeds;
use bihokura_tests::reference::Call;
use bihokura_tests::sides::{check, on_c, ALL};
use bihokura_tests::{c, walks};

fn opened(blocks: &[Vec<u8>]) -> Vec<u64> {
    let mut m = vec![0; WORDS];
    assert_eq!(c::open(&mut m, &settings(1, 2, 9)), 0);
    blocks.iter().for_each(|block| assert!(outcome(c::admit(&mut m, block)).is_ok()));
    m
}

fn walk(m: &[u64]) -> Vec<Finding> {
    walks::walk(|after| c::next_finding(m, after)).map(finding).collect()
}

/// Policies that select every container and allow none, one of each direction.
fn closing() -> [Vec<u8>; 2] {
    [INGRESS, EGRESS].map(|d| policy(d, &[], &[(1, 9)]))
}

fn clear(m: &mut [u64], a: usize) {
    m[layout::row(a) + a / 64] &= !(1 << (a % 64));
}

/// After any calls each standing container reaches itself, and a free slot is refused.
#[test]
fn a_standing_container_reaches_itself() {
    seeds(130_000, 60, |r| {
        let mut m = opened(&[]);
        for call in calls(r, 40) {
            m = on_c(&m, &call).memory;
            for a in 0..CONTAINER_SLOTS {
                let stands = m[layout::container(a)] != 0;
                let expected = if stands { Ok(1) } else { Err(refused(11)) };
                assert_eq!(outcome(c::reaches(&m, a as u64, a as u64)), expected, "{a} after {call:?}");
            }
            assert_eq!(c::audit(&m), 1);
        }
    });
}

/// With every pair forbidden PAIRS is the number of containers, and all are isolated but where one stands alone.
#[test]
fn policies_that_allow_nothing() {
    for n in [0, 1, 2, 3, 64, 65, 128, 255, 256] {
        let mut blocks = vec![container(&[]); n];
        blocks.extend(closing());
        let m = opened(&blocks);
        assert_eq!(counts(c::counts(&m)), (n as u64, 2, n as u64));
        let isolated: Vec<Finding> = (0..n as u16).filter(|_| n > 1).map(|a| (2, a, 0)).collect();
        let expected: Vec<Finding> = match n {
            0 => vec![(7, 0, 0), (7, 1, 0)],
            1 => vec![(1, 0, 0), (7, 0, 1), (7, 1, 1)],
            _ => isolated.into_iter().chain([(7, 0, 1), (7, 1, 1)]).collect(),
        };
        assert_eq!(walk(&m), expected, "{n} containers");
    }
}

/// A memory with such a bit clear is well formed and not in step; the bit is what is stored until a change touches it.
#[test]
fn a_clear_bit_is_mended_by_what_touches_it() {
    let blocks = [container(&[(3, 1)]), container(&[(3, 2)]), container(&[(3, 3)])];
    let whole = opened(&blocks);
    let mut m = whole.clone();
    clear(&mut m, 1);
    assert_eq!((c::audit(&whole), c::audit(&m)), (1, 0));
    assert_eq!((c::reaches(&m, 1, 1), c::reaches(&m, 0, 0)), (0, 1));
    assert_eq!(counts(c::counts(&m)), (3, 0, 8));
    // one fewer is reached by all, and none is isolated for it
    assert_eq!(c::next_finding(&m, START), code((1, 0, 0)));
    assert_eq!(c::next_finding(&m, (1, 0, 0)), code((1, 2, 0)));
    assert!(walk(&m).iter().all(|(kind, ..)| *kind != 2));
    for direction in [INGRESS, EGRESS] {
        let mut mended = m.clone();
        assert_eq!(c::admit(&mut mended, &policy(direction, &[(3, 2)], &[(1, 9)])), 0);
        assert_eq!((c::reaches(&mended, 1, 1), c::audit(&mended)), (1, 1));
        let mut other = m.clone();
        assert_eq!(c::admit(&mut other, &policy(direction, &[(3, 1)], &[(1, 9)])), 0);
        assert_eq!((c::reaches(&other, 1, 1), c::audit(&other)), (0, 0));
    }
    assert_eq!(c::rebuild(&mut m), 0);
    assert!(m == whole);
}

/// The bit (a, a) decides nothing of what is isolated.
#[test]
fn isolated_whatever_is_stored_of_itself() {
    let mut blocks = vec![container(&[]); 130];
    blocks.extend(closing());
    let mut m = opened(&blocks);
    let before = walk(&m);
    (0..130).step_by(3).for_each(|a| clear(&mut m, a));
    assert_eq!(walk(&m), before);
    assert_eq!(before.len(), 132);
}

/// Every side as the reference does, where bits (a, a) of standing containers are cleared first.
#[test]
fn clear_bits_under_random_calls() {
    seeds(140_000, 300, |r| {
        let entries = 2 + r.below(30) as usize;
        let mut m = in_step_or_not(r, entries);
        for a in 0..CONTAINER_SLOTS {
            if r.below(2) == 0 {
                clear(&mut m, a);
            }
        }
        let mut list = vec![Call::Audit, Call::NextFinding(START), Call::NextFinding((1, 65535, 65535))];
        list.extend(calls(r, 10));
        check(&ALL, &m, &list);
    });
}

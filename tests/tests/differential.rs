//! The register over its C interface against the reference, on random and damaged input.

use bihokura_tests::answers::{code, finding, outcome, refused, Finding, Tally, START};
use bihokura_tests::bytes::{self, EGRESS, INGRESS};
use bihokura_tests::cases::{
    calls, cursor, damaged, disordered, findings, flip, in_step_or_not, memory, settings, LISTS, OTHER_SIZES,
};
use bihokura_tests::layout::{CONTAINER_SLOTS, POLICY_SLOTS, WORDS};
use bihokura_tests::random::{case, seeds, Random};
use bihokura_tests::reference::{step, Call, Register};
use bihokura_tests::sides::{check, on_c, ALL};
use bihokura_tests::{c, registries, walks};

#[test]
fn words_are_as_documented() {
    assert_eq!(c::words(), WORDS);
}

#[test]
fn random_calls_after_an_open() {
    seeds(1, 1000, |r| {
        let garbage = r.words(WORDS);
        let mut list = vec![Call::Open(settings(r))];
        list.extend(calls(r, 60));
        check(&[on_c], &garbage, &list);
    });
}

#[test]
fn stored_bits_out_of_step() {
    seeds(10_000, 1000, |r| {
        let entries = 4 + r.below(24) as usize;
        let m = memory(r, entries);
        let m = disordered(r, &m);
        check(&[on_c], &m, &calls(r, 12));
    });
}

#[test]
fn damaged_blocks() {
    let mut accepted = 0;
    seeds(20_000, 3000, |r| {
        let m = memory(r, 3);
        for _ in 0..4 {
            let block = damaged(r);
            for call in [Call::Open(block.clone()), Call::Admit(block)] {
                accepted += u64::from(outcome(on_c(&m, &call).answer).is_ok());
                check(&[on_c], &m, &[call]);
            }
        }
    });
    assert!(accepted > 0, "no damaged block was accepted: too much damage to test anything else");
}

#[test]
fn damaged_memories() {
    let mut refusals = 0;
    seeds(30_000, 2000, |r| {
        let entries = 2 + r.below(30) as usize;
        let mut m = memory(r, entries);
        flip(r, &mut m);
        for call in calls(r, 6) {
            refusals += u64::from(outcome(on_c(&m, &call).answer) == Err(refused(2)));
            check(&[on_c], &m, &[call]);
        }
    });
    assert!(refusals > 100, "damage was seldom noticed");
}

#[test]
fn memories_of_another_size() {
    for size in OTHER_SIZES {
        case(format_args!("{size} words"), || {
            let mut r = Random::new(40_000);
            let m = r.words(size);
            for call in calls(&mut r, 200) {
                let left = on_c(&m, &call);
                assert!(outcome(left.answer) == Err(refused(1)) && left.memory == m && left.lent == call.lent(), "{call:?}");
            }
        });
    }
}

#[test]
fn zeros_are_not_well_formed() {
    let mut m = vec![0; WORDS];
    let batch = c::admit_batch(&mut m, &[], &mut [], &mut Tally::default());
    for answer in [c::counts(&m), c::audit(&m), c::findings(&m, START, &mut []), c::write(&m, &mut []), batch] {
        assert_eq!(outcome(answer), Err(refused(2)));
    }
}

/// Here the benchmarks' baselines are held to the reference too.
#[test]
fn full_registries() {
    for registry in registries::all_and_crowded() {
        case(format_args!("registry {}", registry.name), || check(&ALL, &registry.memory(), &registry.calls()));
    }
}

#[test]
fn full_registries_out_of_step() {
    for registry in registries::all_and_crowded() {
        let m = disordered(&mut Random::new(50_000), &registry.memory());
        case(format_args!("registry {}", registry.name), || check(&ALL, &m, &registry.calls()));
    }
}

/// A registry with both tables full.
fn full(settings: &[u8], container: impl Fn(u16) -> Vec<u8>, policy: impl Fn(u16) -> Vec<u8>) -> Vec<u64> {
    let mut m = vec![0; WORDS];
    assert_eq!(outcome(c::open(&mut m, settings)), Ok(0));
    for i in 0..CONTAINER_SLOTS {
        assert_eq!(outcome(c::admit(&mut m, &container(i as u16))), Ok(i as u64));
    }
    for q in 0..POLICY_SLOTS {
        assert_eq!(outcome(c::admit(&mut m, &policy(q as u16))), Ok(q as u64));
    }
    m
}

#[test]
fn full_tables_and_slots_used_again() {
    let container = |i: u16| {
        let labels = [(1, 1 + i % 7), (2, 9), (3, 1 + i % 3)];
        bytes::container(if i.is_multiple_of(5) { &labels } else { &labels[..1] })
    };
    let policy = |q: u16| bytes::policy([INGRESS, EGRESS][usize::from(q % 2)], &[(1, 1 + q % 9)], &[(3, 1 + q % 4)]);
    let m = full(&bytes::settings(1, 2, 9), container, policy);
    let list = [
        Call::Admit(bytes::container(&[])),
        Call::Admit(bytes::policy(INGRESS, &[], &[])),
        Call::Counts,
        Call::Audit,
        Call::RemoveContainer(255),
        Call::RemoveContainer(255),
        Call::RemoveContainer(17),
        Call::Admit(bytes::container(&[(64, 65535)])),
        Call::Admit(bytes::container(&[(1, 3)])),
        Call::Admit(bytes::container(&[(1, 3)])),
        Call::RemovePolicy(127),
        Call::RemovePolicy(0),
        Call::Admit(bytes::policy(EGRESS, &[], &[(1, 2)])),
        Call::Admit(bytes::policy(INGRESS, &[(1, 2)], &[])),
        Call::Admit(bytes::policy(INGRESS, &[(1, 2)], &[])),
        Call::Counts,
        Call::NextFinding(START),
        Call::NextFinding((3, 200, 7)),
        Call::NextFinding((5, 0, 0)),
        Call::Findings(START, vec![7; 300]),
        Call::Findings((7, 0, 0), vec![7; 300]),
        Call::Rebuild,
        Call::Audit,
    ];
    check(&[on_c], &m, &list);
}

fn codes(m: &[u64]) -> Vec<u64> {
    Register::decode(m).unwrap().findings().into_iter().map(code).collect()
}

/// What repeated calls of next_finding give: not many more than so many findings, so that a walk without an end is noticed.
fn walk(m: &[u64], most: usize) -> Vec<u64> {
    walks::walk(|after| c::next_finding(m, after)).take(most + 1).collect()
}

/// The same by repeated calls of findings with lists of random lengths, empty ones among them. Each list's rest is kept.
fn walk_by_lists(r: &mut Random, m: &[u64], most: usize) -> Vec<u64> {
    let mut met = vec![];
    let lengths = *r.pick(&[2, 10, 300, 3000]);
    let mut buffer = r.words(lengths as usize);
    let listed = |after: Finding, list: &mut [u64]| {
        let before = list.to_vec();
        let answer = c::findings(m, after, list);
        let n = outcome(answer).unwrap() as usize;
        assert!(n <= list.len() && list[n..] == before[n..], "{n} findings in a list of {}", list.len());
        answer
    };
    walks::walk_by_lists(
        listed,
        &mut buffer,
        || r.below(lengths) as usize,
        |some| {
            met.extend(some);
            assert!(met.len() <= most, "the walk does not end");
        },
    );
    met
}

#[test]
fn a_walk_meets_the_findings_once_in_order() {
    seeds(50_000, 200, |r| {
        let entries = 3 + r.below(20) as usize;
        let m = in_step_or_not(r, entries);
        let expected = codes(&m);
        assert_eq!(walk(&m, expected.len()), expected);
    });
}

#[test]
fn lists_of_findings_are_the_walk() {
    seeds(80_000, 200, |r| {
        let entries = r.below(80) as usize;
        let m = in_step_or_not(r, entries);
        let whole = codes(&m);
        assert_eq!(walk(&m, whole.len()), whole);
        assert_eq!(walk_by_lists(r, &m, whole.len()), whole);
    });
    for registry in registries::all_and_crowded() {
        case(format_args!("registry {}", registry.name), || {
            let m = registry.memory();
            let whole = codes(&m);
            assert!(walk(&m, whole.len()) == whole);
            assert!(walk_by_lists(&mut Random::new(81_000), &m, whole.len()) == whole);
        });
    }
}

/// A call of findings that is lent the middle of a longer list: it writes to no word around it.
fn check_between(r: &mut Random, m: &[u64], call: &Call) {
    let Call::Findings(after, list) = call else { unreachable!() };
    let (front, back, n) = (r.words(3), r.words(300), list.len());
    let mut lent = [&front[..], list, &back].concat();
    let answer = c::findings(m, *after, &mut lent[front.len()..front.len() + n]);
    let expected = step(m, call);
    assert_eq!(answer, expected.answer);
    assert!(lent == [front, expected.lent.list, back].concat(), "findings after {after:?} into a list of {n} between others");
}

/// Findings and what is near them as cursors, and any three numbers.
fn near(r: &mut Random, m: &[u64]) -> Finding {
    let all = Register::decode(m).map_or(vec![], |registry| registry.findings());
    if all.is_empty() || r.once_in(3) {
        return cursor(r);
    }
    let early = *r.pick(&[1, 10]);
    let (k, a, b) = *r.pick(&all[..all.len().div_ceil(early)]);
    match r.below(5) {
        0 => (k, a, b.wrapping_sub(1)),
        1 => (k, a, b + 1),
        2 => (k, a, *r.pick(&[63, 64, 127, 128, 255, 256, 65535])),
        3 => (k, *r.pick(&[127, 128, 255, 256, 65535]), b),
        _ => (k, a, b),
    }
}

#[test]
fn findings_into_lists_of_each_length() {
    let mut filled = [0; LISTS.len()];
    seeds(90_000, 60, |r| {
        let entries = r.below(90) as usize;
        let made = memory(r, entries);
        let mut flipped = made.clone();
        flip(r, &mut flipped);
        let (any, size) = (r.words(WORDS), *r.pick(&OTHER_SIZES));
        for m in [&made, &disordered(r, &made), &flipped, &any, &r.words(size), &made[1..].to_vec()] {
            for (i, n) in LISTS.into_iter().enumerate() {
                let call = Call::Findings(near(r, m), r.words(n));
                check_between(r, m, &call);
                filled[i] += u64::from(step(m, &call).answer == n as u64);
                check(&[on_c], m, &[call]);
            }
        }
    });
    assert!(filled[..6].iter().all(|n| *n >= 10), "few lists were filled: {filled:?}");
}

/// 256 containers of which all but one are open to all, and 128 policies alike: more findings than the longest list holds.
#[test]
fn more_findings_than_a_list_holds() {
    let container = |i: u16| bytes::container(if i == 40 { &[(2, 1)] } else { &[] });
    let m = full(&bytes::settings(1, 0, 0), container, |_| bytes::policy(INGRESS, &[(2, 1)], &[(2, 1)]));
    let all = codes(&m);
    assert_eq!(all.len(), 73_409);
    let mut r = Random::new(91_000);
    assert_eq!(walk(&m, all.len()), all);
    assert!(walk_by_lists(&mut r, &m, all.len()) == all);
    for n in LISTS {
        let first = Call::Findings(START, r.words(n));
        check_between(&mut r, &m, &first);
        check(&[on_c], &m, &[first, findings(&mut r, n)]);
    }
    check(&[on_c], &m, &[Call::Findings(finding(all[69_999]), r.words(70_000))]);
}

/// As many users as containers, or fewer, and some containers of no user.
#[test]
fn findings_among_any_number_of_users() {
    for users in [1, 2, 63, 64, 65, 255, 256] {
        let label = |i: u16| if i % 7 == 3 { (2, 1) } else { (1, 1 + i * 5 % users) };
        let m = full(&bytes::settings(1, 0, 0), |i| bytes::container(&[label(i)]), |_| bytes::policy(INGRESS, &[(3, 1)], &[]));
        let all = codes(&m);
        assert!(walk_by_lists(&mut Random::new(92_000), &m, all.len()) == all, "{users} users");
    }
}

#[test]
fn a_query_changes_nothing() {
    let mut r = Random::new(60_000);
    let m = memory(&mut r, 30);
    for call in [
        Call::Reaches(0, 1),
        Call::CarriesUser(0, 1),
        Call::NextFinding(START),
        Call::Findings(START, r.words(10)),
        Call::Counts,
        Call::Audit,
        Call::Write(r.bytes(30_000)),
    ] {
        assert_eq!(on_c(&m, &call).memory, m, "{call:?}");
    }
}

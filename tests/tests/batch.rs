//! A batch of admissions over the C interface: against the reference, which admits its blocks one after another, and against single
//! admissions through C.

use bihokura_tests::answers::{outcome, pair, refused, Refusal, Tally};
use bihokura_tests::bytes::{container, policy, sealed, settings, spoiled, EGRESS, INGRESS};
use bihokura_tests::cases::{batch, disordered, flip, memory, tally, OTHER_SIZES};
use bihokura_tests::layout::{CONTAINER_SLOTS, POLICY_SLOTS, WORDS};
use bihokura_tests::random::{case, seeds, Random};
use bihokura_tests::reference::{step, Call, Register};
use bihokura_tests::registries::{self, Registry};
use bihokura_tests::sides::{check, on_c, ALL, BASELINES};
use bihokura_tests::{c, layout};
use std::collections::BTreeMap;

/// The call lent blocks, a list and a tally that stand between others does what the reference does, and writes to nothing around
/// them. The two numbers of each block, if it was accepted, or its refusal.
fn check_between(r: &mut Random, m: &[u64], bytes: &[u8], room: usize) -> Result<Vec<u16>, Refusal> {
    let lent_bytes = [&[7][..], bytes].concat();
    let (front, list, back) = (r.numbers(7), r.numbers(room), r.numbers(300));
    let (mut numbers, tallies) = ([&front[..], &list, &back].concat(), [tally(r), tally(r), tally(r)]);
    let (mut left, mut left_tallies) = (m.to_vec(), tallies);
    let answer = c::admit_batch(&mut left, &lent_bytes[1..], &mut numbers[7..7 + room], &mut left_tallies[1]);
    let expected = step(m, &Call::AdmitBatch(bytes.to_vec(), list, tallies[1]));
    assert_eq!(answer, expected.answer, "{} bytes, a list of {room}", bytes.len());
    assert!(left == expected.memory, "{} bytes", bytes.len());
    let put = expected.lent.numbers.clone();
    assert_eq!(numbers, [front, expected.lent.numbers, back].concat(), "{} bytes, a list of {room} between others", bytes.len());
    assert_eq!(left_tallies, [tallies[0], expected.lent.tally, tallies[2]]);
    outcome(answer).map(|_| put[..bytes.len() / 256].to_vec())
}

/// The batch leaves the memory that single admissions through C leave, and their answers and their count.
fn check_as_single(r: &mut Random, m: &[u64], bytes: &[u8]) {
    let (mut single, mut numbers, mut count) = (m.to_vec(), vec![], tally(r));
    let call = Call::AdmitBatch(bytes.to_vec(), r.numbers(bytes.len() / 256 + 5), count);
    for block in bytes.chunks(512) {
        let admitted = outcome(c::admit(&mut single, block));
        numbers.extend(pair(admitted));
        let of = if admitted.is_ok() { &mut count.taken } else { &mut count.refused };
        *of = of.saturating_add(1);
    }
    numbers.extend(&call.lent().numbers[numbers.len()..]);
    let left = on_c(m, &call);
    assert_eq!((left.answer, left.lent.numbers, left.lent.tally), (0, numbers, count));
    let differs = (0..WORDS).find(|i| left.memory[*i] != single[*i]);
    assert_eq!(differs, None, "the word at which the memories differ");
}

fn check_batch(r: &mut Random, m: &[u64], bytes: &[u8]) -> Vec<u16> {
    check_as_single(r, m, bytes);
    check(&BASELINES, m, &[Call::AdmitBatch(bytes.to_vec(), r.numbers(bytes.len() / 256 + 3), tally(r))]);
    let extra = r.below(6) as usize;
    check_between(r, m, bytes, bytes.len() / 256 + extra).unwrap()
}

/// Over consistent registries and others: how many blocks were taken and refused, and how often a registry was left out of step.
#[test]
fn batches_of_each_number_of_blocks() {
    let (mut met, mut out_of_step) = (BTreeMap::new(), 0);
    seeds(110_000, 25, |r| {
        for n in [0, 1, 2, 30, 127, 128] {
            let entries = r.below(40) as usize;
            let made = memory(r, entries);
            let bytes = batch(r, n);
            for m in [&made, &disordered(r, &made)] {
                for put in check_batch(r, m, &bytes).chunks(2) {
                    *met.entry(put[0]).or_insert(0) += 1;
                }
            }
            let mut m = disordered(r, &made);
            assert_eq!(outcome(c::admit_batch(&mut m, &bytes, &mut vec![0; 2 * n], &mut Tally::default())), Ok(0));
            out_of_step += u64::from(outcome(c::audit(&m)) == Ok(0));
        }
    });
    for number in [0, 4, 5, 6, 7, 8, 9] {
        assert!(met.get(&number).is_some_and(|n| *n >= 5), "blocks by their first number: {met:?}");
    }
    assert!(out_of_step > 20, "out of step afterwards: {out_of_step}");
}

/// A batch cut in two anywhere is two batches.
#[test]
fn a_batch_in_two() {
    seeds(111_000, 100, |r| {
        let (entries, n) = (r.below(40) as usize, r.below(129) as usize);
        let made = memory(r, entries);
        let (m, bytes) = (disordered(r, &made), batch(r, n));
        let (cut, list, from) = (r.below(n as u64 + 1) as usize, r.numbers(2 * n), tally(r));
        let whole = on_c(&m, &Call::AdmitBatch(bytes.clone(), list.clone(), from));
        let first = on_c(&m, &Call::AdmitBatch(bytes[..512 * cut].to_vec(), list[..2 * cut].to_vec(), from));
        let second = Call::AdmitBatch(bytes[512 * cut..].to_vec(), list[2 * cut..].to_vec(), first.lent.tally);
        let second = on_c(&first.memory, &second);
        assert!(whole.memory == second.memory);
        assert_eq!(whole.lent.numbers, [first.lent.numbers, second.lent.numbers].concat());
        assert_eq!(whole.lent.tally, second.lent.tally);
    });
}

// ---- refused batches

/// The refusal of a well-formed memory's batch: 14 comes before 13.
fn refusal(length: usize, room: usize) -> Result<(), Refusal> {
    if length > 65_536 || !length.is_multiple_of(512) {
        Err(refused(14))
    } else if room < length / 256 {
        Err(refused(13))
    } else {
        Ok(())
    }
}

/// Lengths of no blocks, of 1, 2, 127 and 128, of 129 and 130, and near them; lists as long as they must be, and near that.
#[test]
fn lengths_and_lists() {
    let mut r = Random::new(112_000);
    let (m, all) = (memory(&mut r, 20), batch(&mut r, 130));
    for length in [0, 1, 511, 512, 513, 1023, 1024, 1025, 65_023, 65_024, 65_535, 65_536, 65_537, 66_048, 66_560] {
        let need = 2 * (length / 512usize);
        for room in [0, 1, need.saturating_sub(1), need, need + 1, need + 5, 300] {
            let found = check_between(&mut r, &m, &all[..length], room);
            assert_eq!(found.map(|_| ()), refusal(length, room), "{length} bytes, a list of {room}");
            check(&BASELINES, &m, &[Call::AdmitBatch(all[..length].to_vec(), r.numbers(room), tally(&mut r))]);
        }
    }
}

/// 1 and 2 come before 14 and 13, and each of them leaves all that is lent.
#[test]
fn memories_of_each_sort() {
    let mut met = BTreeMap::new();
    seeds(113_000, 40, |r| {
        let entries = r.below(60) as usize;
        let made = memory(r, entries);
        let mut flipped = made.clone();
        flip(r, &mut flipped);
        let (any, size, bytes) = (r.words(WORDS), *r.pick(&OTHER_SIZES), batch(r, 3));
        for m in [&made, &disordered(r, &made), &flipped, &any, &r.words(size), &made[1..].to_vec()] {
            for (length, room) in [(0, 0), (1536, 6), (1536, 9), (1536, 5), (1535, 6), (1535, 0), (0, 3)] {
                let found = check_between(r, m, &bytes[..length], room).map(|_| ());
                let formed = Register::decode(m).is_some();
                let expected = if m.len() != WORDS { Err(refused(1)) } else { Ok(()) };
                let expected = expected.and(if formed { Ok(()) } else { Err(refused(2)) }).and(refusal(length, room));
                assert_eq!(found, expected, "{} words, {length} bytes, a list of {room}", m.len());
                check(&BASELINES, m, &[Call::AdmitBatch(bytes[..length].to_vec(), r.numbers(room), tally(r))]);
                *met.entry(found.err()).or_insert(0) += 1;
            }
        }
    });
    assert!(met.len() == 5 && met.values().all(|n| *n > 50), "calls by their refusal: {met:?}");
}

// ---- refused blocks

/// Blocks that are refused, with each number from 4 to 9, and the position at fault. With 3 none can be: the blocks of a batch have
/// 512 bytes each.
fn faulty() -> Vec<([u16; 2], Vec<u8>)> {
    let (one, two) = ([(1, 1)], [(2, 1), (1, 1)]);
    let changed = |mut block: Vec<u8>, at: usize| {
        block[at] ^= 1;
        sealed(&block[..510])
    };
    vec![
        ([4, 510], spoiled(container(&one))),
        ([4, 510], vec![255; 512]),
        ([5, 0], settings(1, 0, 0)),
        ([5, 0], vec![0; 512]),
        ([6, 1], sealed(&[67, 9])),
        ([6, 1], policy(3, &one, &[])),
        ([6, 1], policy(0, &one, &[])),
        ([6, 2], sealed(&[80, 1, 5, 0])),
        ([6, 3], sealed(&[80, 1, 0, 5])),
        ([7, 4], container(&[(65, 1)])),
        ([7, 6], container(&[(1, 0)])),
        ([7, 4], policy(INGRESS, &[(0, 1)], &[])),
        ([7, 8], policy(INGRESS, &one, &[(256, 1)])),
        ([8, 8], container(&two)),
        ([8, 8], policy(EGRESS, &two, &[])),
        ([8, 12], policy(EGRESS, &one, &[(3, 1), (3, 2)])),
        ([9, 2], changed(container(&one), 2)),
        ([9, 8], changed(container(&one), 8)),
        ([9, 36], changed(container(&one), 36)),
        ([9, 12], changed(policy(EGRESS, &one, &one), 12)),
        ([9, 35], changed(policy(EGRESS, &one, &one), 35)),
        ([9, 508], changed(policy(EGRESS, &one, &one), 508)),
        ([9, 509], changed(policy(EGRESS, &one, &one), 509)),
    ]
}

/// Between others a refused block changes nothing; a batch may have nothing else.
#[test]
fn each_refusal_of_a_block() {
    let mut r = Random::new(114_000);
    let mut m = vec![0; WORDS];
    assert_eq!(c::open(&mut m, &settings(1, 2, 9)), 0);
    let good = [container(&[(1, 1)]), policy(EGRESS, &[(1, 1)], &[(1, 2)]), container(&[(1, 2)])];
    let taken = [[0, 0], [0, 0], [0, 1]];
    for (refused, bad) in faulty() {
        let blocks = [&good[0], &bad, &good[1], &bad, &bad, &good[2]].map(|b| &b[..]).concat();
        let expected = [taken[0], refused, taken[1], refused, refused, taken[2]].concat();
        assert_eq!(check_batch(&mut r, &m, &blocks), expected);
        assert_eq!(check_batch(&mut r, &m, &bad), refused);
        let mut alone = m.clone();
        c::admit_batch(&mut alone, &bad.repeat(128), &mut [0; 256], &mut Tally::default());
        assert!(alone == m);
    }
    let all = faulty();
    let blocks: Vec<u8> = all.iter().flat_map(|(_, b)| [&b[..], &good[0]].concat()).collect();
    let expected: Vec<u16> = all.iter().zip(0..).flat_map(|(([number, position], _), i)| [*number, *position, 0, i]).collect();
    assert_eq!(check_batch(&mut r, &m, &blocks), expected);
}

/// A table fills up in the middle of a batch: 12 for its blocks from there on, the other faults before it, and the other table goes
/// on. Slots that were freed are taken first.
#[test]
fn tables_that_fill_up() {
    let mut r = Random::new(115_000);
    let mut m = vec![0; WORDS];
    assert_eq!(c::open(&mut m, &settings(1, 2, 9)), 0);
    for i in 0..CONTAINER_SLOTS as u16 {
        assert_eq!(outcome(c::admit(&mut m, &container(&[(1, 1 + i % 7), (3, 1 + i % 5)]))), Ok(u64::from(i)));
    }
    for q in 0..POLICY_SLOTS as u16 {
        let block = policy([INGRESS, EGRESS][usize::from(q % 2)], &[(1, 1 + q % 9)], &[(3, 1 + q % 4)]);
        assert_eq!(outcome(c::admit(&mut m, &block)), Ok(u64::from(q)));
    }
    let (x, p, bad) = (container(&[(1, 3), (3, 2)]), policy(EGRESS, &[(1, 3)], &[(3, 2)]), spoiled(container(&[])));
    let mixed = [&x, &bad, &p, &x, &p, &x, &p, &p, &bad, &x].map(|b| &b[..]).concat();
    // both are full
    assert_eq!(check_batch(&mut r, &m, &mixed), [12, 0, 4, 510, 12, 0, 12, 0, 12, 0, 12, 0, 12, 0, 12, 0, 4, 510, 12, 0]);
    assert_eq!(check_batch(&mut r, &m, &x.repeat(128)), [12, 0].repeat(128));
    for slot in [255, 17] {
        assert_eq!(c::remove_container(&mut m, slot), 0);
    }
    for slot in [64, 0, 127] {
        assert_eq!(c::remove_policy(&mut m, slot), 0);
    }
    for m in [&m, &disordered(&mut r, &m)] {
        assert_eq!(check_batch(&mut r, m, &mixed), [0, 17, 4, 510, 0, 0, 0, 255, 0, 64, 12, 0, 0, 127, 12, 0, 4, 510, 12, 0]);
    }
    // a full table of policies, and 126 containers come
    let slots: Vec<u64> = (0..126).map(|i| 2 * i).collect();
    slots.iter().skip(1).for_each(|slot| assert_eq!(c::remove_container(&mut m, *slot), 0));
    let put = check_batch(&mut r, &m, &x.repeat(128));
    assert_eq!(put[..6], [0, 2, 0, 4, 0, 6]);
    assert_eq!(put[250..], [0, 250, 0, 255, 12, 0]);
}

/// Whole tables by whole batches.
#[test]
fn tables_in_batches() {
    let mut r = Random::new(120_000);
    let mut m = vec![0; WORDS];
    assert_eq!(c::open(&mut m, &settings(1, 2, 9)), 0);
    let containers = |from: u16| (from..from + 128).flat_map(|i| container(&[(1, 1 + i % 7), (3, 1 + i % 50)])).collect();
    let policies = (0..128).flat_map(|q| policy([INGRESS, EGRESS][usize::from(q % 3 == 1)], &[(3, 1 + q)], &[(1, 1 + q % 7)]));
    let batches: [Vec<u8>; 4] = [containers(0), policies.collect(), containers(128), containers(256)];
    for (blocks, from) in batches.iter().zip([Some(0), Some(0), Some(128), None]) {
        let put = check_batch(&mut r, &m, blocks);
        let slots = (0..128).flat_map(|i| from.map_or([12, 0], |from| [0, from + i]));
        assert_eq!(put, slots.collect::<Vec<_>>());
        assert_eq!(c::admit_batch(&mut m, blocks, &mut [0; 256], &mut Tally::default()), 0);
        assert_eq!(outcome(c::audit(&m)), Ok(1));
    }
}

// ---- the tally

#[test]
fn a_tally_stays_at_the_largest_number() {
    let (m, blocks) = (memory(&mut Random::new(116_000), 5), [container(&[]), spoiled(container(&[]))].concat().repeat(2));
    let last = u64::MAX;
    let counts = [(0, 2), (41, 43), (last - 3, last - 1), (last - 2, last), (last - 1, last), (last, last)];
    for (taken, taken_after) in counts {
        for (refused, refused_after) in counts {
            let call = Call::AdmitBatch(blocks.clone(), vec![7; 8], Tally { taken, refused });
            let left = on_c(&m, &call).lent.tally;
            assert_eq!((left.taken, left.refused), (taken_after, refused_after), "from {taken} and {refused}");
            check(&ALL, &m, &[call, Call::AdmitBatch(vec![], vec![], Tally { taken, refused })]);
        }
    }
}

// ---- what touches what

/// A policy and the containers that it selects and allows, in every order, on consistent registries and others.
#[test]
fn a_policy_and_its_containers_in_one_batch() {
    let mut r = Random::new(117_000);
    let (x, y) = (container(&[(1, 1), (3, 1)]), container(&[(1, 2), (4, 1)]));
    for direction in [INGRESS, EGRESS] {
        let p = policy(direction, &[(3, 1)], &[(4, 1)]);
        let orders = [[&p, &x, &y], [&x, &p, &y], [&x, &y, &p], [&p, &y, &x], [&y, &p, &x], [&y, &x, &p]];
        for entries in [0, 6, 20] {
            let m = memory(&mut r, entries);
            for order in orders {
                let blocks = order.map(|b| &b[..]).concat();
                check_batch(&mut r, &m, &blocks);
                let mut left = m.clone();
                c::admit_batch(&mut left, &blocks, &mut [0; 6], &mut Tally::default());
                assert_eq!(outcome(c::audit(&left)), Ok(1));
                for _ in 0..5 {
                    let other = disordered(&mut r, &m);
                    check_batch(&mut r, &other, &blocks);
                }
            }
        }
    }
}

/// Stored bits that no entry of the batch touches are kept, wrong as they are; those that one touches are set by the rules.
#[test]
fn bits_that_nothing_touches() {
    let mut r = Random::new(118_000);
    let mut m = vec![0; WORDS];
    assert_eq!(c::open(&mut m, &settings(1, 0, 0)), 0);
    let blocks: Vec<Vec<u8>> = (1..=4).map(|v| container(&[(1, v)])).chain([policy(EGRESS, &[(1, 4)], &[(1, 1)])]).collect();
    assert_eq!(outcome(c::admit_batch(&mut m, &blocks.concat(), &mut [0; 10], &mut Tally::default())), Ok(0));
    // every bit of standing entries turned round
    for row in (0..4).chain([layout::selected(0), layout::allowed(0)]) {
        m[layout::row(row)] ^= 15;
    }
    let row = |m: &[u64], row: usize| m[layout::row(row)];
    let before: Vec<u64> = (0..4).map(|a| row(&m, a)).collect();
    for (direction, rows) in
        [(EGRESS, [before[0], 15, before[2], before[3]]), (INGRESS, [before[0] | 2, before[1] | 2, before[2] | 2, before[3] & !2])]
    {
        // it selects container 1 and allows all
        let p = policy(direction, &[(1, 2)], &[]);
        check_batch(&mut r, &m, &p);
        let left = on_c(&m, &Call::AdmitBatch(p, vec![7; 2], Tally::default())).memory;
        assert_eq!((0..4).map(|a| row(&left, a)).collect::<Vec<_>>(), rows);
        let sets = [layout::selected(0), layout::allowed(0)].map(|set| (row(&m, set), row(&left, set)));
        assert!(sets.iter().all(|(old, new)| old == new));
        assert_eq!([layout::selected(1), layout::allowed(1)].map(|set| row(&left, set)), [2, 15]);
    }
}

// ---- full registries

/// A batch of 128 onto half of a registry, all slots or some of them free in between, in step or not.
fn check_half(registry: &Registry) {
    let r = &mut Random::new(119_000);
    let half = registry.memory_of(128, 64);
    let mut gaps = half.clone();
    (0..40).for_each(|i| assert_eq!(c::remove_container(&mut gaps, 3 * i), 0));
    (0..20).for_each(|i| assert_eq!(c::remove_policy(&mut gaps, 3 * i + 1), 0));
    let bytes = registry.batch(128, 64);
    for m in [&half, &gaps, &disordered(r, &half), &disordered(r, &gaps)] {
        check_as_single(r, m, &bytes);
        let call = Call::AdmitBatch(bytes.clone(), r.numbers(256), tally(r));
        let ours = on_c(m, &call);
        assert!(BASELINES.iter().all(|side| side(m, &call) == ours));
    }
    let call = Call::AdmitBatch(bytes, r.numbers(256), tally(r));
    check(&ALL, &disordered(r, &gaps), &[call, Call::Audit]);
}

#[test]
fn half_registries() {
    for registry in registries::all_and_crowded() {
        case(format_args!("registry {}", registry.name), || check_half(&registry));
    }
}

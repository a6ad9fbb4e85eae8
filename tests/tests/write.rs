//! A registry written into blocks over the C interface: the buffer after the call, and what the file gives when it is opened and
//! admitted again.

use bihokura_tests::answers::{finding, outcome, refused, Finding, START};
use bihokura_tests::bytes::{container, policy, settings, EGRESS, INGRESS};
use bihokura_tests::c;
use bihokura_tests::cases::{disordered, flip, in_step_or_not, memory, OTHER_SIZES};
use bihokura_tests::layout::WORDS;
use bihokura_tests::random::{case, seeds, Random};
use bihokura_tests::reference::{step, Call, Register};
use bihokura_tests::registries::{self, Registry, FILE};
use bihokura_tests::sides::{check, ALL};
use std::collections::BTreeMap;

/// The call lent so many bytes in the middle of a longer buffer does what the reference does, and writes to no byte around them.
/// Its answer.
fn check_between(r: &mut Random, m: &[u64], n: usize) -> u64 {
    let (front, lent, back) = (r.bytes(600), r.bytes(n), r.bytes(600));
    let mut all = [&front[..], &lent, &back].concat();
    let answer = c::write(m, &mut all[front.len()..front.len() + n]);
    let expected = step(m, &Call::Write(lent));
    assert_eq!(answer, expected.answer, "into {n} bytes");
    assert!(all == [front, expected.lent.bytes, back].concat(), "into {n} bytes between others");
    answer
}

/// Slots of a table at which an entry stands.
fn standing<T>(table: &[Option<T>]) -> Vec<usize> {
    (0..table.len()).filter(|i| table[*i].is_some()).collect()
}

/// A free slot comes before an entry.
fn has_gaps(register: &Register) -> bool {
    let gaps = |slots: Vec<usize>| slots.last().is_some_and(|last| *last >= slots.len());
    gaps(standing(&register.containers)) || gaps(standing(&register.policies))
}

#[test]
fn every_length_near_that_of_the_file() {
    let mut r = Random::new(100_000);
    for entries in [0, 1, 12, 60] {
        let mut m = memory(&mut r, entries);
        c::remove_container(&mut m, 0);
        c::remove_policy(&mut m, 0);
        let register = Register::decode(&m).unwrap();
        assert_eq!(has_gaps(&register), entries >= 12);
        let file = register.file().len();
        let around = |n: usize, by: usize| n.saturating_sub(by)..=n + by;
        for n in around(file, 513).chain((0..=file + 2048).step_by(512).flat_map(|n| around(n, 2))) {
            let answer = check_between(&mut r, &m, n);
            assert_eq!(outcome(answer), if n < file { Err(refused(13)) } else { Ok(file as u64) }, "into {n} bytes");
        }
    }
}

/// Memories of each sort, and buffers that the file of the well-formed one fits in or not: 1 and 2 come before 13.
#[test]
fn memories_and_buffers_of_each_sort() {
    let mut met = BTreeMap::new();
    seeds(101_000, 100, |r| {
        let entries = r.below(60) as usize;
        let made = memory(r, entries);
        let file = Register::decode(&made).unwrap().file().len();
        let mut flipped = made.clone();
        flip(r, &mut flipped);
        let (any, size) = (r.words(WORDS), *r.pick(&OTHER_SIZES));
        for m in [&made, &disordered(r, &made), &flipped, &any, &r.words(size), &made[1..].to_vec()] {
            for n in [0, file - 512, file - 1, file, file + 1, file + 512, FILE + 3000] {
                let answer = check_between(r, m, n);
                check(&ALL, m, &[Call::Write(r.bytes(n))]);
                *met.entry((outcome(answer).err(), n < file)).or_insert(0) += 1;
            }
        }
    });
    for (number, short) in [(0, false), (13, true), (1, false), (1, true), (2, false), (2, true)] {
        let refusal = (number != 0).then_some(refused(number));
        assert!(met.get(&(refusal, short)).is_some_and(|n| *n > 100), "{met:?}");
    }
}

/// What the call writes where there is room for any file.
fn written(m: &[u64]) -> Vec<u8> {
    let mut bytes = vec![7; FILE];
    let n = outcome(c::write(m, &mut bytes)).unwrap();
    bytes.truncate(n as usize);
    bytes
}

/// What a file gives in a memory of garbage: its first block opens, the others take the slots 0, 1, 2, .. of their tables.
fn read_back(r: &mut Random, file: &[u8]) -> Vec<u64> {
    let mut m = r.words(WORDS);
    let (first, others) = file.split_at(512);
    assert_eq!(outcome(c::open(&mut m, first)), Ok(0));
    let mut next = BTreeMap::new();
    for block in others.chunks(512) {
        let slot = next.entry(block[0]).or_insert(0);
        assert_eq!(outcome(c::admit(&mut m, block)), Ok(*slot), "an entry of kind {}", block[0]);
        *slot += 1;
    }
    m
}

/// The same entries in the same order, slots closed up; of the bits, those of free slots left out.
fn closed_up(old: &Register) -> Register {
    let (cs, ps) = (standing(&old.containers), standing(&old.policies));
    let mut new = Register::opened(old.settings);
    for (i, a) in cs.iter().enumerate() {
        new.containers[i] = old.containers[*a].clone();
        for (j, b) in cs.iter().enumerate() {
            new.matrix.set(i, j, old.matrix.get(*a, *b));
        }
    }
    for (p, q) in ps.iter().enumerate() {
        new.policies[p] = old.policies[*q].clone();
        for (i, a) in cs.iter().enumerate() {
            new.selected.set(p, i, old.selected.get(*q, *a));
            new.allowed.set(p, i, old.allowed.get(*q, *a));
        }
    }
    new
}

fn findings(m: &[u64]) -> Vec<Finding> {
    let mut list = vec![0; 20_000];
    let n = outcome(c::findings(m, START, &mut list)).unwrap() as usize;
    assert!(n < list.len());
    list[..n].iter().copied().map(finding).collect()
}

/// Each query answers of the new memory what it answers of the old one's standing slots.
fn check_queries(old: &[u64], new: &[u64]) {
    let register = Register::decode(old).unwrap();
    let (cs, ps) = (standing(&register.containers), standing(&register.policies));
    for (i, a) in cs.iter().enumerate() {
        for (j, b) in cs.iter().enumerate() {
            let (x, y) = (c::reaches(old, *a as u64, *b as u64), c::reaches(new, i as u64, j as u64));
            assert_eq!(x, y, "{a} reaches {b}, now {i} and {j}");
        }
        for value in 0..=4 {
            let (x, y) = (c::carries_user(old, *a as u64, value), c::carries_user(new, i as u64, value));
            assert_eq!(x, y, "{a}, now {i}, carries user {value}");
        }
    }
    assert_eq!(c::counts(old), c::counts(new));
    let number = |slots: &[usize], slot: u16| slots.binary_search(&usize::from(slot)).unwrap() as u16;
    let renumbered = |(kind, a, b): Finding| match kind {
        1 | 2 => (kind, number(&cs, a), b),
        3 | 4 => (kind, number(&cs, a), number(&cs, b)),
        5 | 6 => (kind, number(&ps, a), number(&ps, b)),
        _ => (kind, number(&ps, a), b),
    };
    assert_eq!(findings(old).into_iter().map(renumbered).collect::<Vec<_>>(), findings(new));
}

#[test]
fn written_and_read_back() {
    let mut met = BTreeMap::new();
    seeds(102_000, 200, |r| {
        let entries = r.below(50) as usize;
        let old = in_step_or_not(r, entries);
        let register = Register::decode(&old).unwrap();
        let (gaps, in_step) = (has_gaps(&register), register.is_consistent());
        let file = written(&old);
        let new = read_back(r, &file);
        let mut expected = closed_up(&register);
        if in_step {
            check_queries(&old, &new);
        } else {
            expected.rebuild();
        }
        assert!(new == expected.encode());
        assert_eq!(outcome(c::audit(&new)), Ok(1));
        assert!(written(&new) == file);
        *met.entry((gaps, in_step)).or_insert(0) += 1;
    });
    assert!(met.len() == 4 && met.values().all(|n| *n >= 20), "{met:?}");
}

/// A registry's file is its blocks, those of removed entries left out, whatever the stored bits.
fn check_full(registry: &Registry, containers: &[usize], policies: &[usize]) {
    let mut m = registry.memory();
    containers.iter().for_each(|i| assert_eq!(outcome(c::remove_container(&mut m, *i as u64)), Ok(0)));
    policies.iter().for_each(|i| assert_eq!(outcome(c::remove_policy(&mut m, *i as u64)), Ok(0)));
    let left = |blocks: &[Vec<u8>], gone: &[usize]| -> Vec<u8> {
        (0..blocks.len()).filter(|i| !gone.contains(i)).flat_map(|i| blocks[i].clone()).collect()
    };
    let file = [registries::settings(), left(&registry.containers, containers), left(&registry.policies, policies)].concat();
    assert!(written(&m) == file);
    let r = &mut Random::new(103_000);
    let out_of_step = disordered(r, &m);
    for n in [file.len() - 1, file.len(), file.len() + 1] {
        for m in [&m, &out_of_step] {
            check_between(r, m, n);
            check(&ALL, m, &[Call::Write(r.bytes(n))]);
        }
    }
    let new = read_back(r, &file);
    assert!(new == closed_up(&Register::decode(&m).unwrap()).encode());
    assert!(written(&new) == file);
}

#[test]
fn full_registries() {
    let (cs, ps): (Vec<usize>, Vec<usize>) = (registries::containers().collect(), registries::policies().collect());
    for registry in registries::all_and_crowded() {
        case(format_args!("registry {}", registry.name), || check_full(&registry, &[], &[]));
        case(format_args!("registry {}, of which entries are removed", registry.name), || check_full(&registry, &cs, &ps));
    }
}

/// Keys, values and numbers of labels at their limits: the file is what was read.
#[test]
fn entries_at_their_limits() {
    let labels = |n: u16, value: u16| (65 - n..=64).map(|key| (key, value)).collect::<Vec<_>>();
    for system in [settings(64, 64, 65535), settings(64, 64, 1), settings(1, 0, 0)] {
        let mut file = system;
        for n in [0, 1, 7, 8] {
            [1, 255, 256, 65535].iter().for_each(|value| file.extend(container(&labels(n, *value))));
        }
        for (direction, m, n) in [(INGRESS, 0, 0), (EGRESS, 4, 0), (INGRESS, 0, 4), (EGRESS, 4, 4), (INGRESS, 1, 3)] {
            file.extend(policy(direction, &labels(m, 65535), &labels(n, 255)));
        }
        let m = read_back(&mut Random::new(104_000), &file);
        assert!(written(&m) == file);
    }
}

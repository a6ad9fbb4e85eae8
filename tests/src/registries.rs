//! Full registries that the benchmarks and the tests of the label rows go through, each with 256 containers and 128 policies.

use crate::answers::outcome;
use crate::baseline::{self as b, first_place, ByLabels};
use crate::bytes::{self, Pair, EGRESS, INGRESS};
use crate::cases::labels;
use crate::layout::{label_word, CONTAINER_SLOTS, POLICY_SLOTS, WORDS};
use crate::random::Random;
use crate::reference::Call;
use std::ops::RangeInclusive;

pub struct Registry {
    pub name: &'static str,
    pub containers: Vec<Vec<u8>>,
    pub policies: Vec<Vec<u8>>,
}

/// The slots whose entries a benchmark takes out and puts in: 16 of each table.
pub fn containers() -> impl Iterator<Item = usize> {
    (0..16).map(|i| 16 * i + 5)
}

pub fn policies() -> impl Iterator<Item = usize> {
    (0..16).map(|i| 8 * i + i % 8)
}

pub fn settings() -> Vec<u8> {
    bytes::settings(1, 2, 1)
}

/// The bytes of a full registry's file.
pub const FILE: usize = 512 * (1 + CONTAINER_SLOTS + POLICY_SLOTS);

impl Registry {
    fn new(name: &'static str, mut container: impl FnMut() -> Vec<Pair>, mut part: impl FnMut() -> Vec<Pair>) -> Registry {
        Registry {
            name,
            containers: (0..CONTAINER_SLOTS).map(|_| bytes::container(&container())).collect(),
            policies: (0..POLICY_SLOTS).map(|q| bytes::policy([INGRESS, EGRESS][q % 2], &part(), &part())).collect(),
        }
    }

    /// Some of its entries out and in, each time onto what the call before left; then every bit compared and set.
    pub fn calls(&self) -> Vec<Call> {
        let cs = containers().step_by(5).flat_map(|c| [Call::RemoveContainer(c as u64), Call::Admit(self.containers[c].clone())]);
        let ps = policies().step_by(3).flat_map(|q| [Call::RemovePolicy(q as u64), Call::Admit(self.policies[q].clone())]);
        [Call::Audit].into_iter().chain(cs).chain(ps).chain([Call::Audit, Call::Counts, Call::Rebuild, Call::Audit]).collect()
    }

    /// The memory after an open and the admission of this many of its entries.
    pub fn memory_of(&self, containers: usize, policies: usize) -> Vec<u64> {
        let mut m = vec![0; WORDS];
        assert_eq!(outcome(b::open(&mut m, &settings())), Ok(0));
        for block in self.containers[..containers].iter().chain(&self.policies[..policies]) {
            assert!(outcome(b::admit::<ByLabels>(&mut m, block)).is_ok());
        }
        m
    }

    /// 128 blocks of its entries behind this many: 85 containers and 43 policies, two of the first and one of the second by turns.
    pub fn batch(&self, containers: usize, policies: usize) -> Vec<u8> {
        let (mut cs, mut ps) = (self.containers[containers..].iter(), self.policies[policies..].iter());
        let mut next = |i: usize| if i % 3 == 1 { ps.next() } else { cs.next() };
        (0..128).flat_map(|i| next(i).unwrap().clone()).collect()
    }

    /// What lister reads: the settings and so many of its entries.
    pub fn stream(&self, containers: usize, policies: usize) -> Vec<u8> {
        let entries = self.containers[..containers].iter().chain(&self.policies[..policies]);
        settings().into_iter().chain(entries.flatten().copied()).collect()
    }

    /// The memory with all of its entries.
    pub fn memory(&self) -> Vec<u64> {
        self.memory_of(self.containers.len(), self.policies.len())
    }
}

/// The labels under a key for which probing begins at one place, the same for every key: of many such labels nine find a place.
fn colliding(key: u16) -> Vec<Pair> {
    let all = (1..=u16::MAX).map(|v| (key, v));
    all.filter(|(k, v)| first_place(label_word(u64::from(*k), u64::from(*v))) == 17).collect()
}

/// Those of the benchmarks.
pub fn all() -> Vec<Registry> {
    let (mut r, mut s) = (Random::new(1), Random::new(2));
    let one = Registry::new("1", || labels(&mut r, 5..=5, 20, 4), || labels(&mut s, 1..=2, 20, 4));
    let two = Registry::new("2", || labels(&mut r, 5..=5, 64, 4), || labels(&mut s, 1..=2, 64, 4));
    let three = Registry::new("3", || labels(&mut r, 0..=8, 20, 4), || labels(&mut s, 0..=3, 20, 4));
    let four = Registry::new("4", || labels(&mut r, 5..=5, 5, 1), || labels(&mut s, 1..=2, 5, 1));
    // each label of a part is another one, and no container carries it
    let mut others = 101..;
    let other = || labels(&mut s, 4..=4, 8, 1).into_iter().map(|(k, _)| (k, others.next().unwrap())).collect();
    let five = Registry::new("5", || labels(&mut r, 8..=8, 8, 4), other);
    let all: Vec<Vec<Pair>> = (1..=64).map(colliding).collect();
    let pick = |r: &mut Random, n: u64, from: usize| -> Vec<Pair> {
        let keys = labels(r, n..=n, 64, 1);
        keys.into_iter().map(|(k, _)| *r.pick(&all[usize::from(k) - 1][from..from + 25])).collect()
    };
    let six = Registry::new("6", || pick(&mut r, 8, 0), || pick(&mut s, 4, 25));
    // the same parts, and no label on any container: there the trial of the first release is quickest
    let mut t = Random::new(2);
    let seven = Registry::new("7", Vec::new, || pick(&mut t, 4, 25));
    vec![one, two, three, four, five, six, seven]
}

/// 128 pairs of containers, each pair under a policy of its own that lets it be with itself alone, all of one user: but for one
/// container, which carries the system label, nothing is found.
pub fn quiet() -> Registry {
    let (mut c, mut q) = (0.., 0..);
    let container = || {
        let i: u16 = c.next().unwrap();
        [(1, 1), (2, if i == 0 { 1 } else { 2 }), (3, 1 + i / 2), (4, 1 + i % 7), (5, 1 + i % 5)].to_vec()
    };
    Registry::new("quiet", container, || vec![(3, 1 + q.next().unwrap() / 2)])
}

/// 16 labels for which probing begins at one place, on containers and in parts: nine of them find a place, and parts match by both
/// sorts.
fn crowded() -> Registry {
    let all: Vec<Vec<Pair>> = (1..=8).map(colliding).collect();
    let pick = |r: &mut Random, n: RangeInclusive<u64>| -> Vec<Pair> {
        labels(r, n, 8, 1).into_iter().map(|(k, _)| *r.pick(&all[usize::from(k) - 1][..2])).collect()
    };
    let (mut r, mut s) = (Random::new(3), Random::new(4));
    Registry::new("crowded", || pick(&mut r, 6..=8), || pick(&mut s, 1..=3))
}

pub fn all_and_crowded() -> Vec<Registry> {
    all().into_iter().chain([crowded()]).collect()
}

//! Document 02, Note 4, through the C interface: an entry comes to the lowest free slot of its table, whichever slots are free, and the
//! entries of a batch, all of one table, to its free slots, rising.

use bihokura_tests::answers::{outcome, refused, Tally};
use bihokura_tests::c;
use bihokura_tests::random::{seeds, Random};
use bihokura_tests::registries;

/// A table of a full registry: the block of each slot's entry, and the call that takes an entry away.
struct Table {
    full: Vec<u64>,
    blocks: Vec<Vec<u8>>,
    remove: fn(&mut [u64], u64) -> u64,
}

fn tables() -> [Table; 2] {
    let r = registries::all().remove(0);
    let full = r.memory();
    [
        Table { full: full.clone(), blocks: r.containers, remove: c::remove_container },
        Table { full, blocks: r.policies, remove: c::remove_policy },
    ]
}

impl Table {
    fn slots(&self) -> usize {
        self.blocks.len()
    }

    /// The registry in which these slots alone are free, rising.
    fn with_free(&self, free: &[usize]) -> Vec<u64> {
        let mut m = self.full.clone();
        free.iter().for_each(|i| assert_eq!((self.remove)(&mut m, *i as u64), 0));
        m
    }

    /// Each entry that comes is answered with the lowest free slot, one by one, and the next one with 12.
    fn one_by_one(&self, free: &[usize]) {
        let mut m = self.with_free(free);
        for i in free {
            assert_eq!(outcome(c::admit(&mut m, &self.blocks[*i])), Ok(*i as u64), "free: {free:?}");
        }
        assert!(m == self.full, "free: {free:?}");
        assert_eq!(outcome(c::admit(&mut m, &self.blocks[0])), Err(refused(12)), "free: {free:?}");
        assert!(m == self.full, "free: {free:?}");
    }

    /// The same in batches of at most 128.
    fn in_batches(&self, free: &[usize]) {
        let mut m = self.with_free(free);
        let mut answers = vec![];
        let one_more = free.iter().chain([&0]).map(|i| &self.blocks[*i]);
        for batch in one_more.collect::<Vec<_>>().chunks(128) {
            let mut numbers = vec![0; 2 * batch.len()];
            let bytes: Vec<u8> = batch.iter().copied().flatten().copied().collect();
            assert_eq!(c::admit_batch(&mut m, &bytes, &mut numbers, &mut Tally::default()), 0, "free: {free:?}");
            answers.extend(numbers.chunks(2).map(|pair| (pair[0], pair[1])));
        }
        let expected = free.iter().map(|i| (0, *i as u16)).chain([(12, 0)]);
        assert_eq!(answers, expected.collect::<Vec<_>>(), "free: {free:?}");
        assert!(m == self.full, "free: {free:?}");
    }
}

#[test]
fn one_slot_is_free() {
    for t in tables() {
        for i in 0..t.slots() {
            t.one_by_one(&[i]);
            t.in_batches(&[i]);
        }
    }
}

/// All slots from one on, and all below it: the table empty and the table full among them.
#[test]
fn slots_in_a_run() {
    for t in tables() {
        for i in 0..=t.slots() {
            let (below, above): (Vec<usize>, Vec<usize>) = (0..t.slots()).partition(|j| *j < i);
            for free in [below, above] {
                t.in_batches(&free);
                if i % 16 == 0 {
                    t.one_by_one(&free);
                }
            }
        }
    }
}

#[test]
fn two_slots_are_free() {
    for t in tables() {
        for i in 0..t.slots() {
            (0..i).for_each(|j| t.one_by_one(&[j, i]));
        }
    }
}

/// Few slots and many.
#[test]
fn any_slots_are_free() {
    let [containers, policies] = tables();
    let some_of = |r: &mut Random, t: &Table| -> Vec<usize> {
        let of_64 = r.below(65);
        (0..t.slots()).filter(|_| r.below(64) < of_64).collect()
    };
    seeds(150_000, 200, |r| {
        for t in [&containers, &policies] {
            let free = some_of(r, t);
            t.one_by_one(&free);
            t.in_batches(&free);
        }
    });
}

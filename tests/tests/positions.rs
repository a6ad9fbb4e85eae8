//! Document 02, Note 5, through the C interface: a refused block or delivery comes with the position at fault. Blocks that differ from
//! valid ones in a byte or two, by open, admit and admit_batch, against the reference's reader; blocks with several faults, their
//! positions written out; and the refusals that have no position.

use bihokura_tests::answers::{outcome, pair, refused, refused_at, Refusal, Tally, START};
use bihokura_tests::baseline::{self as b, ByLabels};
use bihokura_tests::bytes::{container, policy, seal, sealed, settings, spoiled, Pair, EGRESS, INGRESS};
use bihokura_tests::c;
use bihokura_tests::cases::OTHER_SIZES;
use bihokura_tests::layout::{CONTAINER_SLOTS, POLICY_SLOTS, USER_KEY, WORDS};
use bihokura_tests::random::case;
use bihokura_tests::reference::{read_entry, read_settings, Call, Entry};
use bihokura_tests::sides::on_c;
use std::collections::BTreeSet;
use std::ops::Range;

/// A registry in which the first slots of each table are taken, so many.
struct Registry {
    memory: Vec<u64>,
    taken: [usize; 2],
}

impl Registry {
    fn of(containers: usize, policies: usize) -> Registry {
        let mut memory = vec![0; WORDS];
        assert_eq!(c::open(&mut memory, &settings(1, 2, 9)), 0);
        let blocks = [container(&[(1, 1), (3, 1)]).repeat(containers), policy(EGRESS, &[(1, 1)], &[(3, 2)]).repeat(policies)];
        blocks.concat().chunks(512).for_each(|block| assert!(outcome(c::admit(&mut memory, block)).is_ok()));
        Registry { memory, taken: [containers, policies] }
    }
}

/// What an admission answers by the reference's reader, where so many slots are taken; then the entry takes the next one.
fn admitted(block: &[u8], taken: &mut [usize; 2]) -> Result<u64, Refusal> {
    let (taken, slots) = match read_entry(block)? {
        Entry::Container(_) => (&mut taken[0], CONTAINER_SLOTS),
        Entry::Policy(_) => (&mut taken[1], POLICY_SLOTS),
    };
    if *taken == slots {
        return Err(refused(12));
    }
    *taken += 1;
    Ok(*taken as u64 - 1)
}

/// Calls with blocks, which stand one after another, on a registry. The answers are the reference's; a block that is refused by itself, and a
/// batch of which none is taken, leave the registry as it was. The refusals are added to those met.
type Calls = fn(&Registry, &[u8], &mut Met);
type Met = BTreeSet<Refusal>;

/// Each block onto the same registry.
fn each(
    r: &Registry,
    blocks: &[u8],
    met: &mut Met,
    call: fn(&mut [u64], &[u8]) -> u64,
    right: impl Fn(&[u8]) -> Result<u64, Refusal>,
) {
    let mut m = r.memory.clone();
    for block in blocks.chunks(512) {
        let found = outcome(call(&mut m, block));
        assert_eq!(found, right(block), "{:?}", &block[..FRONT]);
        met.extend(found.err());
        match found {
            Ok(_) => m.copy_from_slice(&r.memory),
            Err(_) => assert!(m == r.memory, "{:?}", &block[..FRONT]),
        }
    }
}

/// Onto it in batches of 128.
fn in_batches(r: &Registry, blocks: &[u8], met: &mut Met, call: fn(&mut [u64], &[u8], &mut [u16], &mut Tally) -> u64) {
    for batch in blocks.chunks(65_536) {
        let (mut m, mut numbers, mut tally) = (r.memory.clone(), vec![9; batch.len() / 256], Tally::default());
        assert_eq!(call(&mut m, batch, &mut numbers, &mut tally), 0);
        let (mut taken, mut refusals) = (r.taken, 0);
        for (block, put) in batch.chunks(512).zip(numbers.chunks(2)) {
            let right = admitted(block, &mut taken);
            assert_eq!(put, pair(right), "{:?}", &block[..FRONT]);
            met.extend(right.err());
            refusals += u64::from(right.is_err());
        }
        assert_eq!((tally.taken + tally.refused, tally.refused), (batch.len() as u64 / 512, refusals));
        assert!(tally.taken != 0 || m == r.memory);
    }
}

/// The register's calls, and plain Rust's.
fn by_open(r: &Registry, blocks: &[u8], met: &mut Met) {
    for call in [c::open, b::open] {
        each(r, blocks, met, call, |block| read_settings(block).map(|_| 0));
    }
}

fn by_admit(r: &Registry, blocks: &[u8], met: &mut Met) {
    for call in [c::admit, b::admit::<ByLabels>] {
        each(r, blocks, met, call, |block| admitted(block, &mut r.taken.clone()));
    }
}

fn by_batches(r: &Registry, blocks: &[u8], met: &mut Met) {
    for call in [c::admit_batch, b::admit_batch::<ByLabels>] {
        in_batches(r, blocks, met, call);
    }
}

// ---- one byte changed

/// Fields and labels are among so many bytes.
const FRONT: usize = 44;

/// The blocks that differ from this one in this byte alone, or in the checksum besides.
fn changed(block: &[u8], at: usize, mended: bool) -> Vec<u8> {
    let mut all = block.repeat(255);
    let others = (0..=255).filter(|byte| *byte != block[at]);
    for (other, byte) in all.chunks_mut(512).zip(others) {
        other[at] = byte;
        if mended {
            seal(other);
        }
    }
    all
}

/// Each byte of a range changed to each other value, and the checksum made right again.
fn check_changed(r: &Registry, block: &[u8], bytes: Range<usize>, calls: &[Calls], met: &mut Met) {
    for at in bytes {
        let blocks = changed(block, at, true);
        case(format_args!("byte {at} of {:?}", &block[..FRONT]), || calls.iter().for_each(|call| call(r, &blocks, met)));
    }
}

/// The refusals that were met are these, each number with all its positions.
fn check_met<const N: usize>(found: &Met, right: [(u64, Vec<usize>); N]) {
    let right = right.into_iter().flat_map(|(number, positions)| positions.into_iter().map(move |p| refused_at(number, p)));
    let right: Met = right.collect();
    let differences: Vec<&Refusal> = found.symmetric_difference(&right).collect();
    assert!(differences.is_empty(), "met and not expected, or the other way round: {differences:?}");
}

/// Of eight labels each key and value is at fault in some block, and each key but the first does not rise in some.
fn keys_and_values() -> [(u64, Vec<usize>); 2] {
    [(7, (4..36).step_by(2).collect()), (8, (8..36).step_by(4).collect())]
}

/// Keys beside each other, and values of which one byte is 0.
fn labels(n: usize) -> Vec<Pair> {
    [(3, 1), (4, 256), (5, 3), (6, 512), (7, 255), (62, 1), (63, 256), (64, 65280)][..n].to_vec()
}

#[test]
fn settings_with_one_byte_changed() {
    let (few, mut met) = (Registry::of(3, 2), Met::new());
    for block in [settings(1, 2, 9), settings(64, 64, 256), settings(3, 0, 0)] {
        check_changed(&few, &block, 0..510, &[by_open], &mut met);
    }
    check_met(&met, [(5, vec![0]), (7, vec![1, 2, 4]), (9, [3].into_iter().chain(6..510).collect())]);
}

#[test]
fn containers_with_one_byte_changed() {
    let (few, mut met) = (Registry::of(3, 2), Met::new());
    for n in 0..=8 {
        check_changed(&few, &container(&labels(n)), 0..FRONT, &[by_admit, by_batches], &mut met);
    }
    for n in [0, 3, 8] {
        check_changed(&few, &container(&labels(n)), FRONT..510, &[by_batches], &mut met);
    }
    check_changed(&few, &container(&labels(3)), FRONT..510, &[by_admit], &mut met);
    let [faults, falling] = keys_and_values();
    check_met(&met, [(5, vec![0]), (6, vec![1]), faults, falling, (9, (2..510).collect())]);
}

/// With byte 0 changed to that of a container, bytes 2 and 3 are no counts. A batch of 128 that are all accepted has no room for the
/// last two.
#[test]
fn policies_with_one_byte_changed() {
    let (few, mut met) = (Registry::of(3, 2), Met::new());
    let block = |direction, select, allow| policy(direction, &labels(select), &labels(allow));
    for (direction, select, allow) in (0..50).map(|i| ([INGRESS, EGRESS][i % 2], i / 2 % 5, i / 10)) {
        check_changed(&few, &block(direction, select, allow), 0..FRONT, &[by_batches], &mut met);
    }
    for (direction, select, allow) in [(INGRESS, 0, 0), (EGRESS, 1, 2), (INGRESS, 4, 0), (EGRESS, 0, 3), (INGRESS, 4, 4)] {
        check_changed(&few, &block(direction, select, allow), 0..FRONT, &[by_admit], &mut met);
        check_changed(&few, &block(direction, select, allow), FRONT..510, &[by_batches], &mut met);
    }
    check_changed(&few, &block(EGRESS, 1, 2), FRONT..510, &[by_admit], &mut met);
    let [faults, falling] = keys_and_values();
    let full = (12, vec![0]);
    check_met(&met, [(5, vec![0]), (6, vec![1, 2, 3]), faults, falling, (9, (2..510).collect()), full]);
}

/// Where both tables are full, what else would be accepted is refused with 12.
#[test]
fn onto_full_tables() {
    let full = Registry::of(CONTAINER_SLOTS, POLICY_SLOTS);
    for block in [container(&labels(3)), policy(EGRESS, &labels(2), &labels(1))] {
        let mut met = Met::new();
        check_changed(&full, &block, 0..FRONT, &[by_admit, by_batches], &mut met);
        let numbers: BTreeSet<u64> = met.iter().map(|refusal| refusal.number).collect();
        assert!(numbers == BTreeSet::from([5, 6, 7, 8, 9, 12]) && met.len() > 40, "{met:?}");
    }
}

/// Settings to admit, entries to open with.
#[test]
fn blocks_of_the_other_call() {
    let few = Registry::of(3, 2);
    let all: [(Vec<u8>, &[Calls]); 3] = [
        (settings(1, 2, 9), &[by_admit, by_batches]),
        (container(&labels(8)), &[by_open]),
        (policy(INGRESS, &labels(1), &labels(0)), &[by_open]),
    ];
    for (block, calls) in all {
        let mut met = Met::new();
        check_changed(&few, &block, 0..FRONT, calls, &mut met);
        assert!(met.contains(&refused(5)) && met.len() > 1, "{met:?}");
    }
}

/// A block that differs in one byte alone, one of the checksum among them, has a wrong checksum, whatever else is wrong with it.
#[test]
fn checksums_that_are_not_mended() {
    let (few, mut met) = (Registry::of(3, 2), Met::new());
    for (block, call, every) in [
        (settings(1, 2, 9), by_open as Calls, 0..512),
        (container(&labels(8)), by_batches, 0..512),
        (policy(INGRESS, &labels(2), &labels(3)), by_batches, 0..512),
        (container(&labels(2)), by_admit, 0..FRONT),
        (policy(EGRESS, &labels(4), &labels(1)), by_admit, 0..FRONT),
        (container(&labels(0)), by_admit, 508..512),
    ] {
        every.for_each(|at| call(&few, &changed(&block, at, false), &mut met));
    }
    check_met(&met, [(4, vec![510])]);
}

// ---- several faults

/// The blocks that differ from this one in two bytes at most, each changed to some that are often a fault.
fn changed_twice(block: &[u8], at: usize, behind: usize) -> Vec<u8> {
    let (mut all, bytes) = (block.repeat(16), [0, 1, 5, 65]);
    for (i, other) in all.chunks_mut(512).enumerate() {
        (other[at], other[behind]) = (bytes[i % 4], bytes[i / 4]);
        seal(other);
    }
    all
}

/// Any two bytes of the front, or one of these and one of the last two before the checksum.
#[test]
fn two_bytes_changed() {
    let few = Registry::of(3, 2);
    let all: [(Vec<u8>, &[Calls]); 4] = [
        (settings(1, 2, 9), &[by_open]),
        (container(&labels(8)), &[by_batches]),
        (policy(EGRESS, &labels(2), &labels(2)), &[by_admit, by_batches]),
        (policy(INGRESS, &labels(1), &labels(0)), &[by_batches]),
    ];
    for (block, calls) in all {
        let mut met = Met::new();
        for at in 0..FRONT {
            let behind = (at + 1..FRONT).chain([508, 509]);
            let blocks: Vec<u8> = behind.flat_map(|behind| changed_twice(&block, at, behind)).collect();
            case(format_args!("byte {at} of {:?}", &block[..FRONT]), || {
                calls.iter().for_each(|call| call(&few, &blocks, &mut met))
            });
        }
        assert!(met.len() > 40, "{met:?}");
    }
}

/// Blocks with several faults by how they begin, and the refusal.
const ENTRIES: [(&[u8], u64, usize); 26] = [
    // a kind that is none, and limits
    (&[79, 3, 5, 5, 0, 65], 5, 0),
    // a limit, and behind it unused bytes, keys and values; of three limits the first
    (&[67, 9, 1, 1, 0, 0, 0, 0], 6, 1),
    (&[80, 3, 5, 5, 0, 65], 6, 1),
    (&[80, 0, 4, 5], 6, 1),
    (&[80, 1, 5, 5], 6, 2),
    (&[80, 2, 255, 4, 0, 65], 6, 2),
    (&[80, 2, 4, 5, 0, 65], 6, 3),
    // a key and its value; a value and a later key; a key's two bytes
    (&[67, 1, 0, 0, 0, 65, 0, 0], 7, 4),
    (&[67, 2, 0, 0, 0, 3, 0, 0, 0, 65, 0, 1], 7, 6),
    (&[67, 1, 0, 0, 1, 65, 0, 1], 7, 4),
    (&[67, 1, 0, 0, 1, 3, 0, 0], 7, 4),
    // both parts, and the second where keys of the first do not rise
    (&[80, 1, 1, 1, 0, 3, 0, 0, 0, 65, 0, 1], 7, 6),
    (&[80, 1, 1, 1, 0, 3, 0, 1, 0, 65, 0, 0], 7, 8),
    (&[80, 2, 2, 1, 0, 3, 0, 1, 0, 3, 0, 1, 0, 1, 0, 0], 7, 14),
    // a key that does not rise or an unused byte, and behind it a key or a value
    (&[67, 2, 0, 0, 0, 3, 0, 1, 0, 2, 0, 0], 7, 10),
    (&[67, 1, 0, 1, 0, 3, 0, 0], 7, 6),
    (&[67, 3, 0, 0, 0, 3, 0, 1, 0, 3, 0, 1, 0, 65, 0, 1], 7, 12),
    // keys that do not rise: of several the first; of each part by itself; an unused byte before them
    (&[67, 4, 0, 0, 0, 3, 0, 1, 0, 3, 0, 1, 0, 5, 0, 1, 0, 4, 0, 1], 8, 8),
    (&[67, 3, 0, 0, 0, 3, 0, 1, 0, 5, 0, 1, 0, 4, 0, 1, 1], 8, 12),
    (&[67, 2, 1, 0, 0, 3, 0, 1, 0, 2, 0, 1], 8, 8),
    (&[80, 2, 2, 2, 0, 3, 0, 1, 0, 2, 0, 1, 0, 5, 0, 1, 0, 5, 0, 1], 8, 8),
    (&[80, 2, 2, 2, 0, 3, 0, 1, 0, 4, 0, 1, 0, 3, 0, 1, 0, 3, 0, 2], 8, 16),
    // unused bytes
    (&[67, 0, 1, 1, 1], 9, 2),
    (&[67, 0, 0, 1, 1], 9, 3),
    (&[67, 1, 0, 0, 0, 3, 0, 1, 0, 0, 1, 1], 9, 10),
    (&[80, 1, 0, 1, 0, 3, 0, 1, 0, 3, 0, 2], 9, 9),
];

const SETTINGS: [(&[u8], u64, usize); 9] = [
    (&[67, 0, 65, 1], 5, 0),
    (&[83, 0, 65, 1, 0, 9], 7, 1),
    (&[83, 65, 0, 0, 0, 9], 7, 1),
    (&[83, 1, 65, 1, 0, 0], 7, 2),
    (&[83, 1, 255, 0, 0, 9, 1], 7, 2),
    (&[83, 1, 0, 1, 1, 0], 7, 4),
    (&[83, 1, 2, 1, 0, 0, 1], 7, 4),
    (&[83, 1, 2, 1, 0, 9, 1], 9, 3),
    (&[83, 1, 0, 0, 0, 0, 0, 1, 1], 9, 7),
];

/// A short block comes before a wrong checksum, and that before all others.
fn check_faults(fronts: &[(&[u8], u64, usize)], read: fn(&[u8]) -> Option<Refusal>, call: fn(&mut [u64], &[u8]) -> u64) {
    let few = Registry::of(3, 2);
    for (front, number, position) in fronts {
        let block = sealed(front);
        let wrong = spoiled(block.clone());
        let all = [(&block[..], refused_at(*number, *position)), (&wrong, refused_at(4, 510)), (&wrong[..511], refused(3))];
        for (block, refusal) in all {
            let mut m = few.memory.clone();
            assert_eq!(outcome(call(&mut m, block)), Err(refusal), "{front:?}");
            assert!(m == few.memory);
            assert_eq!(read(block), Some(refusal), "the reference, {front:?}");
        }
    }
}

#[test]
fn the_first_of_several_faults() {
    check_faults(&SETTINGS, |block| read_settings(block).err(), c::open);
    check_faults(&ENTRIES, |block| read_entry(block).err(), c::admit);
    let blocks: Vec<u8> = ENTRIES.iter().flat_map(|(front, ..)| sealed(front)).collect();
    by_batches(&Registry::of(3, 2), &blocks, &mut Met::new());
}

// ---- refusals without a position

#[test]
fn blocks_of_another_length() {
    let few = Registry::of(3, 2);
    for block in [settings(1, 2, 9), container(&labels(8)), policy(INGRESS, &labels(1), &labels(4)), vec![255; 512]] {
        for length in (0..512).chain([513, 514, 1023, 1024, 65_536]) {
            let other: Vec<u8> = block.iter().copied().cycle().take(length).collect();
            for call in [c::open, c::admit] {
                let mut m = few.memory.clone();
                assert_eq!(outcome(call(&mut m, &other)), Err(refused(3)), "{length} bytes");
                assert!(m == few.memory, "{length} bytes");
            }
        }
    }
}

/// The call is refused with a number and nothing below it, and leaves what it was lent.
fn check_alone(m: &[u64], call: &Call, number: u64) {
    let left = on_c(m, call);
    assert_eq!(left.answer, number << 56, "{call:?}");
    assert!(left.memory == m && left.lent == call.lent(), "{call:?}");
}

/// Of a memory with another size or that is not well formed no block is read, but by open, which asks for the size alone.
#[test]
fn memories_that_are_refused() {
    let bad = container(&[(1, 0)]);
    let calls = [
        Call::Admit(bad.clone()),
        Call::AdmitBatch(bad.clone(), vec![7; 2], Tally::default()),
        Call::AdmitBatch(bad, vec![7; 1], Tally::default()),
        Call::RemoveContainer(256),
        Call::RemovePolicy(128),
        Call::Reaches(256, 0),
        Call::CarriesUser(256, 1),
        Call::NextFinding(START),
        Call::Findings(START, vec![7; 9]),
        Call::Counts,
        Call::Rebuild,
        Call::Audit,
        Call::Write(vec![7; 9]),
    ];
    let open = Call::Open(settings(1, 65, 9));
    for size in OTHER_SIZES {
        calls.iter().chain([&open]).for_each(|call| check_alone(&vec![1; size], call, 1));
    }
    let mut user = Registry::of(3, 2).memory;
    user[USER_KEY] = 65;
    for m in [vec![0; WORDS], vec![u64::MAX; WORDS], user] {
        calls.iter().for_each(|call| check_alone(&m, call, 2));
        assert_eq!(outcome(on_c(&m, &open).answer), Err(refused_at(7, 2)));
    }
}

/// Calls that are lent no block, a batch that is refused whole, and full tables.
#[test]
fn numbers_alone() {
    let (few, full) = (Registry::of(3, 2).memory, Registry::of(CONTAINER_SLOTS, POLICY_SLOTS).memory);
    let bad = container(&[(1, 0)]);
    let batch = |bytes: &[u8], room| Call::AdmitBatch(bytes.to_vec(), vec![7; room], Tally::default());
    for (call, number) in [
        (Call::RemoveContainer(256), 10),
        (Call::RemoveContainer(3), 11),
        (Call::RemovePolicy(128), 10),
        (Call::RemovePolicy(2), 11),
        (Call::Reaches(256, 0), 10),
        (Call::Reaches(0, 256), 10),
        (Call::Reaches(0, 3), 11),
        (Call::CarriesUser(256, 1), 10),
        (Call::CarriesUser(3, 1), 11),
        (Call::Write(vec![7; 512 * 6 - 1]), 13),
        (batch(&bad, 1), 13),
        (batch(&bad.repeat(128), 255), 13),
        (batch(&bad[..511], 2), 14),
        (batch(&bad.repeat(129), 258), 14),
    ] {
        check_alone(&few, &call, number);
    }
    for block in [container(&labels(3)), policy(INGRESS, &[], &labels(1))] {
        check_alone(&full, &Call::Admit(block), 12);
    }
}

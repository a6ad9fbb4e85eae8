//! What the program `instances` writes, worked out by the separately written register: document 01's instances without a star,
//! each refusal number among them. A line is the instance's number, the refusal or 0, and the answer or the position.

use bihokura_tests::answers::{counts, outcome, Tally};
use bihokura_tests::bytes::{container, policy, sealed, settings, spoiled, Pair, EGRESS, INGRESS};
use bihokura_tests::layout::WORDS;
use bihokura_tests::reference::{step, Call};
use std::fmt::Write;

struct Run {
    memory: Vec<u64>,
    written: String,
}

impl Run {
    fn ask(&mut self, case: u64, call: Call) {
        let left = step(&self.memory, &call);
        self.memory = left.memory;
        match outcome(left.answer) {
            Ok(value) if call == Call::Counts => {
                let (containers, policies, pairs) = counts(value);
                [containers, policies, pairs].into_iter().for_each(|n| self.write(case, 0, n));
            }
            Ok(value) => self.write(case, 0, value),
            Err(refusal) => self.write(case, refusal.number, refusal.position as u64),
        }
    }

    fn write(&mut self, case: u64, refusal: u64, value: u64) {
        writeln!(self.written, "{case} {refusal} {value}").unwrap();
    }

    /// With the two numbers of a list and the tally as the call leaves them, of which it is lent the first n numbers.
    fn batch(&mut self, case: u64, bytes: Vec<u8>, n: usize) {
        let mut numbers = [9; 2];
        let call = Call::AdmitBatch(bytes, numbers[..n].to_vec(), Tally { taken: 2, refused: u64::MAX });
        let lent = step(&self.memory, &call).lent;
        numbers[..n].copy_from_slice(&lent.numbers);
        self.ask(case, call);
        self.write(case, u64::from(numbers[0]), u64::from(numbers[1]));
        self.write(case, lent.tally.taken, lent.tally.refused);
    }

    fn open(&mut self, case: u64, block: Vec<u8>) {
        self.ask(case, Call::Open(block));
    }

    fn admit(&mut self, case: u64, block: Vec<u8>) {
        self.ask(case, Call::Admit(block));
    }
}

/// So many labels with value 1 and rising keys.
fn run_of(n: u16, first: u16) -> Vec<Pair> {
    (first..first + n).map(|key| (key, 1)).collect()
}

/// The block with one byte changed and the check made good.
fn changed(block: Vec<u8>, at: usize, byte: u8) -> Vec<u8> {
    let mut front = block[..510].to_vec();
    front[at] = byte;
    sealed(&front)
}

fn opening(r: &mut Run) {
    let ours = std::mem::replace(&mut r.memory, vec![0; WORDS - 1]);
    r.open(1, settings(1, 2, 9));
    r.memory = ours;
    r.admit(2, container(&run_of(1, 1)));
    r.open(3, settings(1, 2, 9)[1..].to_vec());
    r.open(4, spoiled(settings(1, 2, 9)));
    r.open(5, container(&run_of(1, 1)));
    r.open(6, settings(0, 2, 9));
    r.open(7, settings(64, 2, 9));
    r.open(8, settings(65, 2, 9));
    r.open(9, settings(1, 64, 9));
    r.open(10, settings(1, 65, 9));
    r.open(11, settings(1, 0, 9));
    r.open(12, settings(1, 0, 0));
    r.open(13, changed(settings(1, 0, 0), 3, 1));
    r.open(14, settings(1, 2, 0));
    r.open(15, changed(settings(1, 0, 0), 509, 1));
    r.open(16, settings(1, 2, 9));
}

fn containers(r: &mut Run) {
    let two = || container(&run_of(2, 3));
    r.admit(17, settings(1, 2, 9));
    r.admit(18, container(&run_of(8, 1)));
    r.admit(19, container(&run_of(9, 1)));
    r.admit(20, container(&[(64, 1)]));
    r.admit(21, container(&[(65, 1)]));
    r.admit(22, container(&[]));
    r.admit(23, container(&[(0, 1)]));
    r.admit(24, container(&[(1, 0)]));
    r.admit(25, container(&[(3, 1), (3, 1)]));
    r.admit(26, changed(two(), 12, 1));
    r.admit(27, changed(two(), 2, 1));
    r.admit(28, changed(two(), 509, 1));
    r.admit(29, spoiled(two()));
}

fn policies(r: &mut Run) {
    r.admit(30, policy(INGRESS, &run_of(4, 1), &[]));
    r.admit(31, policy(EGRESS, &run_of(5, 1), &[]));
    r.admit(32, policy(EGRESS, &[], &run_of(5, 1)));
    r.admit(33, policy(3, &run_of(1, 1), &[]));
    r.admit(34, policy(0, &run_of(1, 1), &[]));
    r.admit(35, policy(EGRESS, &[(64, 1)], &[]));
    r.admit(36, policy(EGRESS, &[(65, 1)], &[]));
    r.admit(37, policy(EGRESS, &[(3, 1), (3, 1)], &[]));
    r.admit(38, changed(policy(EGRESS, &run_of(2, 3), &[]), 12, 1));
    r.admit(39, policy(EGRESS, &run_of(4, 1), &run_of(4, 5)));
}

fn asking(r: &mut Run) {
    r.ask(40, Call::Reaches(0, 255));
    r.ask(41, Call::Reaches(255, 256));
    r.ask(42, Call::Reaches(256, 255));
    r.ask(43, Call::Reaches(0, 1));
    r.ask(44, Call::Reaches(1, 0));
    r.ask(45, Call::CarriesUser(255, 1));
    r.ask(46, Call::CarriesUser(256, 1));
    r.ask(47, Call::CarriesUser(0, 1));
    r.ask(48, Call::CarriesUser(0, 2));
    r.ask(49, Call::CarriesUser(0, 65536));
    r.ask(50, Call::Counts);
}

fn freeing(r: &mut Run) {
    r.ask(51, Call::RemoveContainer(255));
    r.ask(52, Call::RemoveContainer(256));
    r.ask(53, Call::RemovePolicy(127));
    r.ask(54, Call::RemovePolicy(128));
    r.ask(55, Call::RemoveContainer(1));
    r.ask(56, Call::RemoveContainer(1));
    r.ask(57, Call::RemovePolicy(2));
    r.ask(58, Call::RemovePolicy(2));
    r.admit(59, container(&run_of(1, 1)));
    r.ask(60, Call::Counts);
    r.ask(61, Call::Rebuild);
    r.ask(62, Call::Audit);
    r.ask(63, Call::Counts);
}

fn filling(r: &mut Run) {
    let silently = |r: &mut Run, block: Vec<u8>, times: usize| {
        for _ in 0..times {
            r.memory = step(&r.memory, &Call::Admit(block.clone())).memory;
        }
    };
    let (two, from_one) = (container(&run_of(2, 1)), policy(EGRESS, &[(1, 1)], &[(2, 1)]));
    r.open(64, settings(1, 2, 9));
    silently(r, two.clone(), 255);
    r.admit(66, two.clone());
    r.admit(67, two);
    r.ask(68, Call::RemoveContainer(100));
    r.admit(69, container(&run_of(1, 1)));
    r.admit(70, container(&run_of(1, 1)));
    silently(r, policy(INGRESS, &[], &[(2, 1)]), 127);
    r.admit(72, from_one.clone());
    r.admit(73, from_one.clone());
    r.ask(74, Call::RemovePolicy(127));
    r.ask(75, Call::Counts);
    r.admit(76, from_one);
    r.ask(77, Call::Audit);
    r.ask(78, Call::Counts);
}

fn writing(r: &mut Run) {
    let room = |n: usize| Call::Write(vec![0; n]);
    r.ask(79, room(1025));
    r.open(80, settings(1, 2, 9));
    r.ask(81, room(511));
    r.ask(82, room(512));
    r.admit(83, container(&run_of(2, 1)));
    r.ask(84, room(1023));
    r.ask(85, room(1025));
}

fn batching(r: &mut Run) {
    let two = container(&run_of(2, 1));
    r.batch(86, two[..511].to_vec(), 2);
    r.batch(87, two.clone(), 1);
    r.batch(88, vec![], 0);
    r.batch(89, two.clone(), 2);
    r.batch(90, spoiled(two), 2);
    r.batch(91, policy(INGRESS, &[], &[(2, 1)]), 2);
}

/// Against the stored output of the program. `INSTANCES=write` writes that file anew.
#[test]
fn stored_output_is_the_reference_s() {
    let mut r = Run { memory: vec![0; WORDS], written: String::new() };
    opening(&mut r);
    containers(&mut r);
    policies(&mut r);
    asking(&mut r);
    freeing(&mut r);
    filling(&mut r);
    writing(&mut r);
    batching(&mut r);
    let file = concat!(env!("CARGO_MANIFEST_DIR"), "/../crates/instances/stdout");
    if std::env::var("INSTANCES").is_ok_and(|v| v == "write") {
        std::fs::write(file, &r.written).unwrap();
    }
    assert_eq!(r.written, std::fs::read_to_string(file).unwrap());
}

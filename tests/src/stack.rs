//! The stack that a call takes: words below the stack pointer are painted, and after the call the lowest that has another colour
//! is looked for.

use crate::answers::{outcome, refused, Refusal, Tally};
use crate::c;
use crate::registries::{self, settings, Registry, FILE};
use std::arch::asm;
use std::hint::black_box;

const PAINTED: usize = 1 << 20;
const COLOUR: u64 = 0xa5a5_5a5a_c3c3_3c3c;

type Work<'a> = &'a mut (dyn FnMut(&mut [u64]) -> u64 + Send);

/// Bytes below this function's frame that a call wrote to, and its answer.
#[inline(never)]
fn below(m: &mut [u64], call: Work) -> (usize, u64) {
    let pointer: usize;
    unsafe { asm!("mov {}, rsp", out(reg) pointer) };
    let bottom = pointer - PAINTED;
    for at in (bottom..pointer).step_by(8) {
        unsafe { (at as *mut u64).write_volatile(COLOUR) };
    }
    let answer = black_box(call(m));
    let same = |at: &usize| unsafe { (*at as *const u64).read_volatile() } == COLOUR;
    (pointer - (bottom..pointer).step_by(8).find(|at| !same(at)).unwrap(), answer)
}

/// The same on a thread whose stack is all there, without what a call takes that does nothing.
fn taken(m: &mut [u64], call: Work) -> (usize, u64) {
    std::thread::scope(|s| {
        let run = move || {
            let (nothing, _) = below(m, &mut |_| 0);
            let (all, answer) = below(m, call);
            (all - nothing, answer)
        };
        std::thread::Builder::new().stack_size(4 * PAINTED).spawn_scoped(s, run).unwrap().join().unwrap()
    })
}

/// The name of each exported call and the bytes of stack that it takes on this registry.
pub fn calls(r: &Registry) -> Vec<(&'static str, usize)> {
    let (full, opening, mut list, mut file) = (r.memory(), settings(), vec![0; 256], vec![0; FILE]);
    let (c, q) = (registries::containers().next().unwrap(), registries::policies().next().unwrap());
    let with = |from: &[u64], refusal: Option<Refusal>, call: Work| {
        let (bytes, answer) = taken(&mut from.to_vec(), call);
        assert_eq!(outcome(answer).err(), refusal, "registry {}", r.name);
        bytes
    };
    let accepted = |call: Work| with(&full, None, call);
    let without = |remove: &dyn Fn(&mut [u64]) -> u64| {
        let mut m = full.clone();
        assert_eq!(outcome(remove(&mut m)), Ok(0));
        m
    };
    let no_container = without(&|m| c::remove_container(m, c as u64));
    let no_policy = without(&|m| c::remove_policy(m, q as u64));
    let (half, blocks) = (r.memory_of(128, 64), r.batch(128, 64));
    let (mut numbers, mut tally) = (vec![0; 256], Tally::default());
    let next = |kind| accepted(&mut |m| c::next_finding(m, (kind, 0, 0)));
    let mut listed = |kind| accepted(&mut |m| c::findings(m, (kind, 0, 0), &mut list));
    vec![
        ("bihokura_open", accepted(&mut |m| c::open(m, &opening))),
        ("bihokura_admit, a container", with(&no_container, None, &mut |m| c::admit(m, &r.containers[c]))),
        ("bihokura_admit, a policy", with(&no_policy, None, &mut |m| c::admit(m, &r.policies[q]))),
        ("bihokura_admit, refused with 12", with(&full, Some(refused(12)), &mut |m| c::admit(m, &r.containers[c]))),
        ("bihokura_remove_container", accepted(&mut |m| c::remove_container(m, c as u64))),
        ("bihokura_remove_policy", accepted(&mut |m| c::remove_policy(m, q as u64))),
        ("bihokura_reaches", accepted(&mut |m| c::reaches(m, 0, 1))),
        ("bihokura_carries_user", accepted(&mut |m| c::carries_user(m, 0, 1))),
        ("bihokura_next_finding", (0..=7).map(next).max().unwrap()),
        ("bihokura_findings", (0..=7).map(&mut listed).max().unwrap()),
        ("bihokura_counts", accepted(&mut |m| c::counts(m))),
        ("bihokura_rebuild", accepted(&mut |m| c::rebuild(m))),
        ("bihokura_audit", accepted(&mut |m| c::audit(m))),
        ("bihokura_write", accepted(&mut |m| c::write(m, &mut file))),
        ("bihokura_admit_batch", with(&half, None, &mut |m| c::admit_batch(m, &blocks, &mut numbers, &mut tally))),
    ]
}

/// The most over all registries, for each call.
pub fn most() -> Vec<(&'static str, usize)> {
    let mut most = vec![];
    for r in registries::all() {
        for (i, (name, bytes)) in calls(&r).into_iter().enumerate() {
            if most.len() == i {
                most.push((name, 0));
            }
            most[i].1 = bytes.max(most[i].1);
        }
    }
    most
}

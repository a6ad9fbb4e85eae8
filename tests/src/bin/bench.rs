//! Times of each call beside plain Rust by the same algorithms and by those of the first release: on the same memories, in one
//! run, CPU time. `bench` prints a table over the registries and what is above its bar; `bench --growth` how the times grow with
//! the number of entries; `bench --lister` the times of the program beside fast_lister.

use bihokura_tests::answers::{outcome, Finding, Tally, START};
use bihokura_tests::baseline::{self as b, ByLabels, ByTrials};
use bihokura_tests::bytes::{self, EGRESS, INGRESS};
use bihokura_tests::layout::{CONTAINER_SLOTS, POLICY_SLOTS, WORDS};
use bihokura_tests::process::{FAST, FAST_STATIC, LINKED_BY_RT, PROGRAM};
use bihokura_tests::registries::{self, settings, Registry, FILE};
use bihokura_tests::{c, clock, sheet, walks};
use std::cell::RefCell;
use std::fs::File;
use std::hint::black_box;
use std::path::Path;
use std::process::Command;
use std::time::Duration;

const TURNS: u32 = 40;
/// A process that ends at once is disturbed more than a call.
const TURNS_OF_PROCESSES: u32 = 200;

/// Runs the work some frames deeper. So the batches stand at different places of the stack: where a row that is read or written
/// for each of many rows happens to lie across two pages, a call takes some microseconds more.
#[inline(never)]
fn deeper(frames: u32, work: &mut dyn FnMut()) {
    let frame = black_box([0u8; 240]);
    if frames == 0 {
        work();
    } else {
        deeper(frames - 1, work);
    }
    black_box(frame);
}

/// How often to repeat the work for a batch of a millisecond or more.
fn batch(clock: fn() -> Duration, work: &mut dyn FnMut()) -> u32 {
    let mut once = 1;
    loop {
        let began = clock();
        (0..once).for_each(|_| work());
        if (clock() - began).as_micros() > 1000 {
            return once;
        }
        once *= 2;
    }
}

/// The lowest time of each work in nanoseconds, over batches that take turns: what disturbs a batch only makes it slower, and a
/// slow spell of the machine meets all.
fn times<const N: usize>(clock: fn() -> Duration, turns: u32, mut works: [&mut dyn FnMut(); N]) -> [f64; N] {
    let counts: Vec<u32> = works.iter_mut().map(|w| batch(clock, w)).collect();
    let mut least = [f64::INFINITY; N];
    for turn in 0..turns {
        for (i, work) in works.iter_mut().enumerate() {
            let began = clock();
            deeper(turn % 8, &mut || (0..counts[i]).for_each(|_| work()));
            least[i] = least[i].min((clock() - began).as_nanos() as f64 / f64::from(counts[i]));
        }
    }
    least
}

/// A call's time in microseconds: the register's, that of plain Rust by the same algorithms, and by those of the first release.
struct Line {
    name: &'static str,
    ours: f64,
    same: f64,
    release: f64,
}

fn line(name: &'static str, [ours, same, release]: [f64; 3], calls: usize) -> Line {
    let micros = |t: f64| t / 1e3 / calls as f64;
    Line { name, ours: micros(ours), same: micros(same), release: micros(release) }
}

/// A call on a memory, of one of some entries.
type Side<'a> = &'a dyn Fn(&mut [u64], usize) -> u64;

/// The call of the register and of plain Rust by both sets of algorithms.
macro_rules! sides {
    (|$i:pat_param| $call:ident ( $($arg:expr),* )) => {
        [
            &|m: &mut [u64], $i: usize| c::$call(m, $($arg),*),
            &|m: &mut [u64], $i: usize| b::$call::<ByLabels>(m, $($arg),*),
            &|m: &mut [u64], $i: usize| b::$call::<ByTrials>(m, $($arg),*),
        ]
    };
}

/// The same, of a call that both do alike.
macro_rules! alike {
    (|$i:pat_param| $call:ident ( $($arg:expr),* )) => {
        [
            &|m: &mut [u64], $i: usize| c::$call(m, $($arg),*),
            &|m: &mut [u64], $i: usize| b::$call(m, $($arg),*),
            &|m: &mut [u64], $i: usize| b::$call(m, $($arg),*),
        ]
    };
}

/// Times of a call that leaves the memory as it is.
fn still(name: &'static str, m: &RefCell<Vec<u64>>, [ours, same, release]: [Side; 3]) -> Line {
    let work = |side: Side| {
        black_box(side(&mut m.borrow_mut(), 0));
    };
    line(name, times(clock::thread, TURNS, [&mut || work(ours), &mut || work(same), &mut || work(release)]), 1)
}

/// A memory that a change starts from, and the one that it leaves.
type Change = (Vec<u64>, Vec<u64>);

/// Times of changes, one for each entry, of which all start from one memory (`forth`) or all lead to one. In between, the words in
/// which the two memories differ are stored; that is timed too and left out.
fn changes(name: &'static str, all: &[Change], forth: bool, sides: [Side; 3]) -> Line {
    for (i, (from, to)) in all.iter().enumerate() {
        for side in sides {
            let mut m = from.clone();
            assert!(outcome(side(&mut m, i)).is_ok() && m == *to, "{name}: entry {i}");
        }
    }
    let words = |(from, to): &Change| (0..from.len()).map(|i| (i, from[i], to[i])).filter(|(_, x, y)| x != y).collect();
    let differences: Vec<Vec<(usize, u64, u64)>> = all.iter().map(words).collect();
    let m = RefCell::new(if forth { all[0].0.clone() } else { all[0].1.clone() });
    let undo = |i: usize| differences[i].iter().for_each(|(at, from, _)| m.borrow_mut()[*at] = *from);
    let redo = |i: usize| differences[i].iter().for_each(|(at, _, to)| m.borrow_mut()[*at] = *to);
    let work = |side: Side| {
        for i in 0..all.len() {
            if !forth {
                undo(i);
            }
            black_box(side(&mut m.borrow_mut(), i));
            if forth {
                undo(i);
            }
        }
    };
    let there_and_back = |i: usize| {
        if forth {
            redo(i);
        }
        undo(i);
        if !forth {
            redo(i);
        }
    };
    let [ours, same, release] = sides;
    let [ours, same, release, both_ways] = times(
        clock::thread,
        TURNS,
        [&mut || work(ours), &mut || work(same), &mut || work(release), &mut || (0..all.len()).for_each(there_and_back)],
    );
    line(name, [ours, same, release].map(|t| t - both_ways / 2.0), all.len())
}

/// Each of these entries taken out and put in.
fn entries(full: &[u64], r: &Registry, containers: &[usize], policies: &[usize]) -> Vec<Line> {
    let mut lines = vec![];
    let without = |slots: &[usize], remove: Side| -> Vec<Change> {
        let out = |slot: &usize| {
            let mut m = full.to_vec();
            assert_eq!(outcome(remove(&mut m, *slot)), Ok(0));
            (full.to_vec(), m)
        };
        slots.iter().map(out).collect()
    };
    let back = |out: &[Change]| -> Vec<Change> { out.iter().map(|(x, y)| (y.clone(), x.clone())).collect() };
    if !containers.is_empty() {
        let slot = |i: usize| containers[i] as u64;
        let out = without(containers, &|m, c| b::remove_container(m, c as u64));
        lines.push(changes("admit a container", &back(&out), false, sides!(|i| admit(&r.containers[containers[i]]))));
        lines.push(changes("remove a container", &out, true, alike!(|i| remove_container(slot(i)))));
    }
    for (direction, admit, remove) in DIRECTIONS {
        let some: Vec<usize> = policies.iter().copied().filter(|q| r.policies[*q][1] == direction).collect();
        if !some.is_empty() {
            let slot = |i: usize| some[i] as u64;
            let out = without(&some, &|m, q| b::remove_policy::<ByLabels>(m, q as u64));
            lines.push(changes(admit, &back(&out), false, sides!(|i| admit(&r.policies[some[i]]))));
            lines.push(changes(remove, &out, true, sides!(|i| remove_policy(slot(i)))));
        }
    }
    lines
}

const DIRECTIONS: [(u8, &str, &str); 2] = [
    (INGRESS, "admit an ingress policy", "remove an ingress policy"),
    (EGRESS, "admit an egress policy", "remove an egress policy"),
];

/// How many findings a whole walk meets.
fn walk(m: &[u64], next: impl Fn(&[u64], Finding) -> u64) -> u64 {
    walks::walk(|after| next(m, after)).count() as u64
}

const BY_LISTS: &str = "a whole walk by findings, 256 at a time";

fn walk_by_lists(m: &[u64], findings: impl Fn(&[u64], Finding, &mut [u64]) -> u64) -> u64 {
    let mut n = 0;
    walks::walk_by_lists(|after, list| findings(m, after, list), &mut [0; 256], || 256, |some| n += some.len() as u64);
    n
}

const BATCH: &str = "a batch of 128 onto 128 and 64 at most";
const TO_SINGLE_CALLS: &str = "the same, to 128 calls of admit";
const REFUSED_BATCH: &str = "a batch of 128, each refused with 9";

/// A batch of 128 onto the first entries of a registry: beside plain Rust's, and beside single admissions, ours and plain Rust's by
/// the same algorithms.
fn batches(r: &Registry, containers: usize, policies: usize) -> Vec<Line> {
    let (x, y) = (containers.min(128), policies.min(64));
    let (blocks, numbers, tally) = (r.batch(x, y), RefCell::new([0; 256]), RefCell::new(Tally::default()));
    let singly = |m: &mut [u64], admit: &dyn Fn(&mut [u64], &[u8]) -> u64| blocks.chunks(512).map(|b| admit(m, b)).sum::<u64>();
    let (from, mut to) = (r.memory_of(x, y), r.memory_of(x, y));
    singly(&mut to, &c::admit);
    let one = [(from, to)];
    let sides: [Side; 3] = sides!(|_| admit_batch(&blocks, &mut *numbers.borrow_mut(), &mut tally.borrow_mut()));
    let single: [Side; 3] = [sides[0], &|m, _| singly(m, &c::admit), &|m, _| singly(m, &b::admit::<ByLabels>)];
    vec![changes(BATCH, &one, true, sides), changes(TO_SINGLE_CALLS, &one, true, single)]
}

/// The file of a registry, which the register and plain Rust write alike.
fn written(m: &[u64]) -> Vec<u8> {
    let mut file = vec![0; FILE];
    let n = outcome(c::write(m, &mut file)).unwrap() as usize;
    file.truncate(n);
    let mut plain = vec![1; n];
    assert!(b::write(m, &mut plain) == n as u64 && plain == file);
    file
}

/// The calls that leave the memory as it is: here rebuild too, since the registry is consistent. Open comes last.
fn others(full: &[u64], r: &Registry) -> Vec<Line> {
    let m = RefCell::new(full.to_vec());
    // at fault in byte 509, and in the last value
    let mut bad = r.containers[0].clone();
    bad[509] = 1;
    bytes::seal(&mut bad);
    let value = bytes::container(&[1, 2, 3, 4, 5, 6, 7, 8].map(|key| (key, u16::from(key < 8))));
    let (all_bad, numbers, tally) = (bad.repeat(128), RefCell::new([0; 256]), RefCell::new(Tally::default()));
    let plain_walk: Side = &|m, _| walk(m, b::next_finding);
    let file = RefCell::new(written(full));
    let mut lines = vec![
        still("admit, refused with 7", &m, sides!(|_| admit(&value))),
        still("admit, refused with 9", &m, sides!(|_| admit(&bad))),
        still(REFUSED_BATCH, &m, sides!(|_| admit_batch(&all_bad, &mut *numbers.borrow_mut(), &mut tally.borrow_mut()))),
        still("reaches", &m, alike!(|_| reaches(0, 0))),
        still("carries user", &m, alike!(|_| carries_user(0, 4))),
        still("counts", &m, alike!(|_| counts())),
        still("next finding, first", &m, alike!(|_| next_finding(START))),
        still("next finding, last", &m, alike!(|_| next_finding((7, 255, 255)))),
        still("rebuild", &m, sides!(|_| rebuild())),
        still("audit", &m, sides!(|_| audit())),
        still("write", &m, alike!(|_| write(&mut file.borrow_mut()))),
        still("a whole walk", &m, [&|m, _| walk(m, c::next_finding), plain_walk, plain_walk]),
        still(BY_LISTS, &m, [&|m, _| walk_by_lists(m, c::findings), &|m, _| walk_by_lists(m, b::findings), plain_walk]),
    ];
    assert_eq!(walk_by_lists(full, c::findings), walk(full, b::next_finding));
    assert!(*m.borrow() == full);
    let first = settings();
    lines.push(still("open", &m, alike!(|_| open(&first))));
    lines
}

/// An open and the admission of all these blocks, one after another: the time of one admission on the way.
fn filling(name: &'static str, blocks: &[&Vec<u8>]) -> Line {
    let m = RefCell::new(vec![0; WORDS]);
    let fill = |m: &mut [u64], open: &dyn Fn(&mut [u64], &[u8]) -> u64, admit: &dyn Fn(&mut [u64], &[u8]) -> u64| {
        open(m, &settings()) + blocks.iter().map(|block| admit(m, block)).sum::<u64>()
    };
    let ours: Side = &|m, _| fill(m, &c::open, &c::admit);
    let same: Side = &|m, _| fill(m, &b::open, &b::admit::<ByLabels>);
    let release: Side = &|m, _| fill(m, &b::open, &b::admit::<ByTrials>);
    let l = still(name, &m, [ours, same, release]);
    let each = |t: f64| t / blocks.len() as f64;
    Line { ours: each(l.ours), same: each(l.same), release: each(l.release), ..l }
}

fn all_calls(r: &Registry, containers: usize, policies: usize) -> Vec<Line> {
    let full = r.memory_of(containers, policies);
    // the slots of a full table, or as many over the whole of a smaller one
    let some =
        |slots: Vec<usize>, n: usize| if n < POLICY_SLOTS { (0..n.min(16)).map(|i| i * (n - 1) / 15).collect() } else { slots };
    let cs = some(registries::containers().filter(|i| *i < containers).collect(), containers);
    let ps = some(registries::policies().filter(|i| *i < policies).collect(), policies);
    let (x, y) = (&r.containers[..containers], &r.policies[..policies]);
    let mut lines = entries(&full, r, &cs, &ps);
    lines.extend(others(&full, r));
    lines.extend(batches(r, containers, policies));
    lines.push(filling("filling, containers first", &x.iter().chain(y).collect::<Vec<_>>()));
    lines.push(filling("filling, policies first", &y.iter().chain(x).collect::<Vec<_>>()));
    lines.push(lister(r, containers, policies));
    lines
}

/// CPU times of programs with their arguments on one input, each time a whole process, in nanoseconds. They print the same.
fn processes<const N: usize>(input: &[u8], turns: u32, programs: [(&Path, &[&str]); N]) -> [f64; N] {
    let file = std::env::temp_dir().join(format!("bihokura-bench-{}.blocks", std::process::id()));
    std::fs::write(&file, input).unwrap();
    let run = |(program, args): (&Path, &[&str])| {
        let child = Command::new(program).args(args).stdin(File::open(&file).unwrap()).output();
        child.unwrap_or_else(|e| panic!("{}: {e}", program.display())).stdout
    };
    let report = run(programs[0]);
    assert!(programs.iter().all(|p| run(*p) == report));
    let mut works = programs.map(|p| {
        move || {
            black_box(run(p));
        }
    });
    let taken = times(clock::children, turns, works.each_mut().map(|w| w as &mut dyn FnMut()));
    std::fs::remove_file(&file).unwrap();
    taken
}

/// The program lister on full tables, and the same in plain Rust.
fn lister(r: &Registry, containers: usize, policies: usize) -> Line {
    let plain = std::env::current_exe().unwrap().with_file_name("plain_lister");
    let programs: [(&Path, &[&str]); 3] = [(Path::new(PROGRAM), &[]), (&plain, &["labels"]), (&plain, &["trials"])];
    line("lister", processes(&r.stream(containers, policies), TURNS, programs), 1)
}

/// The program lister beside fast_lister: both linked statically, which the bar is for, and both with the C library loaded at the
/// start, as rt links a program.
fn to_fast_lister(all: &[Registry]) {
    let full = |r: &Registry| r.stream(CONTAINER_SLOTS, POLICY_SLOTS);
    let inputs = [
        ("full tables, registry 1", full(&all[0])),
        ("full tables with few findings", full(&registries::quiet())),
        ("full tables with 64 keys, registry 2", full(&all[1])),
        ("the printed sheet", sheet::printed()),
    ];
    println!(
        "| input | blocks | lister | fast_lister | lister, linked by rt | fast_lister, linked so |\n|---|---|---|---|---|---|"
    );
    let mut above = vec![];
    for (name, input) in inputs {
        let programs = [PROGRAM, FAST_STATIC, LINKED_BY_RT, FAST].map(|p| (Path::new(p), &[][..]));
        let [ours, fast, ours_loaded, fast_loaded] = processes(&input, TURNS_OF_PROCESSES, programs);
        let cells = |ours: f64, fast: f64| format!("{:.0} | {:.0} ({:.2})", ours / 1e3, fast / 1e3, ours / fast);
        println!("| {name} | {} | {} | {} |", input.len() / 512, cells(ours, fast), cells(ours_loaded, fast_loaded));
        if ours > 1.3 * fast {
            above.push(format!("above its bar: lister, {name}: {:.2} of fast_lister", ours / fast));
        }
    }
    above.iter().for_each(|line| println!("{line}"));
}

/// The bars of a call: to the same algorithms and to those of the first release. Registries 6 and 7 are made against the hash, and
/// in 5 as many labels stand as there are places (docs/DECISIONS.md, 34); lister has none to the same.
fn bars(name: &str, registry: &str) -> (f64, f64) {
    let release = match name {
        "rebuild" | "audit" if registry < "6" => 0.15,
        "admit a container" if registry < "5" => 0.15,
        _ if name.contains("gress") && registry < "5" => 0.15,
        "rebuild" | "audit" | "admit a container" => 1.0,
        _ if name.contains("gress") || name.starts_with("filling") => 1.0,
        BY_LISTS => 0.08,
        "lister" => 1.0 / 3.0,
        _ => f64::INFINITY,
    };
    let same = match name {
        "lister" => f64::INFINITY,
        "write" | BATCH => 1.3,
        REFUSED_BATCH => 1.7,
        TO_SINGLE_CALLS => 0.1,
        _ => 1.2,
    };
    (same, release)
}

/// A row for each call, a column for each of the tables: the time, and in brackets the ratios.
fn print(heads: &[String], tables: &[Vec<Line>]) {
    println!("| call | {} |\n|---|{}", heads.join(" | "), "---|".repeat(heads.len()));
    let mut names: Vec<&str> = vec![];
    for l in tables.iter().rev().flatten() {
        if !names.contains(&l.name) {
            names.push(l.name);
        }
    }
    for name in names {
        let cell = |t: &Vec<Line>| match t.iter().find(|l| l.name == name) {
            Some(l) => format!("{:.2} ({:.2}, {:.2})", l.ours, l.ours / l.same, l.ours / l.release),
            None => String::new(),
        };
        println!("| {name} | {} |", tables.iter().map(cell).collect::<Vec<_>>().join(" | "));
    }
}

fn main() {
    let all = registries::all();
    let args: Vec<String> = std::env::args().skip(1).collect();
    if args.iter().any(|a| a == "--lister") {
        to_fast_lister(&all);
        return;
    }
    if args.iter().any(|a| a == "--growth") {
        let sizes = [(1, 0), (32, 16), (64, 32), (128, 64), (CONTAINER_SLOTS, POLICY_SLOTS)];
        let tables: Vec<Vec<Line>> = sizes.iter().map(|(x, y)| all_calls(&all[0], *x, *y)).collect();
        print(&sizes.map(|(x, y)| format!("{x} and {y}")), &tables);
        return;
    }
    let some: Vec<&Registry> = all.iter().filter(|r| args.is_empty() || args.iter().any(|a| a == r.name)).collect();
    let tables: Vec<Vec<Line>> = some.iter().map(|r| all_calls(r, CONTAINER_SLOTS, POLICY_SLOTS)).collect();
    print(&some.iter().map(|r| format!("registry {}", r.name)).collect::<Vec<_>>(), &tables);
    for (r, table) in some.iter().zip(&tables) {
        for l in table {
            let (same, release) = bars(l.name, r.name);
            if l.ours > same * l.same || l.ours > release * l.release {
                let (x, y) = (l.ours / l.same, l.ours / l.release);
                println!("above its bar: registry {}, {}: {x:.2} of the same, {y:.2} of the release's", r.name, l.name);
            }
        }
    }
}

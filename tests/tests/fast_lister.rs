//! The benchmarks' fast_lister prints what lister prints, and lister the same however it is linked.

use bihokura_tests::process::{end, fed, in_pieces, piped, wait_until_read, FAST, FAST_STATIC, LINKED_BY_RT, PROGRAM};
use bihokura_tests::random::{case, seeds, Random};
use bihokura_tests::registries;
use bihokura_tests::sheet::{self, expected, printed, spoiled, strangers};
use bihokura_tests::{bytes, cases};

fn run(program: &str, input: &[u8]) -> String {
    let ended = fed(piped(program).spawn().unwrap(), input);
    assert_eq!(ended.code, Some(0));
    ended.out
}

fn same(input: &[u8]) {
    let right = run(PROGRAM, input);
    for program in [LINKED_BY_RT, FAST, FAST_STATIC] {
        let found = run(program, input);
        let line = found.lines().zip(right.lines()).position(|(x, y)| x != y);
        assert!(found == right, "{} bytes of input: differs from line {line:?} on", input.len());
    }
}

#[test]
fn openings_and_short_blocks() {
    let (opening, entry) = (bytes::settings(1, 2, 9), bytes::container(&[(1, 1), (2, 9)]));
    let refused = [bytes::settings(0, 2, 9), bytes::settings(1, 0, 9), spoiled(), bytes::sealed(&[83, 1, 0, 1]), vec![0; 512]];
    for first in refused.iter().chain([&opening]) {
        same(&[&first[..], &entry, &spoiled(), &entry[..100]].concat());
    }
    for n in [0, 1, 511, 512, 513, 1023, 1024] {
        same(&[&opening[..], &entry].concat()[..n]);
    }
    same(&printed());
}

#[test]
fn random_inputs() {
    seeds(120_000, 100, |r| {
        let n = *r.pick(&[3, 10, 30, 60, 200, 700]);
        let (n, valid) = (r.below(n) as usize, *r.pick(&[2, 8, 15, 16]));
        same(&sheet::random(r, n, valid));
    });
}

/// More keys and values than the others have, and longer lists of labels: sets of few containers, and users apart.
#[test]
fn random_inputs_of_many_labels() {
    seeds(121_000, 60, |r| {
        let (keys, values) = (*r.pick(&[2, 5, 20, 64]), *r.pick(&[1, 2, 5, 60_000]));
        let mut input = bytes::settings(1 + r.below(keys) as u8, 1 + r.below(keys) as u8, 1 + r.below(values) as u16);
        for _ in 0..r.below(500) {
            let (most, part) = (keys.min(8), keys.min(4));
            input.extend(if r.once_in(3) {
                let (select, allow) = (cases::labels(r, 0..=part, keys, values), cases::labels(r, 0..=part, keys, values));
                bytes::policy(*r.pick(&[bytes::INGRESS, bytes::EGRESS]), &select, &allow)
            } else {
                bytes::container(&cases::labels(r, 0..=most, keys, values))
            });
        }
        same(&input);
    });
}

#[test]
fn full_tables() {
    for registry in registries::all_and_crowded().into_iter().chain([registries::quiet()]) {
        case(format_args!("registry {}", registry.name), || same(&registry.stream(256, 128)));
    }
    same(&strangers(256));
    same(&strangers(300));
}

#[test]
fn inputs_in_pieces() {
    let r = &mut Random::new(122_000);
    for most in [1, 100, 511, 512, 513, 5000, 70_000] {
        let input = sheet::random(r, if most < 100 { 5 } else { 200 }, 14);
        let (mut child, mut lengths) = (piped(FAST).spawn().unwrap(), Random::new(most));
        let length = move |_| 1 + lengths.below(most) as usize;
        let writer = in_pieces(child.stdin.take().unwrap(), input.clone(), length, wait_until_read);
        let ended = end(child);
        writer.join().unwrap();
        assert!(ended.out == expected(&input), "pieces of {most}");
    }
}

//! The benchmarks' baselines answer as the reference does: what is compared for speed does the same work. Their full registries
//! are in differential.rs.

use bihokura_tests::baseline as b;
use bihokura_tests::cases::{calls, settings};
use bihokura_tests::layout::WORDS;
use bihokura_tests::random::{case, seeds};
use bihokura_tests::reference::Call;
use bihokura_tests::registries;
use bihokura_tests::sides::{check, BASELINES};
use bihokura_tests::walks::{walk, walk_by_lists};

#[test]
fn random_calls() {
    seeds(70_000, 200, |r| {
        let mut list = vec![Call::Open(settings(r))];
        list.extend(calls(r, 60));
        check(&BASELINES, &[0; WORDS], &list);
    });
}

/// Lists of findings, one after another, are what next_finding gives.
#[test]
fn lists_of_findings() {
    for registry in registries::all_and_crowded() {
        let m = registry.memory();
        let whole: Vec<u64> = walk(|after| b::next_finding(&m, after)).collect();
        for n in [256, 1000] {
            case(format_args!("registry {}, lists of {n}", registry.name), || {
                let mut met: Vec<u64> = vec![];
                walk_by_lists(|after, list| b::findings(&m, after, list), &mut vec![0; n], || n, |some| met.extend(some));
                assert!(met == whole);
            });
        }
    }
}

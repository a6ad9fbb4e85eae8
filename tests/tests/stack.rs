//! Every call takes less stack than docs/LINKING.md lets its callers count on.

use bihokura_tests::frames::Functions;
use bihokura_tests::stack::most;

#[test]
fn no_call_takes_eighty_kibibytes() {
    let functions = Functions::read();
    for call in functions.exported() {
        let at_most = functions.most(call);
        assert!(at_most < 80 * 1024, "{call} takes up to {at_most} bytes of stack");
    }
}

/// What a call took is no more than the deepest way down from it.
#[test]
fn no_call_takes_more_than_its_frames() {
    let functions = Functions::read();
    for (name, bytes) in most() {
        let at_most = functions.most(name.split(',').next().unwrap());
        assert!((1..=at_most).contains(&bytes), "{name} takes {bytes} bytes of stack, {at_most} at most");
    }
}

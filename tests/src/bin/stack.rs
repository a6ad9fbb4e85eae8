//! Prints the bytes of stack that each exported call takes: the most that it can take, by the library's object code, and the most
//! measured over the registries of the benchmarks.

use bihokura_tests::{frames, stack};

fn main() {
    let (functions, measured) = (frames::Functions::read(), stack::most());
    println!("| call | at most | measured |\n|---|---|---|");
    for call in functions.exported() {
        let cases = measured.iter().filter_map(|(name, bytes)| match name.strip_prefix(call)?.strip_prefix(", ") {
            Some(case) => Some(format!("{bytes} ({case})")),
            None => (*name == call).then(|| bytes.to_string()),
        });
        println!("| `{call}` | {} | {} |", functions.most(call), cases.collect::<Vec<_>>().join(", "));
    }
}

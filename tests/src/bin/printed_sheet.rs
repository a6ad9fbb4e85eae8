//! Writes the blocks of document 01's printed sheet: `printed_sheet > examples/printed-sheet.blocks`.

use bihokura_tests::sheet;
use std::io::Write;

fn main() {
    std::io::stdout().write_all(&sheet::printed()).unwrap();
}

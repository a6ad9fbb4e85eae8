// Links the register's static library, which `bash .ci/staticlib` writes, and compiles fast_lister in two ways.
use std::env::var;
use std::process::Command;

fn main() {
    let here = var("CARGO_MANIFEST_DIR").unwrap();
    let archive = format!("{here}/../target/staticlib");
    println!("cargo:rustc-link-search=native={archive}");
    println!("cargo:rustc-link-lib=static=registry_c");
    println!("cargo:rerun-if-changed={archive}/libregistry_c.a");
    let source = format!("{here}/src/bin/fast_lister.rs");
    let out = var("OUT_DIR").unwrap();
    // loaded with the C library, as rt links lister
    let loaded = format!("{out}/fast_lister");
    compile(&source, &loaded, &[]);
    println!("cargo:rustc-env=FAST_LISTER={loaded}");
    // statically, by the flags of bin/link-lister
    let (library, linked) = (format!("{out}/fast_lister.a"), format!("{out}/static_fast_lister"));
    compile(&source, &library, &["--crate-type=staticlib", "-Crelocation-model=static"]);
    let flags = ["-static", "-s", "-no-pie", "-Wl,--gc-sections,-z,noseparate-code,-z,norelro"];
    run(Command::new("cc").args(flags).args(["-o", &linked, &library]));
    // written anew in one piece, as bin/link-lister does
    let program = std::fs::read(&linked).unwrap();
    std::fs::write(&linked, program).unwrap();
    println!("cargo:rustc-env=STATIC_FAST_LISTER={linked}");
    println!("cargo:rustc-check-cfg=cfg(alone)");
    println!("cargo:rerun-if-changed={source}");
    println!("cargo:rerun-if-changed={here}/src/baseline/blocks.rs");
    println!("cargo:rerun-if-changed={here}/src/refusal.rs");
}

/// fast_lister with the C library alone, without the standard library, which no binary of this package can do, since its panics would
/// unwind.
fn compile(source: &str, made: &str, flags: &[&str]) {
    let mut rustc = Command::new(var("RUSTC").unwrap());
    rustc.args(["--edition=2021", "-Copt-level=3", "-Cpanic=abort", "--cfg=alone", "-Clto=fat"]);
    run(rustc.args(flags).args([source, "-o", made]));
}

fn run(command: &mut Command) {
    assert!(command.status().unwrap().success(), "{command:?} failed");
}

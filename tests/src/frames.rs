//! The most stack that each exported call can take, by the library's object code: its functions call each other by name, and none
//! calls itself, alone or through others, so the deepest way down from a call is a sum of frames.

use std::collections::BTreeMap;
use std::process::Command;

const ARCHIVE: &str = concat!(env!("CARGO_MANIFEST_DIR"), "/../target/staticlib/libregistry_c.a");

/// Where a call comes back to.
const RETURN: usize = 8;

/// What the library calls of the C library's. What these take is not counted.
const OUTSIDE: [&str; 1] = ["memset"];

/// The calls with seven arguments: the last one is passed on the stack.
const SEVEN: [&str; 2] = ["bihokura_findings", "bihokura_admit_batch"];

#[derive(Default)]
struct Function {
    pushed: usize,
    /// Room taken on the stack, in one piece or several, and given back at its end.
    taken: usize,
    given_back: usize,
    /// What it uses below the stack pointer, which it does not move for it.
    beyond: usize,
    calls: Vec<String>,
    /// The instruction before.
    last: String,
}

impl Function {
    /// An instruction as objdump shows it.
    fn take(&mut self, instruction: &str) {
        let (name, operands) = instruction.split_once(' ').unwrap_or((instruction, ""));
        let operands = operands.trim();
        if let Some((number, _)) = operands.split_once("-0x").and_then(|(_, i)| i.split_once("(%rsp")) {
            self.beyond = self.beyond.max(usize::from_str_radix(number, 16).unwrap());
        }
        match (name, operands.strip_suffix(",%rsp")) {
            ("push", _) => self.pushed += 8,
            ("add", Some(number)) => {
                assert!([0, constant(number)].contains(&self.given_back), "room given back in pieces: {instruction}");
                self.given_back = constant(number);
            }
            ("sub", Some(number)) => self.taken += constant(number),
            ("cmp", _) => {}
            ("call", _) => assert!(!operands.starts_with('*'), "a call through a pointer: {instruction}"),
            // the table of a `match`, whose places are told from where it lies: no way out of the function
            ("jmp", _) if operands.starts_with('*') => {
                let place = self.last.starts_with("add ") && self.last.ends_with(&operands.replace('*', ","));
                assert!(place, "a jump through a pointer: {instruction}");
            }
            _ => assert!(leaves_the_stack(name, operands), "the stack pointer may move: {instruction}"),
        }
        self.last = instruction.to_string();
    }

    /// Where no room was taken, what is given back was pushed.
    fn frame(&self) -> usize {
        self.pushed + if self.taken == 0 { 0 } else { self.given_back }
    }
}

/// No other instruction moves the stack pointer, keeps it in the frame pointer, or is another way to push or to call.
fn leaves_the_stack(name: &str, operands: &str) -> bool {
    let moves = ["%rsp", "%esp", "%rsp,%rbp"].iter().any(|end| operands.ends_with(end));
    let other = ["(bad)", "bnd", "enter", "leave", "notrack"].contains(&name);
    !moves && !other && !name.starts_with("push") && !name.contains("call")
}

/// A constant operand. A small one may be written as the negative of what is meant.
fn constant(operand: &str) -> usize {
    let number = operand.strip_prefix("$0x").unwrap_or_else(|| panic!("the stack pointer moves by {operand}"));
    (u64::from_str_radix(number, 16).unwrap() as i64).unsigned_abs() as usize
}

/// The functions of the library.
pub struct Functions(BTreeMap<String, Function>);

impl Functions {
    pub fn read() -> Functions {
        let shown = Command::new("objdump").args(["-dr", "--no-show-raw-insn", ARCHIVE]).output().expect("objdump starts");
        assert!(shown.status.success(), "objdump {ARCHIVE}");
        let (mut all, mut name, mut goes) = (BTreeMap::<String, Function>::new(), String::new(), false);
        for line in String::from_utf8(shown.stdout).unwrap().lines() {
            let fields: Vec<&str> = line.split('\t').collect();
            if let Some((_, begun)) = line.strip_suffix(">:").and_then(|l| l.split_once(" <")) {
                name = begun.to_string();
                all.entry(name.clone()).or_default();
                continue;
            }
            let called = if let [_, instruction] = fields[..] {
                all.get_mut(&name).unwrap().take(instruction.trim_end());
                let call = instruction.starts_with("call");
                goes = call || instruction.starts_with('j');
                // `<name>` is where it goes to, `<name+0x1>` a place in its own function: of a call the next instruction, and
                // behind it stands the relocation that has the name; of a jump, `<name>` may be its own function's beginning
                let to = instruction.trim_end().strip_suffix('>').and_then(|i| i.split_once('<')).map(|(_, to)| to);
                let inside = to.and_then(|to| to.split_once('+')).is_none_or(|(own, _)| own == name);
                assert!(inside || !goes, "{name} goes into another function: {instruction}");
                to.filter(|to| goes && !to.contains('+') && (call || *to != name))
            } else if let ([.., to], true) = (&fields[..], goes && line.contains("R_X86_64_")) {
                let to = to.strip_suffix("-0x4").unwrap();
                Some(to.strip_prefix(".text.").unwrap_or(to))
            } else {
                None
            };
            if let Some(called) = called {
                all.get_mut(&name).unwrap().calls.push(called.to_string());
            }
        }
        for (name, f) in &all {
            assert!(f.taken <= f.given_back, "{name} takes room on the stack and does not give it back");
        }
        Functions(all)
    }

    /// The names of the exported calls.
    pub fn exported(&self) -> impl Iterator<Item = &str> {
        self.0.keys().map(String::as_str).filter(|name| name.starts_with("bihokura_"))
    }

    /// Bytes below the caller's frame, the deepest way down from a function; the way to it comes along.
    fn below<'a>(&'a self, name: &'a str, way: &mut Vec<&'a str>) -> usize {
        assert!(!way.contains(&name), "{name} calls itself, by way of {way:?}");
        let Some(f) = self.0.get(name) else {
            assert!(OUTSIDE.contains(&name), "{name} is called, and is not in the library");
            return RETURN;
        };
        way.push(name);
        let deepest = f.calls.iter().map(|called| self.below(called, way)).max();
        way.pop();
        RETURN + f.frame() + f.beyond.max(deepest.unwrap_or(0))
    }

    /// Bytes of stack that a call of this name takes at most.
    pub fn most(&self, name: &str) -> usize {
        self.below(name, &mut vec![]) + if SEVEN.contains(&name) { 8 } else { 0 }
    }
}

//! lister, as quick as plain Rust may be, for `bench`: nothing is proved, the tables have no stored bits, and all that the report
//! says is worked out once at the end of the input. It prints what lister prints; refusals come with the rest.
//!
//! build.rs compiles it twice more, without the standard library, with the C library alone: linked as rt links lister, and statically,
//! as bin/link-lister does, so that both take as long to start.

#![cfg_attr(alone, no_std)]
#![no_main]

#[path = "../baseline/blocks.rs"]
mod blocks;
#[path = "../refusal.rs"]
mod refusal;

use blocks::{key, read_entry, read_settings, Entry, Settings};
use refusal::{refused, refused_at, Refusal};

#[link(name = "c")]
extern "C" {
    fn read(descriptor: i32, to: *mut u8, bytes: usize) -> isize;
    fn write(descriptor: i32, from: *const u8, bytes: usize) -> isize;
    fn _exit(status: i32) -> !;
}

#[cfg(alone)]
#[panic_handler]
fn panic(_: &core::panic::PanicInfo) -> ! {
    unsafe { _exit(1) }
}

const CONTAINERS: usize = 256;
const POLICIES: usize = 128;

/// A bit for each container.
type Row = [u64; 4];

const EMPTY: Row = [0; 4];

fn both(a: Row, b: Row) -> Row {
    core::array::from_fn(|k| a[k] & b[k])
}

fn either(a: Row, b: Row) -> Row {
    core::array::from_fn(|k| a[k] | b[k])
}

fn except(a: Row, b: Row) -> Row {
    core::array::from_fn(|k| a[k] & !b[k])
}

fn one(i: usize) -> Row {
    let mut row = EMPTY;
    row[i / 64] = 1 << (i % 64);
    row
}

/// The bits from 0 on, so many.
fn first(n: usize) -> Row {
    core::array::from_fn(|k| match n.saturating_sub(64 * k) {
        0 => 0,
        n if n < 64 => (1 << n) - 1,
        _ => u64::MAX,
    })
}

fn ones(words: &[u64], mut each: impl FnMut(usize)) {
    for (k, word) in words.iter().enumerate() {
        let mut rest = *word;
        while rest != 0 {
            each(64 * k + rest.trailing_zeros() as usize);
            rest &= rest - 1;
        }
    }
}

/// A bit for each policy.
type Column = [u64; 2];

// ---- text

/// Numbers with an end of line, and the bytes that each takes.
static NUMBERS: [(u32, u32); CONTAINERS] = {
    let mut all = [(0, 0); CONTAINERS];
    let mut n = 0;
    while n < CONTAINERS as u32 {
        let (mut text, mut length, mut rest) = (b'\n' as u32, 1, n);
        while rest > 0 || length == 1 {
            text = text << 8 | (b'0' as u32 + rest % 10);
            length += 1;
            rest /= 10;
        }
        all[n as usize] = (text, length);
        n += 1;
    }
    all
};

/// What a row of findings takes at most, and a line of any numbers.
const LONGEST: usize = 4096;

struct Text {
    bytes: [u8; 65_536],
    length: usize,
    failed: bool,
}

impl Text {
    fn flush(&mut self) {
        let mut from = 0;
        while from < self.length && !self.failed {
            let n = unsafe { write(1, self.bytes[from..].as_ptr(), self.length - from) };
            self.failed = n <= 0;
            from += n.max(0) as usize;
        }
        self.length = 0;
    }

    fn make_room(&mut self) {
        if self.bytes.len() - self.length < LONGEST {
            self.flush();
        }
    }

    fn put(&mut self, text: &[u8]) {
        self.bytes[self.length..self.length + text.len()].copy_from_slice(text);
        self.length += text.len();
    }

    fn put_number(&mut self, n: u64) {
        let (mut digits, mut from, mut rest) = ([0; 20], 20, n);
        while rest > 0 || from == 20 {
            from -= 1;
            digits[from] = b'0' + (rest % 10) as u8;
            rest /= 10;
        }
        self.put(&digits[from..]);
    }

    fn refused(&mut self, block: u64, refusal: Refusal) {
        self.make_room();
        self.put(b"REFUSED ");
        self.put_number(block);
        self.put(b" ");
        self.put_number(refusal.number);
        self.put(b" ");
        self.put_number(refusal.position as u64);
        self.put(b"\n");
    }

    /// The lines of a kind and an a, with each b: a store for what they have in common and one for the rest.
    fn lines(&mut self, kind: u64, a: usize, bs: &[u64]) {
        self.make_room();
        let (text, length) = NUMBERS[a];
        let space = u64::from(b' ' ^ b'\n') << (8 * (length + 1));
        let front = ((u64::from(b'0') + kind) | u64::from(b' ') << 8 | u64::from(text) << 16) ^ space;
        let (front, length, mut at) = (front.to_le_bytes(), 2 + length as usize, self.length);
        ones(bs, |b| {
            let (text, more) = NUMBERS[b];
            let line: &mut [u8; 12] = (&mut self.bytes[at..at + 12]).try_into().unwrap();
            line[..8].copy_from_slice(&front);
            line[length..length + 4].copy_from_slice(&text.to_le_bytes());
            at += length + more as usize;
        });
        self.length = at;
    }
}

// ---- entries

struct Entries {
    containers: usize,
    labels: [[u32; 8]; CONTAINERS],
    policies: usize,
    ingress: Column,
    egress: Column,
    parts: [[[u32; 4]; 2]; POLICIES],
}

impl Entries {
    fn admit(&mut self, block: &[u8]) -> Result<(), Refusal> {
        match read_entry(block)? {
            Entry::Container(part) => {
                *self.labels.get_mut(self.containers).ok_or(refused(12))? = part.labels;
                self.containers += 1;
            }
            Entry::Policy(direction, select, allow) => {
                let q = self.policies;
                *self.parts.get_mut(q).ok_or(refused(12))? = [select.labels, allow.labels];
                let side = if direction == 1 { &mut self.ingress } else { &mut self.egress };
                side[q / 64] |= 1 << (q % 64);
                self.policies += 1;
            }
        }
        Ok(())
    }
}

/// Read at a time: few pages, since each that is used for the first time costs more than a read.
const INPUT: usize = 16_384;

/// Reads to the end of the input. None where it opens no registry; a read that fails ends the program.
fn read_all(input: &mut [u8; INPUT], entries: &mut Entries, text: &mut Text) -> Option<Settings> {
    let (mut settings, mut number, mut length) = (None, 0, 0);
    loop {
        let n = unsafe { read(0, input[length..].as_mut_ptr(), input.len() - length) };
        if n < 0 {
            unsafe { _exit(1) };
        }
        length += n as usize;
        let whole = if n == 0 { length } else { length / 512 * 512 };
        for block in input[..whole].chunks(512) {
            number += 1;
            let refusal = match settings {
                Some(_) => entries.admit(block).err(),
                None => read_settings(block).map(|s| settings = Some(s)).err(),
            };
            if let Some(refusal) = refusal {
                text.refused(number, refusal);
            }
            settings.as_ref()?;
        }
        if n == 0 {
            break;
        }
        input.copy_within(whole..length, 0);
        length -= whole;
    }
    if number == 0 {
        text.refused(1, refused(3));
    }
    settings
}

// ---- sets

const PLACES: usize = 2048;
/// Each label of a part and each container's label under the user key.
const LABELS: usize = 8 * POLICIES + CONTAINERS;

/// Labels, numbered from 1 on, and the row of the containers that carry each.
struct LabelRows {
    /// The numbers by hash, 0 where there is none.
    places: [u16; PLACES],
    labels: [u32; LABELS + 1],
    rows: [Row; LABELS + 1],
    count: usize,
}

impl LabelRows {
    /// The place of a label, or the one that it could take.
    fn place(&self, label: u32) -> usize {
        let mut h = (label.wrapping_mul(2_654_435_769) >> 21) as usize;
        while self.places[h] != 0 && self.labels[usize::from(self.places[h])] != label {
            h = (h + 1) % PLACES;
        }
        h
    }

    fn number(&mut self, label: u32) -> usize {
        let h = self.place(label);
        if self.places[h] == 0 {
            self.count += 1;
            self.places[h] = self.count as u16;
            self.labels[self.count] = label;
        }
        usize::from(self.places[h])
    }
}

struct Sets {
    standing: Row,
    selected: [Row; POLICIES],
    allowed: [Row; POLICIES],
    /// The policies that select and that allow each container.
    selecting: [Column; CONTAINERS],
    allowing: [Column; CONTAINERS],
    /// The number of the label of each container under the user key, 0 where it has none.
    users: [u16; CONTAINERS],
    system: Row,
}

/// The containers into the rows of their labels, of those that a part has or that are under the user key.
fn fill_rows(l: &mut LabelRows, s: &mut Sets, e: &Entries, settings: &Settings) {
    let mut keys = 0u64;
    for labels in e.parts[..e.policies].as_flattened() {
        for label in labels.iter().take_while(|label| **label != 0) {
            keys |= 1 << (key(*label) % 64);
            l.number(*label);
        }
    }
    let (user, system) = (u32::from(settings.user), u32::from(settings.key) << 16 | u32::from(settings.value));
    for (c, labels) in e.labels[..e.containers].iter().enumerate() {
        for label in labels.iter().take_while(|label| **label != 0) {
            if *label == system {
                s.system[c / 64] |= 1 << (c % 64);
            }
            let n = if key(*label) == user {
                let n = l.number(*label);
                s.users[c] = n as u16;
                n
            } else if keys >> (key(*label) % 64) & 1 == 1 {
                usize::from(l.places[l.place(*label)])
            } else {
                0
            };
            l.rows[n][c / 64] |= 1 << (c % 64);
        }
    }
    l.rows[0] = EMPTY;
}

/// A square of bits turned over.
fn transposed(mut x: [u64; 64]) -> [u64; 64] {
    let (mut j, mut mask) = (32, 0xffff_ffffu64);
    while j != 0 {
        let mut k = 0;
        while k < 64 {
            let t = (x[k] >> j ^ x[k | j]) & mask;
            x[k] ^= t << j;
            x[k | j] ^= t;
            k = (k + j + 1) & !j;
        }
        j >>= 1;
        mask ^= mask << j;
    }
    x
}

fn turn_over(rows: &[Row; POLICIES], columns: &mut [Column; CONTAINERS], e: &Entries) {
    for half in 0..e.policies.div_ceil(64) {
        for k in 0..e.containers.div_ceil(64) {
            let square = transposed(core::array::from_fn(|q| rows[64 * half + q][k]));
            (0..64).for_each(|c| columns[64 * k + c][half] = square[c]);
        }
    }
}

fn fill_sets(l: &LabelRows, s: &mut Sets, e: &Entries) {
    let matching = |part: &[u32; 4]| {
        let labels = part.iter().take_while(|label| **label != 0);
        labels.fold(s.standing, |row, label| both(row, l.rows[usize::from(l.places[l.place(*label)])]))
    };
    for (q, [select, allow]) in e.parts[..e.policies].iter().enumerate() {
        (s.selected[q], s.allowed[q]) = (matching(select), matching(allow));
    }
    turn_over(&s.selected, &mut s.selecting, e);
    turn_over(&s.allowed, &mut s.allowing, e);
}

fn union(policies: Column, rows: &[Row; POLICIES]) -> Row {
    let mut row = EMPTY;
    ones(&policies, |q| row = either(row, rows[q]));
    row
}

fn meet(a: Column, b: Column) -> Column {
    [a[0] & b[0], a[1] & b[1]]
}

fn fill_matrix(matrix: &mut [Row; CONTAINERS], s: &Sets, e: &Entries) {
    let open = except(s.standing, union(e.ingress, &s.selected));
    for (a, row) in matrix[..e.containers].iter_mut().enumerate() {
        let out = meet(s.selecting[a], e.egress);
        let there = if out == [0, 0] { s.standing } else { union(out, &s.allowed) };
        *row = both(there, either(open, union(meet(s.allowing[a], e.ingress), &s.selected)));
        row[a / 64] |= 1 << (a % 64);
    }
}

// ---- findings

fn containers_findings(matrix: &[Row], s: &Sets, l: &LabelRows, text: &mut Text) {
    let every = matrix.iter().fold(s.standing, |all, row| both(all, *row));
    ones(&every, |a| text.lines(1, a, &[1]));
    if matrix.len() > 1 {
        let none = matrix.iter().enumerate().fold(s.standing, |none, (a, row)| except(none, except(*row, one(a))));
        ones(&none, |a| text.lines(2, a, &[1]));
    }
    for (a, row) in matrix.iter().enumerate() {
        text.lines(3, a, &except(except(*row, l.rows[usize::from(s.users[a])]), one(a)));
    }
    ones(&s.system, |a| text.lines(4, a, &except(except(s.standing, matrix[a]), one(a))));
}

/// The policies whose connections all of one policy's lie among, and those it is in conflict with, apart from their order.
struct Others {
    around: Column,
    against: Column,
}

/// For each policy of a direction at once: whether it has every container of a row, and whether it has one.
fn holders(row: &Row, columns: &[Column; CONTAINERS]) -> (Column, Column) {
    let (mut every, mut some) = ([u64::MAX; 2], [0; 2]);
    ones(row, |c| {
        every = meet(every, columns[c]);
        some = [some[0] | columns[c][0], some[1] | columns[c][1]];
    });
    (every, some)
}

fn others(s: &Sets, e: &Entries, a: usize) -> Others {
    let (selected, allowed) = (s.selected[a], s.allowed[a]);
    if selected == EMPTY || allowed == EMPTY {
        return Others { around: [0; 2], against: [0; 2] };
    }
    let side = if e.ingress[a / 64] >> (a % 64) & 1 == 1 { e.ingress } else { e.egress };
    let ((every, some), (every_other, some_other)) = (holders(&selected, &s.selecting), holders(&allowed, &s.allowing));
    let against = core::array::from_fn(|k| some[k] & !some_other[k] & side[k]);
    Others { around: meet(meet(every, every_other), side), against }
}

fn policies_findings(s: &Sets, e: &Entries, all: &mut [Others], text: &mut Text) {
    let same = |a: usize, b: usize| s.selected[a] == s.selected[b] && s.allowed[a] == s.allowed[b];
    let mut allowing = [0; 2];
    for (a, found) in all.iter_mut().enumerate() {
        *found = others(s, e, a);
        let mut bs = [0; 2];
        ones(&found.around, |b| bs[b / 64] |= u64::from(b < a || b > a && !same(a, b)) << (b % 64));
        text.lines(5, a, &bs);
        allowing[a / 64] |= u64::from(s.allowed[a] != EMPTY) << (a % 64);
    }
    for (a, found) in all.iter().enumerate() {
        let below = first(a + 1);
        text.lines(6, a, &[0, 1].map(|k| found.against[k] & allowing[k] & !below[k]));
    }
    for a in 0..all.len() {
        let (nobody, nothing) = (s.selected[a] == EMPTY, s.allowed[a] == EMPTY);
        text.lines(7, a, &[if nobody { 1 } else { u64::from(nothing) << 1 }]);
    }
}

// ---- the program

struct All {
    input: [u8; INPUT],
    text: Text,
    entries: Entries,
    labels: LabelRows,
    sets: Sets,
    matrix: [Row; CONTAINERS],
    others: [Others; POLICIES],
}

/// Zeros, of which no page is there before it is used.
static mut ALL: All = unsafe { core::mem::zeroed() };

fn list(all: &mut All) {
    let (e, l, s, text) = (&mut all.entries, &mut all.labels, &mut all.sets, &mut all.text);
    let Some(settings) = read_all(&mut all.input, e, text) else {
        return;
    };
    s.standing = first(e.containers);
    fill_rows(l, s, e, &settings);
    fill_sets(l, s, e);
    fill_matrix(&mut all.matrix, s, e);
    let matrix = &all.matrix[..e.containers];
    text.make_room();
    text.put(b"CONTAINERS ");
    text.put_number(e.containers as u64);
    text.put(b" POLICIES ");
    text.put_number(e.policies as u64);
    text.put(b" PAIRS ");
    text.put_number(matrix.as_flattened().iter().map(|w| u64::from(w.count_ones())).sum());
    text.put(b"\n");
    containers_findings(matrix, s, l, text);
    policies_findings(s, e, &mut all.others[..e.policies], text);
}

#[no_mangle]
pub extern "C" fn main(_: i32, _: *const *const u8) -> i32 {
    let all = unsafe { (&raw mut ALL).as_mut().unwrap() };
    list(all);
    all.text.flush();
    i32::from(all.text.failed)
}

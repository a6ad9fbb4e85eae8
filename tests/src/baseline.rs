//! The same calls under the same contract in plain Rust, as an engineer would write them for speed: the memory's layout, the
//! test of the whole memory before each call, candidate sets from the entries. It is what the benchmarks compare with, by either
//! of two sets of algorithms: `ByTrials`, those of the first release, and `ByLabels`, those of the register today.

use crate::answers::{answer, code, counted, pair, refused, refused_at, Finding, Refusal, Tally};
use crate::layout::{self, *};

mod blocks;
mod labels;
mod trials;

use blocks::{read_entry, read_settings, Block, Entry, Part};
pub use labels::{first_place, ByLabels};
pub use trials::ByTrials;

pub type Row = [u64; ROW_WORDS];

const EMPTY: Row = [0; ROW_WORDS];

#[inline]
fn has(row: &Row, i: usize) -> bool {
    row[i / 64] >> (i % 64) & 1 == 1
}

#[inline]
fn put(row: &mut Row, i: usize) {
    row[i / 64] |= 1 << (i % 64);
}

#[inline]
fn both(a: Row, b: Row) -> Row {
    std::array::from_fn(|k| a[k] & b[k])
}

#[inline]
fn either(a: Row, b: Row) -> Row {
    std::array::from_fn(|k| a[k] | b[k])
}

#[inline]
fn except(a: Row, b: Row) -> Row {
    std::array::from_fn(|k| a[k] & !b[k])
}

#[inline]
fn is_empty(a: &Row) -> bool {
    a[0] | a[1] | a[2] | a[3] == 0
}

#[inline]
fn within(a: Row, b: Row) -> bool {
    is_empty(&except(a, b))
}

fn next_from(row: &Row, from: usize) -> Option<usize> {
    let mut at = from;
    while at < CONTAINER_SLOTS {
        let w = row[at / 64] >> (at % 64);
        if w != 0 {
            return Some(at + w.trailing_zeros() as usize);
        }
        at = (at / 64 + 1) * 64;
    }
    None
}

#[inline]
fn row_at(m: &[u64], r: usize) -> Row {
    let at = layout::row(r);
    [m[at], m[at + 1], m[at + 2], m[at + 3]]
}

#[inline]
fn set_row(m: &mut [u64], r: usize, row: Row) {
    m[layout::row(r)..layout::row(r + 1)].copy_from_slice(&row);
}

/// The bits of row r at these places.
#[inline]
fn set_bits(m: &mut [u64], r: usize, row: Row, places: Row) {
    set_row(m, r, either(except(row_at(m, r), places), both(row, places)));
}

#[inline]
fn set_bit(m: &mut [u64], r: usize, b: usize, bit: bool) {
    let w = &mut m[layout::row(r) + b / 64];
    *w = *w & !(1 << (b % 64)) | u64::from(bit) << (b % 64);
}

// ---- well formed

fn part_ok(m: &[u64], at: usize, limit: usize) -> bool {
    let head = m[at] as usize;
    if head == 0 || head > limit + 1 {
        return false;
    }
    let mut last = 0;
    for w in &m[at + 1..at + head] {
        let key = key_of(*w);
        if key <= last || key > 64 || value_of(*w) == 0 {
            return false;
        }
        last = key;
    }
    m[at + head..at + 1 + limit].iter().all(|w| *w == 0)
}

/// A table: where it begins, the words of a slot, the slots.
type Table = (usize, usize, usize);

const CONTAINER_TABLE: Table = (CONTAINERS, CONTAINER_WORDS, CONTAINER_SLOTS);
const POLICY_TABLE: Table = (POLICIES, POLICY_WORDS, POLICY_SLOTS);

fn standing(m: &[u64], (start, words, slots): Table) -> Row {
    let mut row = EMPTY;
    for i in 0..slots {
        if m[start + words * i] != 0 {
            put(&mut row, i);
        }
    }
    row
}

pub fn well_formed(m: &[u64]) -> bool {
    if m.len() != WORDS {
        return false;
    }
    let (user, key, value) = (m[USER_KEY], m[SYSTEM_KEY], m[SYSTEM_VALUE]);
    if user == 0 || user > 64 || key > 64 || value > 65535 || (key == 0) != (value == 0) {
        return false;
    }
    for c in 0..CONTAINER_SLOTS {
        let at = layout::container(c);
        let ok = if m[at] == 0 { m[at..at + CONTAINER_WORDS].iter().all(|w| *w == 0) } else { part_ok(m, at, CONTAINER_LABELS) };
        if !ok {
            return false;
        }
    }
    for q in 0..POLICY_SLOTS {
        let at = layout::policy(q);
        let ok = if m[at] == 0 {
            m[at..at + POLICY_WORDS].iter().all(|w| *w == 0)
        } else {
            m[at] <= EGRESS && part_ok(m, at + SELECT, PART_LABELS) && part_ok(m, at + ALLOW, PART_LABELS)
        };
        if !ok {
            return false;
        }
    }
    let cs = standing(m, CONTAINER_TABLE);
    for r in 0..ROW_COUNT {
        let owner = if r < CONTAINER_SLOTS { m[layout::container(r)] } else { m[layout::policy((r - CONTAINER_SLOTS) / 2)] };
        let row = row_at(m, r);
        if !(if owner != 0 { within(row, cs) } else { is_empty(&row) }) {
            return false;
        }
    }
    true
}

/// Where the two sets of algorithms differ.
pub trait Algorithms {
    /// Of the standing containers, those that the part matches.
    fn part_row(m: &[u64], part: usize, containers: Row) -> Row;
    /// Container c's bits by the rules, after its entry was stored.
    fn container_admitted(m: &mut [u64], c: usize);
    /// Policy q's sets and the bits that it touches, after its entry was stored.
    fn policy_admitted(m: &mut [u64], q: usize);
    /// The same, after its entry was cleared; it had this direction and selected these containers.
    fn policy_removed(m: &mut [u64], q: usize, direction: u64, selected: Row);
    /// What each policy selects and allows, into sets that are empty.
    fn sets(m: &[u64], s: &mut Sets);
    /// Every row of the matrix by the rules.
    fn rows(s: &Sets, each: impl FnMut(usize, Row));
    /// The blocks admitted, and for each its two numbers.
    fn batch(m: &mut [u64], blocks: &[Block], numbers: &mut [[u16; 2]]);
}

pub fn open(m: &mut [u64], b: &[u8]) -> u64 {
    answer((|| {
        if m.len() != WORDS {
            return Err(refused(1));
        }
        let s = read_settings(b)?;
        m.fill(0);
        (m[USER_KEY], m[SYSTEM_KEY], m[SYSTEM_VALUE]) = (s.user.into(), s.key.into(), s.value.into());
        Ok(0)
    })())
}

// ---- by the rules, as both do it

/// The standing policies of a direction.
fn of_direction(m: &[u64], direction: u64) -> Row {
    let mut row = EMPTY;
    for q in 0..POLICY_SLOTS {
        if m[layout::policy(q)] == direction {
            put(&mut row, q);
        }
    }
    row
}

/// What a line of the matrix is worked out from.
pub struct Sets {
    selected: [Row; POLICY_SLOTS],
    allowed: [Row; POLICY_SLOTS],
    ingress: Row,
    egress: Row,
    containers: Row,
}

impl Sets {
    /// With the standing entries, and no policy's sets.
    fn new(m: &[u64]) -> Sets {
        Sets {
            selected: [EMPTY; POLICY_SLOTS],
            allowed: [EMPTY; POLICY_SLOTS],
            ingress: of_direction(m, INGRESS),
            egress: of_direction(m, EGRESS),
            containers: standing(m, CONTAINER_TABLE),
        }
    }
}

fn union(policies: &Row, rows: &[Row; POLICY_SLOTS]) -> Row {
    let mut u = EMPTY;
    for (q, row) in rows.iter().enumerate() {
        if has(policies, q) {
            u = either(u, *row);
        }
    }
    u
}

/// Row a of the matrix; with the directions exchanged, column a.
fn by_rules(s: &Sets, out: &Row, back: &Row, chosen: Row, a: usize) -> Row {
    if !has(&s.containers, a) {
        return EMPTY;
    }
    let (mut any, mut allowed) = (false, EMPTY);
    for q in 0..POLICY_SLOTS {
        if has(out, q) && has(&s.selected[q], a) {
            any = true;
            allowed = either(allowed, s.allowed[q]);
        }
    }
    let first = if any { both(s.containers, allowed) } else { s.containers };
    let mut taken = EMPTY;
    for q in 0..POLICY_SLOTS {
        if has(back, q) && has(&s.allowed[q], a) {
            taken = either(taken, s.selected[q]);
        }
    }
    let mut row = either(except(first, chosen), both(first, taken));
    put(&mut row, a);
    row
}

/// Container c's row and column of the matrix, and its bit in each policy's two sets.
fn set_container(m: &mut [u64], s: &Sets, c: usize) {
    let row = by_rules(s, &s.egress, &s.ingress, union(&s.ingress, &s.selected), c);
    let column = by_rules(s, &s.ingress, &s.egress, union(&s.egress, &s.selected), c);
    set_row(m, c, row);
    for a in 0..CONTAINER_SLOTS {
        set_bit(m, a, c, has(&column, a));
    }
    for q in 0..POLICY_SLOTS {
        set_bit(m, layout::selected(q), c, has(&s.selected[q], c));
        set_bit(m, layout::allowed(q), c, has(&s.allowed[q], c));
    }
}

// ---- calls

/// The lowest free slot from a slot on.
fn free_from(m: &[u64], (start, words, slots): Table, from: usize) -> Option<usize> {
    (from..slots).find(|i| m[start + words * i] == 0)
}

fn tested(m: &[u64]) -> Result<(), Refusal> {
    if m.len() != WORDS {
        return Err(refused(1));
    }
    if !well_formed(m) {
        return Err(refused(2));
    }
    Ok(())
}

fn store_part<const N: usize>(m: &mut [u64], at: usize, part: &Part<N>) {
    m[at] = 1 + part.count as u64;
    m[at + 1..=at + N].iter_mut().zip(part.labels).for_each(|(to, label)| *to = u64::from(label));
}

/// An entry's words at slot i of its table.
fn store(m: &mut [u64], i: usize, entry: &Entry) {
    match entry {
        Entry::Container(labels) => store_part(m, layout::container(i), labels),
        Entry::Policy(direction, select, allow) => {
            let at = layout::policy(i);
            m[at] = u64::from(*direction);
            store_part(m, at + SELECT, select);
            store_part(m, at + ALLOW, allow);
        }
    }
}

pub fn admit<A: Algorithms>(m: &mut [u64], b: &[u8]) -> u64 {
    answer((|| {
        tested(m)?;
        let entry = read_entry(b)?;
        let (table, admitted): (Table, fn(&mut [u64], usize)) = match entry {
            Entry::Container(_) => (CONTAINER_TABLE, A::container_admitted),
            Entry::Policy(..) => (POLICY_TABLE, A::policy_admitted),
        };
        let i = free_from(m, table, 0).ok_or(refused(12))?;
        store(m, i, &entry);
        admitted(m, i);
        Ok(i as u64)
    })())
}

pub fn admit_batch<A: Algorithms>(m: &mut [u64], blocks: &[u8], numbers: &mut [u16], tally: &mut Tally) -> u64 {
    answer((|| {
        tested(m)?;
        let (blocks, rest) = blocks.as_chunks();
        if blocks.len() > 128 || !rest.is_empty() {
            return Err(refused(14));
        }
        let numbers = numbers.as_chunks_mut().0.get_mut(..blocks.len()).ok_or(refused(13))?;
        A::batch(m, blocks, numbers);
        let taken = numbers.iter().filter(|n| n[0] == 0).count();
        tally.taken = tally.taken.saturating_add(taken as u64);
        tally.refused = tally.refused.saturating_add((blocks.len() - taken) as u64);
        Ok(0)
    })())
}

fn slot(m: &[u64], (start, words, slots): Table, i: u64) -> Result<usize, Refusal> {
    if i >= slots as u64 {
        return Err(refused(10));
    }
    if m[start + words * i as usize] == 0 {
        return Err(refused(11));
    }
    Ok(i as usize)
}

pub fn remove_container(m: &mut [u64], i: u64) -> u64 {
    answer((|| {
        tested(m)?;
        let c = slot(m, CONTAINER_TABLE, i)?;
        m[layout::container(c)..layout::container(c + 1)].fill(0);
        set_row(m, c, EMPTY);
        for r in 0..ROW_COUNT {
            set_bit(m, r, c, false);
        }
        Ok(0)
    })())
}

pub fn remove_policy<A: Algorithms>(m: &mut [u64], i: u64) -> u64 {
    answer((|| {
        tested(m)?;
        let q = slot(m, POLICY_TABLE, i)?;
        let at = layout::policy(q);
        let (direction, selected) = (m[at], A::part_row(m, at + SELECT, standing(m, CONTAINER_TABLE)));
        m[at..at + POLICY_WORDS].fill(0);
        A::policy_removed(m, q, direction, selected);
        Ok(0)
    })())
}

pub fn reaches(m: &[u64], a: u64, b: u64) -> u64 {
    answer((|| {
        tested(m)?;
        if a >= CONTAINER_SLOTS as u64 || b >= CONTAINER_SLOTS as u64 {
            return Err(refused(10));
        }
        let (a, b) = (slot(m, CONTAINER_TABLE, a)?, slot(m, CONTAINER_TABLE, b)?);
        Ok(u64::from(has(&row_at(m, a), b)))
    })())
}

fn user(m: &[u64], c: usize) -> u64 {
    let at = layout::container(c);
    let head = m[at] as usize;
    if head == 0 {
        return 0;
    }
    m[at + 1..at + head].iter().copied().find(|w| key_of(*w) == m[USER_KEY]).unwrap_or(0)
}

pub fn carries_user(m: &[u64], i: u64, value: u64) -> u64 {
    answer((|| {
        tested(m)?;
        let c = slot(m, CONTAINER_TABLE, i)?;
        Ok(u64::from(value != 0 && value <= 65535 && user(m, c) == label_word(m[USER_KEY], value)))
    })())
}

pub fn counts(m: &[u64]) -> u64 {
    answer((|| {
        tested(m)?;
        let ones = |words: &[u64]| words.iter().map(|w| u64::from(w.count_ones())).sum::<u64>();
        let matrix = &m[ROWS..layout::row(CONTAINER_SLOTS)];
        Ok(counted(ones(&standing(m, CONTAINER_TABLE)), ones(&standing(m, POLICY_TABLE)), ones(matrix)))
    })())
}

pub fn rebuild<A: Algorithms>(m: &mut [u64]) -> u64 {
    if let Err(refusal) = tested(m) {
        return answer(Err(refusal));
    }
    let mut s = Sets::new(m);
    A::sets(m, &mut s);
    A::rows(&s, |a, row| set_row(m, a, row));
    for q in 0..POLICY_SLOTS {
        set_row(m, layout::selected(q), s.selected[q]);
        set_row(m, layout::allowed(q), s.allowed[q]);
    }
    0
}

pub fn audit<A: Algorithms>(m: &[u64]) -> u64 {
    if let Err(refusal) = tested(m) {
        return answer(Err(refusal));
    }
    let mut s = Sets::new(m);
    A::sets(m, &mut s);
    let mut other = 0;
    let mut compare = |r: usize, row: Row| (0..ROW_WORDS).for_each(|k| other |= m[layout::row(r) + k] ^ row[k]);
    A::rows(&s, &mut compare);
    for q in 0..POLICY_SLOTS {
        compare(layout::selected(q), s.selected[q]);
        compare(layout::allowed(q), s.allowed[q]);
    }
    u64::from(other == 0)
}

// ---- findings

fn column(m: &[u64], a: usize) -> Row {
    let mut row = EMPTY;
    for c in 0..CONTAINER_SLOTS {
        if m[layout::row(c) + a / 64] >> (a % 64) & 1 == 1 {
            put(&mut row, c);
        }
    }
    row
}

fn finding_row(m: &[u64], cs: &Row, ps: &Row, kind: usize, a: usize) -> Row {
    let only = |b: usize, t: bool| if t { [1 << b, 0, 0, 0] } else { EMPTY };
    if !has(if kind < 5 { cs } else { ps }, a) {
        return EMPTY;
    }
    let mut row = EMPTY;
    match kind {
        1 => only(0, within(*cs, column(m, a))),
        2 => {
            let mut others = *cs;
            others[a / 64] &= !(1 << (a % 64));
            only(0, !is_empty(&others) && is_empty(&both(others, column(m, a))))
        }
        3 => {
            let mut others = both(*cs, row_at(m, a));
            others[a / 64] &= !(1 << (a % 64));
            let u = user(m, a);
            if u != 0 {
                let mut from = 0;
                while let Some(b) = next_from(&others, from) {
                    if user(m, b) == u {
                        put(&mut row, b);
                    }
                    from = b + 1;
                }
            }
            except(others, row)
        }
        4 => {
            let at = layout::container(a);
            let label = label_word(m[SYSTEM_KEY], m[SYSTEM_VALUE]);
            if m[SYSTEM_KEY] == 0 || !m[at + 1..at + m[at] as usize].contains(&label) {
                return row;
            }
            let mut others = except(*cs, row_at(m, a));
            others[a / 64] &= !(1 << (a % 64));
            others
        }
        5 | 6 => {
            let (s, w, d) = (row_at(m, layout::selected(a)), row_at(m, layout::allowed(a)), m[layout::policy(a)]);
            if is_empty(&w) || kind == 5 && is_empty(&s) {
                return row;
            }
            for b in 0..POLICY_SLOTS {
                if m[layout::policy(b)] != d || a == b {
                    continue;
                }
                let (t, v) = (row_at(m, layout::selected(b)), row_at(m, layout::allowed(b)));
                let hit = if kind == 5 {
                    within(s, t) && within(w, v) && (b < a || !(within(t, s) && within(v, w)))
                } else {
                    a < b && !is_empty(&both(s, t)) && !is_empty(&v) && is_empty(&both(w, v))
                };
                if hit {
                    put(&mut row, b);
                }
            }
            row
        }
        _ => {
            let (s, w) = (row_at(m, layout::selected(a)), row_at(m, layout::allowed(a)));
            if is_empty(&s) {
                only(0, true)
            } else {
                only(1, is_empty(&w))
            }
        }
    }
}

pub fn next_after(m: &[u64], (kind, a, b): Finding) -> u64 {
    let cs = standing(m, CONTAINER_TABLE);
    let ps = standing(m, POLICY_TABLE);
    let (mut kind, mut a, mut from) = (usize::from(kind), usize::from(a), usize::from(b) + 1);
    while kind < 8 {
        if kind > 0 {
            while a < CONTAINER_SLOTS {
                if let Some(b) = next_from(&finding_row(m, &cs, &ps, kind, a), from) {
                    return code((kind as u16, a as u16, b as u16));
                }
                a += 1;
                from = 0;
            }
        }
        kind += 1;
        a = 0;
        from = 0;
    }
    0
}

/// As many of the findings after three numbers as the list holds, the row of a kind at a slot worked out once; how many they are.
pub fn findings_after(m: &[u64], (kind, a, b): Finding, list: &mut [u64]) -> usize {
    let cs = standing(m, CONTAINER_TABLE);
    let ps = standing(m, POLICY_TABLE);
    let (mut kind, mut a, mut from, mut n) = (usize::from(kind), usize::from(a), usize::from(b) + 1, 0);
    while kind < 8 && n < list.len() {
        if kind == 0 || a >= CONTAINER_SLOTS {
            (kind, a, from) = (kind + 1, 0, 0);
            continue;
        }
        let row = finding_row(m, &cs, &ps, kind, a);
        let front = code((kind as u16, a as u16, 0));
        for (k, word) in row.into_iter().enumerate().skip(from / 64) {
            let mut rest = if k == from / 64 { word >> (from % 64) << (from % 64) } else { word };
            while rest != 0 {
                if n == list.len() {
                    return n;
                }
                list[n] = front + 64 * k as u64 + u64::from(rest.trailing_zeros());
                n += 1;
                rest &= rest - 1;
            }
        }
        (a, from) = (a + 1, 0);
    }
    n
}

pub fn findings(m: &[u64], after: Finding, list: &mut [u64]) -> u64 {
    answer(tested(m).map(|()| findings_after(m, after, list) as u64))
}

pub fn next_finding(m: &[u64], after: Finding) -> u64 {
    answer(tested(m).map(|()| next_after(m, after)))
}

// ---- the file

/// The labels of a part, from byte `at` on. Answers what they add to the checksum's sum.
fn put_labels(b: &mut Block, at: usize, words: &[u64]) -> u32 {
    let mut sum = 0;
    for (k, (to, w)) in b[at..].as_chunks_mut().0.iter_mut().zip(words).enumerate() {
        *to = (*w as u32).to_be_bytes();
        // the high byte of a key is 0
        sum += (1..4).map(|i| u32::from(to[i]) * (at + 4 * k + i + 1) as u32).sum::<u32>();
    }
    sum
}

fn put_checksum(b: &mut Block, sum: u32) {
    b[510..].copy_from_slice(&((sum % 65521) as u16).to_be_bytes());
}

fn put_settings(b: &mut Block, m: &[u64]) {
    let value = (m[SYSTEM_VALUE] as u16).to_be_bytes();
    let front = [83, m[USER_KEY] as u8, m[SYSTEM_KEY] as u8, 0, value[0], value[1]];
    b.fill(0);
    b[..6].copy_from_slice(&front);
    put_checksum(b, front.into_iter().zip(1..).map(|(x, i)| u32::from(x) * i).sum());
}

fn put_container(b: &mut Block, slot: &[u64; CONTAINER_WORDS]) {
    let n = slot[0] as usize - 1;
    b.fill(0);
    b[..4].copy_from_slice(&[67, n as u8, 0, 0]);
    let labels = put_labels(b, 4, &slot[1..=n]);
    put_checksum(b, 67 + 2 * n as u32 + labels);
}

fn put_policy(b: &mut Block, slot: &[u64; POLICY_WORDS]) {
    let (d, s, a) = (slot[0], slot[SELECT] as usize - 1, slot[ALLOW] as usize - 1);
    b.fill(0);
    b[..4].copy_from_slice(&[80, d as u8, s as u8, a as u8]);
    let select = put_labels(b, 4, &slot[SELECT + 1..=SELECT + s]);
    let allow = put_labels(b, 4 + 4 * s, &slot[ALLOW + 1..=ALLOW + a]);
    put_checksum(b, 80 + 2 * d as u32 + 3 * s as u32 + 4 * a as u32 + select + allow);
}

pub fn write(m: &[u64], bytes: &mut [u8]) -> u64 {
    answer((|| {
        tested(m)?;
        let containers = m[CONTAINERS..POLICIES].as_chunks().0.iter().filter(|slot| slot[0] != 0);
        let policies = m[POLICIES..ROWS].as_chunks().0.iter().filter(|slot| slot[0] != 0);
        let length = 512 * (1 + containers.clone().count() + policies.clone().count());
        let mut blocks = bytes.get_mut(..length).ok_or(refused(13))?.as_chunks_mut().0.iter_mut();
        put_settings(blocks.next().unwrap(), m);
        containers.zip(&mut blocks).for_each(|(slot, block)| put_container(block, slot));
        policies.zip(&mut blocks).for_each(|(slot, block)| put_policy(block, slot));
        Ok(length as u64)
    })())
}

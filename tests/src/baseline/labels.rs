//! The register's algorithms: for each label of the policies' parts the row of the containers that carry it, a part's set the
//! meet of its labels' rows; rows of the matrix gathered policy by policy.

use super::*;

pub struct ByLabels;

/// The places of the table of labels.
const PLACES: usize = 1024;

/// Where probing for a label begins.
pub fn first_place(label: u64) -> usize {
    (label.wrapping_mul(2_654_435_769) as u32 >> 22) as usize
}

/// Of eight places, the first that has the label or nothing.
fn place(labels: &[u64; PLACES], label: u64) -> usize {
    let mut h = first_place(label);
    for _ in 0..8 {
        if labels[h] == label || labels[h] == 0 {
            break;
        }
        h = (h + 1) % PLACES;
    }
    h
}

fn labels_of(m: &[u64], part: usize) -> &[u64] {
    match m[part] {
        0 => &[],
        head => &m[part + 1..part + head as usize],
    }
}

fn matches(m: &[u64], part: usize, at: usize) -> bool {
    let c: &[u64; CONTAINER_LABELS] = m[at + 1..at + CONTAINER_WORDS].try_into().unwrap();
    labels_of(m, part).iter().all(|w| c.iter().fold(false, |t, v| t | (v == w)))
}

fn trial(m: &[u64], part: usize, candidates: Row) -> Row {
    let mut row = EMPTY;
    for k in 0..ROW_WORDS {
        let mut rest = candidates[k];
        while rest != 0 {
            let i = rest.trailing_zeros() as usize;
            rest &= rest - 1;
            if matches(m, part, layout::container(64 * k + i)) {
                row[k] |= 1 << i;
            }
        }
    }
    row
}

struct LabelRows {
    labels: [u64; PLACES],
    rows: [Row; PLACES],
}

impl LabelRows {
    /// The labels of all parts, and every container in the rows of its labels.
    fn fill(&mut self, m: &[u64]) {
        for q in 0..POLICY_SLOTS {
            let at = layout::policy(q);
            for part in [at + SELECT, at + ALLOW] {
                for label in labels_of(m, part) {
                    let h = place(&self.labels, *label);
                    if self.labels[h] == 0 {
                        self.labels[h] = *label;
                    }
                }
            }
        }
        for c in 0..CONTAINER_SLOTS {
            for label in labels_of(m, layout::container(c)) {
                let h = place(&self.labels, *label);
                if self.labels[h] == *label {
                    put(&mut self.rows[h], c);
                }
            }
        }
    }

    fn matching(&self, m: &[u64], part: usize, candidates: Row) -> Row {
        let (mut left, mut all) = (candidates, true);
        for label in labels_of(m, part) {
            let h = place(&self.labels, *label);
            if self.labels[h] == *label {
                left = both(left, self.rows[h]);
            } else {
                all = false;
            }
        }
        if all {
            left
        } else {
            trial(m, part, left)
        }
    }
}

/// The sets of all policies but one, if it is known already.
fn fill(m: &[u64], s: &mut Sets, known: Option<usize>) {
    if is_empty(&either(s.ingress, s.egress)) {
        return;
    }
    let mut l = LabelRows { labels: [0; PLACES], rows: [EMPTY; PLACES] };
    l.fill(m);
    for q in 0..POLICY_SLOTS {
        let at = layout::policy(q);
        if m[at] != 0 && known != Some(q) {
            s.selected[q] = l.matching(m, at + SELECT, s.containers);
            s.allowed[q] = l.matching(m, at + ALLOW, s.containers);
        }
    }
}

fn join(lines: &mut [Row; CONTAINER_SLOTS], who: Row, whom: Row) {
    for (k, word) in who.into_iter().enumerate() {
        let mut rest = word;
        while rest != 0 {
            let a = 64 * k + rest.trailing_zeros() as usize;
            rest &= rest - 1;
            lines[a] = either(lines[a], whom);
        }
    }
}

/// The rows of some containers, and no others.
fn lines(s: &Sets, some: Row, mut each: impl FnMut(usize, Row)) {
    let (mut outs, mut backs) = ([EMPTY; CONTAINER_SLOTS], [EMPTY; CONTAINER_SLOTS]);
    for q in 0..POLICY_SLOTS {
        if has(&s.egress, q) {
            join(&mut outs, both(s.selected[q], some), s.allowed[q]);
        } else if has(&s.ingress, q) {
            join(&mut backs, both(s.allowed[q], some), s.selected[q]);
        }
    }
    let (bound, chosen) = (union(&s.egress, &s.selected), union(&s.ingress, &s.selected));
    for a in 0..CONTAINER_SLOTS {
        if has(&some, a) {
            let there = if has(&bound, a) { both(s.containers, outs[a]) } else { s.containers };
            let mut row = either(except(there, chosen), both(there, backs[a]));
            put(&mut row, a);
            each(a, row);
        }
    }
}

/// The bits that a policy of this direction touches, which selects these containers. Its two sets are stored.
fn reset(m: &mut [u64], q: usize, direction: u64, selected: Row) {
    if is_empty(&selected) {
        return;
    }
    let mut s = Sets::new(m);
    s.selected[q] = row_at(m, layout::selected(q));
    s.allowed[q] = row_at(m, layout::allowed(q));
    fill(m, &mut s, Some(q));
    let (rows, columns) = if direction == EGRESS { (selected, s.containers) } else { (s.containers, selected) };
    lines(&s, rows, |a, row| set_bits(m, a, row, columns));
}

/// Of a table, the slots that entries of a batch came to, and the slot from which the next free one is looked for.
struct Came {
    table: Table,
    slots: Row,
    from: usize,
}

impl Came {
    fn to(table: Table) -> Came {
        Came { table, slots: EMPTY, from: 0 }
    }

    fn place(&mut self, m: &mut [u64], entry: &Entry) -> Result<u64, Refusal> {
        let Some(i) = free_from(m, self.table, self.from) else {
            self.from = self.table.2;
            return Err(refused(12));
        };
        store(m, i, entry);
        put(&mut self.slots, i);
        self.from = i + 1;
        Ok(i as u64)
    }
}

/// The bits that entries touch which came to these slots, all of them at once by the entries as they stand now.
fn set_came(m: &mut [u64], containers: Row, policies: Row) {
    if is_empty(&either(containers, policies)) {
        return;
    }
    let mut s = Sets::new(m);
    fill(m, &mut s, None);
    for q in 0..POLICY_SLOTS {
        let places = if has(&policies, q) { s.containers } else { containers };
        set_bits(m, layout::selected(q), s.selected[q], places);
        set_bits(m, layout::allowed(q), s.allowed[q], places);
    }
    let rows = either(containers, union(&both(policies, s.egress), &s.selected));
    let columns = either(containers, union(&both(policies, s.ingress), &s.selected));
    let some = if is_empty(&columns) { rows } else { s.containers };
    if !is_empty(&some) {
        lines(&s, some, |a, row| set_bits(m, a, row, if has(&rows, a) { s.containers } else { columns }));
    }
}

impl Algorithms for ByLabels {
    fn part_row(m: &[u64], part: usize, containers: Row) -> Row {
        trial(m, part, containers)
    }

    fn container_admitted(m: &mut [u64], c: usize) {
        let mut s = Sets::new(m);
        fill(m, &mut s, None);
        set_container(m, &s, c);
    }

    fn policy_admitted(m: &mut [u64], q: usize) {
        let (at, containers) = (layout::policy(q), standing(m, CONTAINER_TABLE));
        let (selected, allowed) = (trial(m, at + SELECT, containers), trial(m, at + ALLOW, containers));
        set_row(m, layout::selected(q), selected);
        set_row(m, layout::allowed(q), allowed);
        reset(m, q, m[at], selected);
    }

    fn policy_removed(m: &mut [u64], q: usize, direction: u64, selected: Row) {
        set_row(m, layout::selected(q), EMPTY);
        set_row(m, layout::allowed(q), EMPTY);
        reset(m, q, direction, selected);
    }

    fn sets(m: &[u64], s: &mut Sets) {
        fill(m, s, None);
    }

    fn rows(s: &Sets, mut each: impl FnMut(usize, Row)) {
        lines(s, s.containers, &mut each);
        (0..CONTAINER_SLOTS).filter(|a| !has(&s.containers, *a)).for_each(|a| each(a, EMPTY));
    }

    fn batch(m: &mut [u64], blocks: &[Block], numbers: &mut [[u16; 2]]) {
        let (mut containers, mut policies) = (Came::to(CONTAINER_TABLE), Came::to(POLICY_TABLE));
        for (block, put) in blocks.iter().zip(numbers) {
            *put = pair(match read_entry(block) {
                Ok(entry @ Entry::Container(_)) => containers.place(m, &entry),
                Ok(entry @ Entry::Policy(..)) => policies.place(m, &entry),
                Err(refusal) => Err(refusal),
            });
        }
        set_came(m, containers.slots, policies.slots);
    }
}

//! A register written separately from documents 01 and 02, for comparison: plain vectors, every rule by its sentence, no thought of
//! speed.

use crate::answers::{answer, code, counted, pair, refused, refused_at, Finding, Refusal, Tally};
use crate::bytes::{self, Pair};
use crate::layout::{self, *};

#[derive(Clone, Copy, PartialEq, Eq, Debug, PartialOrd, Ord)]
pub struct Label {
    pub key: u64,
    pub value: u64,
}

#[derive(Clone, Copy, PartialEq, Eq, Debug)]
pub enum Direction {
    Ingress,
    Egress,
}

#[derive(Clone, PartialEq, Eq, Debug)]
pub struct Policy {
    pub direction: Direction,
    pub select: Vec<Label>,
    pub allow: Vec<Label>,
}

#[derive(Clone, Copy, PartialEq, Eq, Debug)]
pub struct Settings {
    pub user_key: u64,
    pub system_key: u64,
    pub system_value: u64,
}

#[derive(Clone, PartialEq, Eq, Debug)]
pub enum Entry {
    Container(Vec<Label>),
    Policy(Policy),
}

/// Rows of bits, in a row one for each container.
#[derive(Clone, PartialEq, Eq, Debug)]
pub struct Bits(Vec<[u64; ROW_WORDS]>);

impl Bits {
    fn clear(rows: usize) -> Bits {
        Bits(vec![[0; ROW_WORDS]; rows])
    }

    pub fn get(&self, i: usize, j: usize) -> bool {
        self.0[i][j / 64] >> (j % 64) & 1 == 1
    }

    pub fn set(&mut self, i: usize, j: usize, bit: bool) {
        if self.get(i, j) != bit {
            self.0[i][j / 64] ^= 1 << (j % 64);
        }
    }

    /// The containers in row i.
    fn row(&self, i: usize) -> Vec<usize> {
        let mut row = vec![];
        for (k, word) in self.0[i].into_iter().enumerate().filter(|(_, word)| *word != 0) {
            row.extend((64 * k..64 * k + 64).filter(|j| word >> (j % 64) & 1 == 1));
        }
        row
    }
}

/// A register: entries, and the bits it keeps.
#[derive(Clone, PartialEq, Eq, Debug)]
pub struct Register {
    pub settings: Settings,
    pub containers: Vec<Option<Vec<Label>>>,
    pub policies: Vec<Option<Policy>>,
    pub matrix: Bits,
    pub selected: Bits,
    pub allowed: Bits,
}

// ---- blocks

fn number(block: &[u8], at: usize) -> u64 {
    u64::from(block[at]) * 256 + u64::from(block[at + 1])
}

fn is_key(n: u64) -> bool {
    (1..=64).contains(&n)
}

fn is_value(n: u64) -> bool {
    (1..=65535).contains(&n)
}

/// Bytes of a block in their order, each with whether what begins there is as it must be: the first that is not is at fault
/// (document 02, Note 5).
fn check(refusal: u64, bytes: impl IntoIterator<Item = (usize, bool)>) -> Result<(), Refusal> {
    match bytes.into_iter().find(|(_, right)| !right) {
        Some((position, _)) => Err(refused_at(refusal, position)),
        None => Ok(()),
    }
}

fn check_zeros(block: &[u8], unused: impl IntoIterator<Item = usize>) -> Result<(), Refusal> {
    check(9, unused.into_iter().map(|at| (at, block[at] == 0)))
}

fn check_frame(block: &[u8], kinds: &[u8]) -> Result<(), Refusal> {
    if block.len() != 512 {
        return Err(refused(3));
    }
    let sum: u64 = (0..510).map(|i| u64::from(block[i]) * (i as u64 + 1)).sum();
    check(4, [(510, number(block, 510) == sum % 65521)])?;
    check(5, [(0, kinds.contains(&block[0]))])
}

/// The fields of settings, by the byte at which they begin. Where value and system key do not go together, the value is at fault.
fn settings_fields(s: &Settings) -> [(usize, bool); 3] {
    let value = if s.system_key == 0 { s.system_value == 0 } else { is_value(s.system_value) };
    [(1, is_key(s.user_key)), (2, s.system_key == 0 || is_key(s.system_key)), (4, value)]
}

pub fn read_settings(block: &[u8]) -> Result<Settings, Refusal> {
    check_frame(block, &[83])?;
    let s = Settings { user_key: u64::from(block[1]), system_key: u64::from(block[2]), system_value: number(block, 4) };
    check(7, settings_fields(&s))?;
    check_zeros(block, [3].into_iter().chain(6..510))?;
    Ok(s)
}

/// The bytes at which n labels begin, the first of them here.
fn places(first: usize, n: usize) -> Vec<usize> {
    (0..n).map(|k| first + 4 * k).collect()
}

/// The keys and values of these parts, in the order of the bytes; then, part by part, that each key exceeds the one before it.
fn check_parts(block: &[u8], parts: &[&Vec<usize>]) -> Result<(), Refusal> {
    let key = |at: usize| number(block, at);
    let labels = parts.iter().flat_map(|part| part.iter());
    check(7, labels.flat_map(|at| [(*at, is_key(key(*at))), (at + 2, is_value(number(block, at + 2)))]))?;
    let neighbours = parts.iter().flat_map(|part| part.windows(2));
    check(8, neighbours.map(|w| (w[1], key(w[0]) < key(w[1]))))
}

fn labels(block: &[u8], part: &[usize]) -> Vec<Label> {
    part.iter().map(|at| Label { key: number(block, *at), value: number(block, at + 2) }).collect()
}

fn read_container(block: &[u8]) -> Result<Vec<Label>, Refusal> {
    let n = usize::from(block[1]);
    check(6, [(1, n <= 8)])?;
    let all = places(4, n);
    check_parts(block, &[&all])?;
    check_zeros(block, [2, 3].into_iter().chain(4 + 4 * n..510))?;
    Ok(labels(block, &all))
}

fn read_policy(block: &[u8]) -> Result<Policy, Refusal> {
    let (m, n) = (usize::from(block[2]), usize::from(block[3]));
    check(6, [(1, [1, 2].contains(&block[1])), (2, m <= 4), (3, n <= 4)])?;
    let (select, allow) = (places(4, m), places(4 + 4 * m, n));
    check_parts(block, &[&select, &allow])?;
    check_zeros(block, 4 + 4 * (m + n)..510)?;
    let direction = if block[1] == 1 { Direction::Ingress } else { Direction::Egress };
    Ok(Policy { direction, select: labels(block, &select), allow: labels(block, &allow) })
}

pub fn read_entry(block: &[u8]) -> Result<Entry, Refusal> {
    check_frame(block, &[67, 80])?;
    if block[0] == 67 {
        read_container(block).map(Entry::Container)
    } else {
        read_policy(block).map(Entry::Policy)
    }
}

// A well-formed memory holds settings and lists of labels that a block may have.

fn valid_settings(s: &Settings) -> bool {
    settings_fields(s).iter().all(|(_, right)| *right)
}

fn valid_labels(labels: &[Label], limit: usize) -> bool {
    let rising = labels.windows(2).all(|w| w[0].key < w[1].key);
    labels.len() <= limit && labels.iter().all(|l| is_key(l.key) && is_value(l.value)) && rising
}

// ---- the rules

fn matches(part: &[Label], container: &[Label]) -> bool {
    part.iter().all(|l| container.contains(l))
}

fn lets(r: &Register, d: Direction, c: &[Label], other: &[Label]) -> bool {
    let mut selecting = r.policies.iter().flatten().filter(|p| p.direction == d && matches(&p.select, c)).peekable();
    selecting.peek().is_none() || selecting.any(|p| matches(&p.allow, other))
}

/// Document 02, Note 3: a container reaches itself, whatever the policies.
fn reaches(r: &Register, a: usize, b: usize) -> bool {
    match (&r.containers[a], &r.containers[b]) {
        (Some(_), Some(_)) if a == b => true,
        (Some(x), Some(y)) => lets(r, Direction::Egress, x, y) && lets(r, Direction::Ingress, y, x),
        _ => false,
    }
}

impl Register {
    pub fn opened(settings: Settings) -> Register {
        Register {
            settings,
            containers: vec![None; CONTAINER_SLOTS],
            policies: vec![None; POLICY_SLOTS],
            matrix: Bits::clear(CONTAINER_SLOTS),
            selected: Bits::clear(POLICY_SLOTS),
            allowed: Bits::clear(POLICY_SLOTS),
        }
    }

    fn standing(&self) -> Vec<usize> {
        (0..CONTAINER_SLOTS).filter(|c| self.containers[*c].is_some()).collect()
    }

    fn standing_policies(&self) -> Vec<usize> {
        (0..POLICY_SLOTS).filter(|q| self.policies[*q].is_some()).collect()
    }

    fn selects(&self, q: usize, c: usize) -> bool {
        matches!((&self.policies[q], &self.containers[c]), (Some(p), Some(x)) if matches(&p.select, x))
    }

    fn allows(&self, q: usize, c: usize) -> bool {
        matches!((&self.policies[q], &self.containers[c]), (Some(p), Some(x)) if matches(&p.allow, x))
    }

    pub fn pairs(&self) -> usize {
        (0..CONTAINER_SLOTS).map(|a| self.matrix.row(a).len()).sum()
    }

    fn set_matrix(&mut self, a: usize, b: usize) {
        self.matrix.set(a, b, reaches(self, a, b));
    }

    fn set_sets(&mut self, q: usize, c: usize) {
        self.selected.set(q, c, self.selects(q, c));
        self.allowed.set(q, c, self.allows(q, c));
    }

    fn container_changed(&mut self, c: usize) {
        for i in 0..CONTAINER_SLOTS {
            self.set_matrix(c, i);
            self.set_matrix(i, c);
        }
        for q in 0..POLICY_SLOTS {
            self.set_sets(q, c);
        }
    }

    fn policy_changed(&mut self, q: usize, p: &Policy) {
        for c in 0..CONTAINER_SLOTS {
            self.set_sets(q, c);
        }
        let standing = self.standing();
        for c in &standing {
            if !matches(&p.select, self.containers[*c].as_ref().unwrap()) {
                continue;
            }
            for other in &standing {
                match p.direction {
                    Direction::Egress => self.set_matrix(*c, *other),
                    Direction::Ingress => self.set_matrix(*other, *c),
                }
            }
        }
    }

    pub fn rebuild(&mut self) {
        for a in 0..CONTAINER_SLOTS {
            for b in 0..CONTAINER_SLOTS {
                self.set_matrix(a, b);
            }
        }
        for q in 0..POLICY_SLOTS {
            for c in 0..CONTAINER_SLOTS {
                self.set_sets(q, c);
            }
        }
    }

    /// The book is in step.
    pub fn is_consistent(&self) -> bool {
        let mut fresh = self.clone();
        fresh.rebuild();
        fresh == *self
    }

    // ---- findings

    fn user(&self, c: usize) -> Option<u64> {
        let x = self.containers[c].as_ref()?;
        x.iter().find(|l| l.key == self.settings.user_key).map(|l| l.value)
    }

    fn is_system(&self, c: usize) -> bool {
        let label = Label { key: self.settings.system_key, value: self.settings.system_value };
        label.key != 0 && self.containers[c].as_ref().is_some_and(|x| x.contains(&label))
    }

    pub fn findings(&self) -> Vec<Finding> {
        let (cs, ps) = (self.standing(), self.standing_policies());
        let reach = |a: usize, b: usize| self.matrix.get(a, b);
        let mut list = Vec::new();
        let mut add = |k: u16, a: usize, b: usize| list.push((k, a as u16, b as u16));
        for a in &cs {
            if cs.iter().all(|c| reach(*c, *a)) {
                add(1, *a, 0);
            }
            if cs.len() > 1 && !cs.iter().any(|c| c != a && reach(*c, *a)) {
                add(2, *a, 0);
            }
            for b in &cs {
                let same = self.user(*a).is_some() && self.user(*a) == self.user(*b);
                if a != b && reach(*a, *b) && !same {
                    add(3, *a, *b);
                }
                if self.is_system(*a) && a != b && !reach(*a, *b) {
                    add(4, *a, *b);
                }
            }
        }
        let sets: Vec<_> = (0..POLICY_SLOTS).map(|q| (self.selected.row(q), self.allowed.row(q))).collect();
        let connects = |q: usize, c: usize, d: usize| self.selected.get(q, c) && self.allowed.get(q, d);
        let among = |a: usize, b: usize| sets[a].0.iter().all(|c| sets[a].1.iter().all(|d| connects(b, *c, *d)));
        for a in &ps {
            let (s, w) = &sets[*a];
            if s.is_empty() {
                add(7, *a, 0);
            } else if w.is_empty() {
                add(7, *a, 1);
            }
            for b in &ps {
                let (t, v) = &sets[*b];
                let one = self.policies[*a].as_ref().unwrap().direction == self.policies[*b].as_ref().unwrap().direction;
                if a != b && one && !s.is_empty() && !w.is_empty() && among(*a, *b) && (!among(*b, *a) || b < a) {
                    add(5, *a, *b);
                }
                let share = |x: &[usize], y: &[usize]| x.iter().any(|c| y.contains(c));
                if a < b && one && !w.is_empty() && !v.is_empty() && share(s, t) && !share(w, v) {
                    add(6, *a, *b);
                }
            }
        }
        list.sort();
        list
    }

    // ---- the file

    /// The settings block, the standing containers by place, then the policies by place.
    pub fn file(&self) -> Vec<u8> {
        let pairs = |labels: &[Label]| -> Vec<Pair> { labels.iter().map(|l| (l.key as u16, l.value as u16)).collect() };
        let s = &self.settings;
        let mut file = bytes::settings(s.user_key as u8, s.system_key as u8, s.system_value as u16);
        for x in self.containers.iter().flatten() {
            file.extend(bytes::container(&pairs(x)));
        }
        for p in self.policies.iter().flatten() {
            let direction = if p.direction == Direction::Ingress { bytes::INGRESS } else { bytes::EGRESS };
            file.extend(bytes::policy(direction, &pairs(&p.select), &pairs(&p.allow)));
        }
        file
    }

    // ---- the memory

    pub fn encode(&self) -> Vec<u64> {
        let mut m = vec![self.settings.user_key, self.settings.system_key, self.settings.system_value];
        let part = |m: &mut Vec<u64>, labels: &[Label], limit: usize| {
            m.push(1 + labels.len() as u64);
            m.extend(labels.iter().map(|l| label_word(l.key, l.value)));
            m.extend(std::iter::repeat_n(0, limit - labels.len()));
        };
        for c in &self.containers {
            match c {
                Some(x) => part(&mut m, x, CONTAINER_LABELS),
                None => m.extend([0; CONTAINER_WORDS]),
            }
        }
        for p in &self.policies {
            match p {
                Some(p) => {
                    m.push(if p.direction == Direction::Ingress { INGRESS } else { EGRESS });
                    part(&mut m, &p.select, PART_LABELS);
                    part(&mut m, &p.allow, PART_LABELS);
                }
                None => m.extend([0; POLICY_WORDS]),
            }
        }
        m.extend(self.matrix.0.as_flattened());
        for (selected, allowed) in self.selected.0.iter().zip(&self.allowed.0) {
            m.extend(selected);
            m.extend(allowed);
        }
        m
    }

    /// What a memory says, if it is well formed.
    pub fn decode(m: &[u64]) -> Option<Register> {
        if m.len() != WORDS {
            return None;
        }
        let settings = Settings { user_key: m[USER_KEY], system_key: m[SYSTEM_KEY], system_value: m[SYSTEM_VALUE] };
        if !valid_settings(&settings) {
            return None;
        }
        let part = |at: usize, limit: usize| -> Option<Vec<Label>> {
            let n = m[at].checked_sub(1)? as usize;
            if n > limit {
                return None;
            }
            let list: Vec<Label> = m[at + 1..at + 1 + n].iter().map(|w| Label { key: key_of(*w), value: value_of(*w) }).collect();
            valid_labels(&list, limit).then_some(list)
        };
        let mut r = Register::opened(settings);
        for c in 0..CONTAINER_SLOTS {
            let at = layout::container(c);
            if m[at..at + CONTAINER_WORDS].iter().any(|w| *w != 0) {
                r.containers[c] = Some(part(at, CONTAINER_LABELS)?);
            }
        }
        for q in 0..POLICY_SLOTS {
            let at = layout::policy(q);
            if m[at..at + POLICY_WORDS].iter().any(|w| *w != 0) {
                let direction = match m[at] {
                    INGRESS => Direction::Ingress,
                    EGRESS => Direction::Egress,
                    _ => return None,
                };
                let (select, allow) = (part(at + SELECT, PART_LABELS)?, part(at + ALLOW, PART_LABELS)?);
                r.policies[q] = Some(Policy { direction, select, allow });
            }
        }
        let words = |x: usize| -> [u64; ROW_WORDS] { m[layout::row(x)..layout::row(x + 1)].try_into().unwrap() };
        let stand = |row: Vec<usize>| row.iter().all(|c| r.containers[*c].is_some());
        for a in 0..CONTAINER_SLOTS {
            r.matrix.0[a] = words(a);
            let row = r.matrix.row(a);
            if !row.is_empty() && r.containers[a].is_none() || !stand(row) {
                return None;
            }
        }
        for q in 0..POLICY_SLOTS {
            (r.selected.0[q], r.allowed.0[q]) = (words(layout::selected(q)), words(layout::allowed(q)));
            let row = [r.selected.row(q), r.allowed.row(q)].concat();
            if !row.is_empty() && r.policies[q].is_none() || !stand(row) {
                return None;
            }
        }
        (r.encode() == m).then_some(r)
    }
}

// ---- calls

#[derive(Clone, PartialEq, Eq, Debug)]
pub enum Call {
    Open(Vec<u8>),
    Admit(Vec<u8>),
    RemoveContainer(u64),
    RemovePolicy(u64),
    Reaches(u64, u64),
    CarriesUser(u64, u64),
    NextFinding(Finding),
    /// With the words of the list that is lent.
    Findings(Finding, Vec<u64>),
    Counts,
    Rebuild,
    Audit,
    /// With the bytes of the buffer that is lent.
    Write(Vec<u8>),
    /// The blocks, with the numbers of the list and the tally that are lent.
    AdmitBatch(Vec<u8>, Vec<u16>, Tally),
}

/// What a call is lent to write into, beside the memory: the list of `Findings`, the buffer of `Write`, the list and the tally of
/// `AdmitBatch`.
#[derive(Clone, Default, PartialEq, Eq, Debug)]
pub struct Lent {
    pub list: Vec<u64>,
    pub bytes: Vec<u8>,
    pub numbers: Vec<u16>,
    pub tally: Tally,
}

impl Call {
    /// What the call is lent; of what no such call is lent, nothing.
    pub fn lent(&self) -> Lent {
        match self.clone() {
            Call::Findings(_, list) => Lent { list, ..Lent::default() },
            Call::Write(bytes) => Lent { bytes, ..Lent::default() },
            Call::AdmitBatch(_, numbers, tally) => Lent { numbers, tally, ..Lent::default() },
            _ => Lent::default(),
        }
    }
}

/// What a call leaves of the memory and of what else it was lent, and its answer.
#[derive(Clone, PartialEq, Eq, Debug)]
pub struct Left {
    pub memory: Vec<u64>,
    pub lent: Lent,
    pub answer: u64,
}

pub fn step(memory: &[u64], call: &Call) -> Left {
    let mut lent = call.lent();
    match changed(memory, call, &mut lent) {
        Ok((r, value)) => Left { memory: r.encode(), lent, answer: answer(Ok(value)) },
        Err(refusal) => Left { memory: memory.to_vec(), lent, answer: answer(Err(refusal)) },
    }
}

/// The register that an accepted call leaves, and the value that it answers.
fn changed(memory: &[u64], call: &Call, lent: &mut Lent) -> Result<(Register, u64), Refusal> {
    if memory.len() != WORDS {
        return Err(refused(1));
    }
    if let Call::Open(block) = call {
        return Ok((Register::opened(read_settings(block)?), 0));
    }
    let mut r = Register::decode(memory).ok_or(refused(2))?;
    let value = run(&mut r, call, lent)?;
    Ok((r, value))
}

/// The slot that the entry of a block takes.
fn admit(r: &mut Register, block: &[u8]) -> Result<u64, Refusal> {
    match read_entry(block)? {
        Entry::Container(x) => {
            let c = r.containers.iter().position(|s| s.is_none()).ok_or(refused(12))?;
            r.containers[c] = Some(x);
            r.container_changed(c);
            Ok(c as u64)
        }
        Entry::Policy(p) => {
            let q = r.policies.iter().position(|s| s.is_none()).ok_or(refused(12))?;
            r.policies[q] = Some(p.clone());
            r.policy_changed(q, &p);
            Ok(q as u64)
        }
    }
}

/// The blocks of a batch one after another, each with its two numbers and its count in the tally.
fn admit_batch(r: &mut Register, bytes: &[u8], numbers: &mut [u16], tally: &mut Tally) -> Result<u64, Refusal> {
    if bytes.len() > 65_536 || !bytes.len().is_multiple_of(512) {
        return Err(refused(14));
    }
    if numbers.len() < 2 * (bytes.len() / 512) {
        return Err(refused(13));
    }
    for (i, block) in bytes.chunks(512).enumerate() {
        let admitted = admit(r, block);
        numbers[2 * i..2 * i + 2].copy_from_slice(&pair(admitted));
        let count = if admitted.is_ok() { &mut tally.taken } else { &mut tally.refused };
        *count = count.saturating_add(1);
    }
    Ok(0)
}

fn slot(table: usize, stands: impl Fn(usize) -> bool, i: u64) -> Result<usize, Refusal> {
    if i >= table as u64 {
        return Err(refused(10));
    }
    if !stands(i as usize) {
        return Err(refused(11));
    }
    Ok(i as usize)
}

fn run(r: &mut Register, call: &Call, lent: &mut Lent) -> Result<u64, Refusal> {
    match call {
        Call::Open(_) => unreachable!(),
        Call::Admit(block) => admit(r, block),
        Call::RemoveContainer(i) => {
            let c = slot(CONTAINER_SLOTS, |c| r.containers[c].is_some(), *i)?;
            r.containers[c] = None;
            r.container_changed(c);
            Ok(0)
        }
        Call::RemovePolicy(i) => {
            let q = slot(POLICY_SLOTS, |q| r.policies[q].is_some(), *i)?;
            let p = r.policies[q].take().unwrap();
            r.policy_changed(q, &p);
            Ok(0)
        }
        Call::Reaches(a, b) => {
            if [a, b].into_iter().any(|c| *c >= CONTAINER_SLOTS as u64) {
                return Err(refused(10));
            }
            let stands = |c: usize| r.containers[c].is_some();
            let (a, b) = (slot(CONTAINER_SLOTS, stands, *a)?, slot(CONTAINER_SLOTS, stands, *b)?);
            Ok(u64::from(r.matrix.get(a, b)))
        }
        Call::CarriesUser(i, v) => {
            let c = slot(CONTAINER_SLOTS, |c| r.containers[c].is_some(), *i)?;
            let label = Label { key: r.settings.user_key, value: *v };
            Ok(u64::from(r.containers[c].as_ref().unwrap().contains(&label)))
        }
        Call::NextFinding(after) => Ok(r.findings().into_iter().find(|f| f > after).map_or(0, code)),
        Call::Findings(after, _) => {
            let some: Vec<u64> = r.findings().into_iter().filter(|f| f > after).take(lent.list.len()).map(code).collect();
            lent.list[..some.len()].copy_from_slice(&some);
            Ok(some.len() as u64)
        }
        Call::Counts => Ok(counted(r.standing().len() as u64, r.standing_policies().len() as u64, r.pairs() as u64)),
        Call::Rebuild => {
            r.rebuild();
            Ok(0)
        }
        Call::Audit => Ok(u64::from(r.is_consistent())),
        Call::Write(_) => {
            let file = r.file();
            if lent.bytes.len() < file.len() {
                return Err(refused(13));
            }
            lent.bytes[..file.len()].copy_from_slice(&file);
            Ok(file.len() as u64)
        }
        Call::AdmitBatch(bytes, ..) => admit_batch(r, bytes, &mut lent.numbers, &mut lent.tally),
    }
}

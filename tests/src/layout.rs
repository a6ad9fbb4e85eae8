//! The layout of the memory, as docs/MEMORY.md has it. No other file of the tests has a number of it.

/// The settings: a word each.
pub const USER_KEY: usize = 0;
pub const SYSTEM_KEY: usize = 1;
pub const SYSTEM_VALUE: usize = 2;
pub const SETTINGS_WORDS: usize = 3;

pub const CONTAINERS: usize = SETTINGS_WORDS;
pub const CONTAINER_SLOTS: usize = 256;
pub const CONTAINER_LABELS: usize = 8;
pub const CONTAINER_WORDS: usize = 1 + CONTAINER_LABELS;

pub const POLICIES: usize = CONTAINERS + CONTAINER_SLOTS * CONTAINER_WORDS;
pub const POLICY_SLOTS: usize = 128;
pub const PART_LABELS: usize = 4;
pub const PART_WORDS: usize = 1 + PART_LABELS;
pub const POLICY_WORDS: usize = 1 + 2 * PART_WORDS;
/// Where a policy's parts begin in its slot.
pub const SELECT: usize = 1;
pub const ALLOW: usize = SELECT + PART_WORDS;
/// Directions, the first word of a policy's slot.
pub const INGRESS: u64 = 1;
pub const EGRESS: u64 = 2;

pub const ROWS: usize = POLICIES + POLICY_SLOTS * POLICY_WORDS;
pub const ROW_COUNT: usize = CONTAINER_SLOTS + 2 * POLICY_SLOTS;
pub const ROW_WORDS: usize = CONTAINER_SLOTS / 64;

pub const WORDS: usize = ROWS + ROW_COUNT * ROW_WORDS;

const _: () = assert!(CONTAINERS == 3 && CONTAINER_WORDS == 9);
const _: () = assert!(POLICIES == 2307 && POLICY_WORDS == 11 && ALLOW == 6);
const _: () = assert!(ROWS == 3715 && WORDS == 5763);

/// The word of a label, and its key and value.
pub const fn label_word(key: u64, value: u64) -> u64 {
    key << 16 | value
}

pub const fn key_of(label: u64) -> u64 {
    label >> 16
}

pub const fn value_of(label: u64) -> u64 {
    label & 0xffff
}

/// The first word of a container's slot.
pub const fn container(c: usize) -> usize {
    CONTAINERS + CONTAINER_WORDS * c
}

/// The first word of a policy's slot.
pub const fn policy(q: usize) -> usize {
    POLICIES + POLICY_WORDS * q
}

/// The first word of a row.
pub const fn row(r: usize) -> usize {
    ROWS + ROW_WORDS * r
}

/// The row of the containers that a policy selects. Those of the matrix come before it, row a that of container a.
pub const fn selected(q: usize) -> usize {
    CONTAINER_SLOTS + 2 * q
}

/// The row of the containers that a policy allows.
pub const fn allowed(q: usize) -> usize {
    selected(q) + 1
}

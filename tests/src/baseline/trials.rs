//! The first release's algorithms: each part is tried against each container, each row goes through all policies.

use super::*;
use crate::answers::outcome;

pub struct ByTrials;

fn matches(m: &[u64], part: usize, at: usize) -> bool {
    let (p, c) = (&m[part + 1..part + m[part] as usize], &m[at + 1..at + m[at] as usize]);
    p.iter().all(|w| c.contains(w))
}

impl Algorithms for ByTrials {
    fn part_row(m: &[u64], part: usize, containers: Row) -> Row {
        let (mut row, mut from) = (EMPTY, 0);
        while let Some(c) = next_from(&containers, from) {
            if matches(m, part, layout::container(c)) {
                put(&mut row, c);
            }
            from = c + 1;
        }
        row
    }

    fn container_admitted(m: &mut [u64], c: usize) {
        let mut s = Sets::new(m);
        Self::sets(m, &mut s);
        set_container(m, &s, c);
    }

    fn policy_admitted(m: &mut [u64], q: usize) {
        let at = layout::policy(q);
        let selected = Self::part_row(m, at + SELECT, standing(m, CONTAINER_TABLE));
        Self::policy_removed(m, q, m[at], selected);
    }

    fn policy_removed(m: &mut [u64], q: usize, direction: u64, selected: Row) {
        let mut s = Sets::new(m);
        Self::sets(m, &mut s);
        set_row(m, layout::selected(q), s.selected[q]);
        set_row(m, layout::allowed(q), s.allowed[q]);
        let chosen = union(&s.ingress, &s.selected);
        for a in 0..CONTAINER_SLOTS {
            let mask = match direction {
                INGRESS => selected,
                _ if has(&selected, a) => s.containers,
                _ => continue,
            };
            if has(&s.containers, a) {
                let row = by_rules(&s, &s.egress, &s.ingress, chosen, a);
                set_bits(m, a, row, mask);
            }
        }
    }

    fn sets(m: &[u64], s: &mut Sets) {
        for q in 0..POLICY_SLOTS {
            let at = layout::policy(q);
            if m[at] == 0 {
                continue;
            }
            let mut from = 0;
            while let Some(c) = next_from(&s.containers, from) {
                let slot = layout::container(c);
                if matches(m, at + SELECT, slot) {
                    put(&mut s.selected[q], c);
                }
                if matches(m, at + ALLOW, slot) {
                    put(&mut s.allowed[q], c);
                }
                from = c + 1;
            }
        }
    }

    fn rows(s: &Sets, mut each: impl FnMut(usize, Row)) {
        let chosen = union(&s.ingress, &s.selected);
        for a in 0..CONTAINER_SLOTS {
            each(a, by_rules(s, &s.egress, &s.ingress, chosen, a));
        }
    }

    fn batch(m: &mut [u64], blocks: &[Block], numbers: &mut [[u16; 2]]) {
        for (block, put) in blocks.iter().zip(numbers) {
            *put = pair(outcome(admit::<Self>(m, block)));
        }
    }
}

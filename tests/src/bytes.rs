//! Blocks of 512 bytes, written.

/// A label: key and value.
pub type Pair = (u16, u16);

/// Directions of a policy.
pub const INGRESS: u8 = 1;
pub const EGRESS: u8 = 2;

fn put(bytes: &mut Vec<u8>, n: u16) {
    bytes.extend_from_slice(&n.to_be_bytes());
}

/// Stores the check that bytes 0 to 509 call for.
pub fn seal(block: &mut [u8]) {
    let mut sum: u64 = 0;
    for (i, b) in block[..510].iter().enumerate() {
        sum += u64::from(*b) * (i as u64 + 1);
    }
    let check = (sum % 65521) as u16;
    block[510..512].copy_from_slice(&check.to_be_bytes());
}

/// A sealed block that begins with these bytes.
pub fn sealed(front: &[u8]) -> Vec<u8> {
    let mut block = front.to_vec();
    block.resize(512, 0);
    seal(&mut block);
    block
}

pub fn settings(user: u8, system_key: u8, system_value: u16) -> Vec<u8> {
    let mut front = vec![83, user, system_key, 0];
    put(&mut front, system_value);
    sealed(&front)
}

pub fn container(labels: &[Pair]) -> Vec<u8> {
    let mut front = vec![67, labels.len() as u8, 0, 0];
    for (key, value) in labels {
        put(&mut front, *key);
        put(&mut front, *value);
    }
    sealed(&front)
}

/// The block with a check that is wrong by a bit.
pub fn spoiled(mut block: Vec<u8>) -> Vec<u8> {
    block[511] ^= 1;
    block
}

pub fn policy(direction: u8, select: &[Pair], allow: &[Pair]) -> Vec<u8> {
    let mut front = vec![80, direction, select.len() as u8, allow.len() as u8];
    for (key, value) in select.iter().chain(allow) {
        put(&mut front, *key);
        put(&mut front, *value);
    }
    sealed(&front)
}

//! Keys with their weights, as traces and journals have them. With version 1 each weighs 1, and has no byte for it.

/// The bytes of a key, and of a key with its weight.
pub const KEY_LEN: usize = 8;
pub const WEIGHED_LEN: usize = 9;

#[derive(Clone, Copy)]
pub struct Item {
    pub key: u64,
    pub weight: u8,
}

impl Item {
    /// That of its bytes, with its weight or without.
    pub fn of(bytes: &[u8]) -> Item {
        let key = bytes[..KEY_LEN].try_into().expect("eight bytes");
        Item { key: u64::from_le_bytes(key), weight: bytes.get(KEY_LEN).copied().unwrap_or(1) }
    }
}

/// The first bytes of a trace or a journal: its name, the version, and zeros.
pub fn magic(name: &[u8], version: u8) -> [u8; 8] {
    let mut magic = [0; 8];
    magic[..name.len()].copy_from_slice(name);
    magic[name.len()] = version;
    magic
}

/// The version that first bytes with this name have, 1 or 2.
pub fn version_of(name: &[u8], found: &[u8]) -> Option<u8> {
    [1, 2].into_iter().find(|&version| found == magic(name, version))
}

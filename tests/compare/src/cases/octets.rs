//! Octets with one place changed.

/// The octets with one bit flipped, the most significant of the first octet being bit 0.
pub fn flipped(octets: &[u8], bit: usize) -> Vec<u8> {
    let mut flipped = octets.to_vec();
    flipped[bit / 8] ^= 0x80 >> (bit % 8);
    flipped
}

/// The octets with one of them given each value.
pub fn with_each(octets: &[u8], at: usize) -> Vec<Vec<u8>> {
    let changed = |value: u8| [&octets[..at], &[value], &octets[at + 1..]].concat();
    (0..=u8::MAX).map(changed).collect()
}

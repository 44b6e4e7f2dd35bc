//! Houses, and what is none.

use shared::seeds::Seeds;

/// None, the least, the greatest, the first over it, and the greatest number that fits the call.
pub const HOUSES: [u32; 5] = [0, 1, 32_767, 32_768, u32::MAX];

/// A house that is mostly one.
pub fn house(seeds: &mut Seeds) -> u32 {
    let drawn = 1 + seeds.below(32_767) as u32;
    seeds.pick(&[drawn, drawn, drawn, 1, 32_767, 0, 32_768, u32::MAX])
}

//! Tables made by hand, to be shown.

use crate::random::Random;
use crate::trees::Parts;

/// Four times the greater ones is small again.
pub const NODES: [usize; 9] = {
    let quarter = usize::MAX / 4 + 1;
    [0, 1, 2, 3, 4, quarter, quarter + 1, 2 * quarter, usize::MAX]
};

/// A number about the edges of a buffer, of the kinds, or of 32 bits.
fn number(random: &mut Random, length: usize) -> u32 {
    let length = length as u32;
    match random.below(12) {
        0 => length,
        1 => length + 1,
        2 => length.wrapping_sub(1),
        3 => u32::MAX - random.below(3) as u32,
        4 => u32::MAX - length,
        5 => (u32::MAX - length).wrapping_add(1 + random.below(3) as u32),
        6 => 1 << random.below(32),
        7 | 8 => random.below(12) as u32,
        _ => random.below(length as usize + 1) as u32,
    }
}

/// A few nodes about the edges of their buffers, and of anything else.
pub fn by_hand(random: &mut Random) -> Parts {
    let text: Vec<u8> = (0..random.below(12)).map(|_| random.byte()).collect();
    let store: Vec<u8> = (0..random.below(12)).map(|_| random.byte()).collect();
    // A last node that is cut short, too.
    let mut table: Vec<u32> = Vec::new();
    for _ in 0..random.below(4) {
        let kind = match random.below(8) {
            0..=2 => 5,
            3..=5 => 6,
            6 => random.below(10) as u32,
            _ => random.pick(&[0x105, 0x106, 0x0005_0000, 1 << 31 | 5, u32::MAX]),
        };
        let length = if kind == 5 { text.len() } else { store.len() };
        let (place, count) = (number(random, length), number(random, length));
        let rest = length.saturating_sub(place as usize);
        table.extend([kind, count, place, number(random, rest)]);
    }
    table.truncate(table.len() - random.pick(&[0, 0, 0, 1, 2, 3]).min(table.len()));
    Parts { table, text, store }
}

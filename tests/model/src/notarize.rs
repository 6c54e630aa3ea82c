//! Parity, and the notarized key.

use crate::des::Block;

/// The leftmost seven bits of each byte stay, the last bit makes the count of ones odd.
pub fn with_parity_set(block: Block) -> Block {
    Block::from_be_bytes(block.to_be_bytes().map(|byte| {
        let seven = byte & 0xFE;
        seven | u8::from(seven.count_ones() % 2 == 0)
    }))
}

/// Some byte has an even number of ones.
pub fn some_byte_is_even(block: Block) -> bool {
    block.to_be_bytes().iter().any(|byte| byte.count_ones() % 2 == 0)
}

/// The key notarized with the pair (i, j): four groups of seven bits of i, then four of j,
/// highest first, each exclusive-ored into the leftmost seven bits of the matching byte.
pub fn notarized(key: Block, i: u32, j: u32) -> Block {
    let groups = [i, j].map(|identifier| [21, 14, 7, 0].map(|low| (identifier >> low & 0x7F) as u8));
    let mut bytes = key.to_be_bytes();
    for (byte, group) in bytes.iter_mut().zip(groups.concat()) {
        *byte ^= group << 1;
    }
    with_parity_set(Block::from_be_bytes(bytes))
}

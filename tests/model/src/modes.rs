//! ECB, CBC and 64-bit CFB of FIPS PUB 81, and the fixity value.

use crate::des::{Block, Cipher};

/// Bytes as blocks; a short last block is filled with zero bytes on the right.
pub fn blocks(data: &[u8]) -> Vec<Block> {
    let filled = |part: &[u8]| {
        let mut bytes = [0; 8];
        bytes[..part.len()].copy_from_slice(part);
        Block::from_be_bytes(bytes)
    };
    data.chunks(8).map(filled).collect()
}

pub fn bytes(blocks: &[Block]) -> Vec<u8> {
    blocks.iter().flat_map(|block| block.to_be_bytes()).collect()
}

pub fn ecb_encipher(cipher: &Cipher, plain: &[Block]) -> Vec<Block> {
    plain.iter().map(|&block| cipher.encipher(block)).collect()
}

pub fn ecb_decipher(cipher: &Cipher, text: &[Block]) -> Vec<Block> {
    text.iter().map(|&block| cipher.decipher(block)).collect()
}

pub fn cbc_encipher(cipher: &Cipher, iv: Block, plain: &[Block]) -> Vec<Block> {
    let mut before = iv;
    let chained = plain.iter().map(|block| {
        before = cipher.encipher(block ^ before);
        before
    });
    chained.collect()
}

pub fn cbc_decipher(cipher: &Cipher, iv: Block, text: &[Block]) -> Vec<Block> {
    let before = std::iter::once(&iv).chain(text);
    text.iter().zip(before).map(|(&block, before)| cipher.decipher(block) ^ before).collect()
}

pub fn cfb_encipher(cipher: &Cipher, iv: Block, plain: &[Block]) -> Vec<Block> {
    let mut before = iv;
    let fed_back = plain.iter().map(|block| {
        before = block ^ cipher.encipher(before);
        before
    });
    fed_back.collect()
}

/// Deciphering, too, runs the cipher in its enciphering direction.
pub fn cfb_decipher(cipher: &Cipher, iv: Block, text: &[Block]) -> Vec<Block> {
    let before = std::iter::once(&iv).chain(text);
    text.iter().zip(before).map(|(block, &before)| block ^ cipher.encipher(before)).collect()
}

/// The last block of CBC enciphering over the plain record.
pub fn fixity_value(cipher: &Cipher, iv: Block, record: &[u8]) -> Block {
    cbc_encipher(cipher, iv, &blocks(record)).last().copied().unwrap_or(iv)
}

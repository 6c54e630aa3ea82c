//! The cipher of FIPS PUB 46, made of its published tables.

use crate::tables::*;
use std::sync::OnceLock;

/// Eight bytes as one number, the first byte highest.
pub type Block = u64;

/// A choice of bits, as one look-up for each byte of its input.
struct Choice(Vec<[u64; 256]>);

impl Choice {
    /// The published numbers count the `width` bits of the input from 1, leftmost first.
    fn new(width: usize, numbers: &[u8]) -> Choice {
        let mut looked_up = vec![[0u64; 256]; width / 8];
        for (at, &number) in numbers.iter().enumerate() {
            let chosen = width - usize::from(number);
            let placed = 1u64 << (numbers.len() - 1 - at);
            for byte in (0..256).filter(|byte| byte >> (chosen % 8) & 1 == 1) {
                looked_up[chosen / 8][byte] |= placed;
            }
        }
        Choice(looked_up)
    }

    fn of(&self, value: u64) -> u64 {
        let bytes = self.0.iter().enumerate();
        bytes.fold(0, |bits, (n, table)| bits | table[(value >> (8 * n)) as usize & 255])
    }
}

/// All tables, put into the form in which they are looked up.
struct Machine {
    initial: Choice,
    inverse: Choice,
    expansion: Choice,
    choice_1: Choice,
    choice_2: Choice,
    boxes: [[u64; 64]; 8],
}

impl Machine {
    fn new() -> Machine {
        Machine {
            initial: Choice::new(64, &INITIAL_PERMUTATION),
            inverse: Choice::new(64, &INVERSE_INITIAL_PERMUTATION),
            expansion: Choice::new(32, &E),
            choice_1: Choice::new(64, &PERMUTED_CHOICE_1),
            choice_2: Choice::new(56, &PERMUTED_CHOICE_2),
            boxes: permuted_boxes(),
        }
    }

    /// The function f: expand, add the round key, substitute and permute.
    fn f(&self, right: u64, round_key: u64) -> u64 {
        let selected = self.expansion.of(right) ^ round_key;
        let boxes = self.boxes.iter().enumerate();
        boxes.fold(0, |bits, (n, table)| bits | table[(selected >> (42 - 6 * n)) as usize & 63])
    }
}

/// Each box's answer to six bits, already permuted by P.
fn permuted_boxes() -> [[u64; 64]; 8] {
    let permutation = Choice::new(32, &P);
    let mut permuted = [[0; 64]; 8];
    for (n, numbers) in BOXES.iter().enumerate() {
        for (six, answer) in permuted[n].iter_mut().enumerate() {
            let row = six >> 4 & 2 | six & 1;
            let column = six >> 1 & 15;
            *answer = permutation.of(u64::from(numbers[16 * row + column]) << (28 - 4 * n));
        }
    }
    permuted
}

fn machine() -> &'static Machine {
    static MACHINE: OnceLock<Machine> = OnceLock::new();
    MACHINE.get_or_init(Machine::new)
}

/// The cipher with one key set in it.
pub struct Cipher {
    round_keys: [u64; 16],
}

impl Cipher {
    pub fn new(key: Block) -> Cipher {
        let chosen = machine().choice_1.of(key);
        let (mut c, mut d) = (chosen >> 28, chosen & 0x0FFF_FFFF);
        let mut round_keys = [0; 16];
        for (round_key, &shift) in round_keys.iter_mut().zip(&LEFT_SHIFTS) {
            c = shifted_left(c, shift);
            d = shifted_left(d, shift);
            *round_key = machine().choice_2.of(c << 28 | d);
        }
        Cipher { round_keys }
    }

    pub fn encipher(&self, block: Block) -> Block {
        rounds(block, self.round_keys.iter())
    }

    pub fn decipher(&self, block: Block) -> Block {
        rounds(block, self.round_keys.iter().rev())
    }
}

/// One half of the key register, turned left within its 28 bits.
fn shifted_left(half: u64, by: u8) -> u64 {
    (half << by | half >> (28 - by)) & 0x0FFF_FFFF
}

fn rounds<'a>(block: Block, round_keys: impl Iterator<Item = &'a u64>) -> Block {
    let permuted = machine().initial.of(block);
    let (mut left, mut right) = (permuted >> 32, permuted & 0xFFFF_FFFF);
    for &round_key in round_keys {
        (left, right) = (right, left ^ machine().f(right, round_key));
    }
    machine().inverse.of(right << 32 | left)
}

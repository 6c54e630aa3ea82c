//! Bytes that nobody meant: random ones, and good streams with bytes flipped, dropped and doubled.

use crate::child::Program;
use crate::compare::{some_piece, Comparison};
use crate::random::Random;
use crate::rules::{DATA, RULES};
use crate::walk::walk;
use crate::write;

/// Compares so many runs; true where nothing differs.
pub fn fuzz(program: Program, runs: usize, seed: u64) -> bool {
    let mut comparison = Comparison::with(program);
    for number in 0..runs {
        let mut random = Random::new(seed ^ 0xF0F0_F0F0, number as u64);
        let stream = match random.below(8) {
            0 => random_bytes(&mut random),
            1 => random_fields(&mut random),
            _ => damaged_stream(&mut random),
        };
        let piece = some_piece(&mut random, &stream);
        comparison.put(&format!("run {number} of seed {seed}"), &stream, piece);
    }
    println!("fuzz: {runs} runs, {} differences", comparison.differences);
    comparison.differences == 0
}

fn random_bytes(random: &mut Random) -> Vec<u8> {
    let longest = random.pick(&[4, 50, 50, 400, 400, 70_000]);
    let length = random.below(longest);
    random.bytes(length)
}

/// Commands with fields that are well made and mostly not those of the command.
fn random_fields(random: &mut Random) -> Vec<u8> {
    let mut stream = Vec::new();
    for _ in 0..random.below(20) {
        let mut value = Vec::new();
        for _ in 0..random.below(5) {
            let length = random.pick(&[0, 1, 1, 4, 4, 8, 8, 16]);
            value.extend(write::field(
                random.between(0x80, usize::from(DATA) + 1) as u8,
                &random.bytes(length),
            ));
        }
        let tag = random.pick(&RULES.each_ref().map(|rule| rule.tag));
        stream.extend(write::field(tag, &value));
    }
    stream
}

fn damaged_stream(random: &mut Random) -> Vec<u8> {
    let mut stream = walk(Random::new(random.block(), 0));
    for _ in 0..random.pick(&[1, 1, 2, 3, 8]) {
        if stream.is_empty() {
            break;
        }
        let at = random.below(stream.len());
        match random.below(3) {
            0 => stream[at] ^= 1 << random.below(8),
            1 => drop(stream.remove(at)),
            _ => stream.insert(at, stream[at]),
        }
    }
    stream
}

//! The model beside what is published: the vectors, N1 to N10, the worked example, the edges.

use crate::des::{Block, Cipher};
use crate::modes::*;
use crate::notarize::notarized;
use crate::stream;

const CIPHER_ROWS: &str = include_str!("../vectors/nbs-sp-500-20.txt");
const MODE_ROWS: &str = include_str!("../vectors/modes.txt");

const EXAMPLE_INPUT: &str = "
20000F 83000101 8500080101010101010101
220000
04001D 81000400000005 82000400000006 83000101 8500080000000000000000
7F0000
20000F 83000102 8500080000000000000000
210012 81000400000005 8500080102030405060708
010012 81000400000005 8500080102030405060708
0A0012 81000400000005 8700080000000000000000
020007 81000410000000
0200
";

const EXAMPLE_OUTPUT: &str = "\
1 20 0 -
2 22 7 -
3 04 3 -
4 7F 16 -
5 20 14 -
6 21 0 -
7 01 0 -
8 0A 10 -
9 02 1 -
10 02 17 -
";

/// N1 to N10: key, i, j and the notarized key.
const NOTARIZED: [(Block, u32, u32, Block); 10] = [
    (0x0101010101010101, 0, 0, 0x0101010101010101),
    (0x0101010101010101, 1, 0, 0x0101010201010101),
    (0x0101010101010101, 0, 1, 0x0101010101010102),
    (0x0101010101010101, 3, 0, 0x0101010701010101),
    (0x0101010101010101, 128, 0, 0x0101020101010101),
    (0x0101010101010101, 2097152, 0, 0x0201010101010101),
    (0x0101010101010101, 268435455, 0, 0xFEFEFEFE01010101),
    (0x0000000000000000, 0, 0, 0x0101010101010101),
    (0xFEFEFEFEFEFEFEFE, 268435455, 0, 0x01010101FEFEFEFE),
    (0x0101010101010101, 5, 5, 0x0101010B0101010B),
];

/// The bytes of hex digits; anything else between them is for reading only.
fn from_hex(text: &str) -> Vec<u8> {
    let digits: Vec<u32> = text.chars().filter_map(|c| c.to_digit(16)).collect();
    digits.chunks(2).map(|two| (two[0] << 4 | two[1]) as u8).collect()
}

fn block(text: &str) -> Block {
    blocks(&from_hex(text))[0]
}

/// The worked example's stream.
pub fn example() -> Vec<u8> {
    from_hex(EXAMPLE_INPUT)
}

fn example_agrees() -> bool {
    stream::run(&example()) == EXAMPLE_OUTPUT
}

/// How many rows of NBS SP 500-20 agree both ways, and of how many.
fn cipher_rows() -> (usize, usize) {
    let rows = CIPHER_ROWS.lines().filter(|line| !line.starts_with('#'));
    let rows: Vec<Vec<&str>> = rows.map(|line| line.split_whitespace().collect()).collect();
    let agrees = |row: &&Vec<&str>| {
        let (cipher, plain, text) = (Cipher::new(block(row[1])), block(row[2]), block(row[3]));
        cipher.encipher(plain) == text && cipher.decipher(text) == plain
    };
    (rows.iter().filter(agrees).count(), rows.len())
}

fn mode_row(name: &str) -> Vec<Block> {
    let row = MODE_ROWS.lines().find_map(|line| line.strip_prefix(name));
    blocks(&from_hex(row.expect("the row stands in modes.txt")))
}

/// How many of the published answers for the modes agree: three modes both ways, and the fixity value.
fn mode_rows() -> (usize, usize) {
    let cipher = Cipher::new(0x0123456789ABCDEF);
    let iv = 0x1234567890ABCDEF;
    let plain = blocks(b"Now is the time for all ");
    let (ecb, cbc, cfb) = (mode_row("ecb "), mode_row("cbc "), mode_row("cfb64 "));
    let agree = [
        ecb_encipher(&cipher, &plain) == ecb,
        ecb_decipher(&cipher, &ecb) == plain,
        cbc_encipher(&cipher, iv, &plain) == cbc,
        cbc_decipher(&cipher, iv, &cbc) == plain,
        cfb_encipher(&cipher, iv, &plain) == cfb,
        cfb_decipher(&cipher, iv, &cfb) == plain,
        vec![fixity_value(&cipher, 0, b"7654321 Now is the time for ")] == mode_row("mac "),
    ];
    (agree.iter().filter(|&&one| one).count(), agree.len())
}

fn notarized_keys() -> (usize, usize) {
    let agree = NOTARIZED.iter().filter(|(key, i, j, result)| notarized(*key, *i, *j) == *result);
    (agree.count(), NOTARIZED.len())
}

/// Prints what agrees; true where all does.
pub fn run() -> bool {
    let results = [
        ("NBS SP 500-20, both ways", cipher_rows()),
        ("FIPS PUB 81 and 113", mode_rows()),
        ("N1 to N10", notarized_keys()),
        ("worked example", (usize::from(example_agrees()), 1)),
        ("flows by their meaning", crate::meaning::flows()),
        ("pairs listed as on the page", crate::pairs::as_on_the_page()),
    ];
    for (name, (agree, all)) in results {
        println!("selftest: {name}: {agree} of {all}");
    }
    results.iter().all(|(_, (agree, all))| agree == all)
}

#[cfg(test)]
mod tests {
    #[test]
    fn all_agrees() {
        assert!(super::run());
    }
}

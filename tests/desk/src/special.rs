//! Batches for the edges that random lines do not reach.

use crate::batch::Batch;
use crate::says::LONGEST_LINE;
use crate::spell::quoted;

const KEYED: [&str; 5] = [
    "EIK 1 0101010101010101",
    "IPW 5 0102030405060708",
    "RAS 5 0102030405060708",
    "GDK 5 5 1 0000000000000000",
    "LDK 5 5 1 s $4",
];

fn keyed(name: &str) -> Batch {
    let lines: Vec<Vec<u8>> = KEYED.iter().map(|line| line.as_bytes().to_vec()).collect();
    Batch::of(name, &lines)
}

/// The line filled to so many letters by the last letter of it, again and again.
fn filled(start: &str, filling: u8, length: usize) -> Vec<u8> {
    let mut line = start.as_bytes().to_vec();
    line.resize(length, filling);
    line
}

fn with_text(start: &str, letters: usize) -> Vec<u8> {
    [start.as_bytes(), &quoted(&vec![b'#'; letters])].concat()
}

pub fn batches() -> Vec<Batch> {
    let mut batches = vec![long_lines(), many_answers(), full_room()];
    batches.extend(too_long_lines());
    batches
}

/// Lines of 131072 letters, and data at its edges, as a text and in hex digits.
fn long_lines() -> Batch {
    let mut batch = keyed("lines of 131072 letters");
    for filling in *b" #5\"0" {
        batch.add(filled("RPW ", filling, LONGEST_LINE));
        batch.add(filled("LAU ", filling, LONGEST_LINE));
        batch.add(filled("ECBE 5 ", filling, LONGEST_LINE));
        batch.add(filled("! ", filling, LONGEST_LINE));
        batch.add(filled("# ", filling, LONGEST_LINE));
    }
    batch.add(filled("LAU 5x", b'0', LONGEST_LINE));
    batch.add([filled("LAU ", b'0', LONGEST_LINE - 1), b"5".to_vec()].concat());
    batch.add(b"RAS 5 0102030405060708".to_vec());
    for letters in [65499, 65500, 65501, 65510, 65525] {
        batch.add(with_text("DAUT 5 t ", letters));
        batch.add(with_text("CBCD 5 ", letters));
    }
    for bytes in [32768, 32769, 65500, 65501] {
        batch.add(filled("DAUT 5 t ", b'A', 9 + 2 * bytes));
        batch.add(filled("ECBE 5 ", b'B', 7 + 2 * bytes));
    }
    batch.add(filled("DAUT 5 t \"", b'a', LONGEST_LINE));
    batch.add(b"RPW".to_vec());
    batch
}

/// One line of 131073 letters, and one after it.
fn too_long_lines() -> Vec<Batch> {
    let starts = ["RPW ", "# ", "LAU 5x", "help"];
    let too_long = |start: &&str| {
        let mut batch = keyed("a line of 131073 letters");
        let filling = if *start == "# " { b'x' } else { b' ' };
        batch.add(filled(start, filling, LONGEST_LINE + 1));
        batch.add(b"RPW".to_vec());
        batch
    };
    starts.iter().map(too_long).collect()
}

/// Answers 4095 to 4098, of which the first 4096 are kept.
fn many_answers() -> Batch {
    let mut batch = keyed("answers 4095 to 4098");
    while batch.desk.ordinal < 4094 {
        let count = (4094 - batch.desk.ordinal as usize).min(1000);
        batch.add(format!("! {}", "220000".repeat(count)).into_bytes());
    }
    for _ in 0..4 {
        batch.add(b"EIV 5 0000000000000000".to_vec());
    }
    for n in [4, 4094, 4095, 4096, 4097, 4098, 4099] {
        batch.add(format!("EIV 5 ${n}").into_bytes());
        batch.add(format!("ECBE 5 ${n}").into_bytes());
    }
    batch
}

/// Answers that fill the room for them to its last byte, and then some more.
fn full_room() -> Batch {
    let mut batch = keyed("answers that fill 1048576 bytes");
    batch.add(with_text("ECBE 5 ", 32760));
    for n in 6..37 {
        batch.add(format!("ECBE 5 ${n}").into_bytes());
    }
    for n in [4, 6, 37] {
        batch.add(format!("DAUT 5 s ${n}").into_bytes());
    }
    let spare = 1_048_576 - 8 - 32 * 32760;
    for line in [with_text("ECBE 5 ", spare), with_text("ECBE 5 ", 8), b"EIV 5 $4".to_vec()] {
        batch.add(line);
        batch.add(format!("ECBD 5 ${}", batch.desk.ordinal).into_bytes());
    }
    batch
}

/// One line more than the desk reads; `who` is the last that is answered.
pub fn a_million_lines() -> (Vec<u8>, String) {
    let input = ["\n".repeat(999_999).as_str(), "who\nwho\nwho\n"].concat();
    (input.into_bytes(), "active users: 0 of 16\nthe desk has read 1000000 lines, and stops\n".to_string())
}

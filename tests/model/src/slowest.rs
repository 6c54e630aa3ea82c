//! The slowest known stream, and the time that a program and the model take for it.

use crate::child::Program;
use crate::notarize::with_parity_set;
use crate::random::Random;
use crate::rules::*;
use crate::stream::LONGEST_INPUT;
use crate::write;
use std::io::Result;
use std::time::{Duration, Instant};

/// The shortest of so many runs counts; the two take turns.
const RUNS: usize = 9;

/// Sixty-four users, then EIK of name 1 and RPW in turn until 65536 bytes are full:
/// each RPW deciphers and enciphers sixty-four blocks, every one of them under a key of its own.
pub fn stream() -> Vec<u8> {
    let mut random = Random::new(1, 1);
    let mut enter_key = || {
        let block = with_parity_set(random.block());
        write::command(EIK, &Arguments { interchange: 1, block, ..Arguments::default() })
    };
    let enroll = |n: u32| {
        let (issuer, block) = (n * 4_000_037, u64::from(n));
        write::command(IPW, &Arguments { issuer, block, ..Arguments::default() })
    };
    let mut stream = enter_key();
    stream.extend((0..64).flat_map(enroll));
    while stream.len() < LONGEST_INPUT {
        stream.extend(enter_key());
        stream.extend(write::command(RPW, &Arguments::default()));
    }
    stream.truncate(LONGEST_INPUT);
    stream
}

/// The shortest of the times that the two take for the stream, the first and then the second, in turn.
fn shortest(programs: [&Program; 2], stream: &[u8]) -> Result<[Duration; 2]> {
    let mut shortest = [Duration::MAX; 2];
    for _ in 0..RUNS {
        for (program, best) in programs.iter().zip(&mut shortest) {
            let start = Instant::now();
            program.run(stream, stream.len())?;
            *best = start.elapsed().min(*best);
        }
    }
    Ok(shortest)
}

/// Times both as children on the slowest stream, and prints how many times the model's time the program takes. No verdict.
pub fn time(program: Program) -> Result<bool> {
    let own = std::env::current_exe()?.to_string_lossy().into_owned();
    let model = Program { path: own, args: vec!["run".to_string()] };
    let [models, programs] = shortest([&model, &program], &stream())?.map(|time| time.as_secs_f64());
    println!("time: model {models:.3} s, program {programs:.3} s, ratio {:.2}", programs / models);
    Ok(true)
}

//! A program beside the model: every line of every stream.

use crate::child::Program;
use crate::generate::{edge_kinds, kind_of, make};
use crate::notary::Notary;
use crate::pairs::Pairs;
use crate::random::Random;
use crate::stream;
use std::process::Output;

/// So many streams that differ are shown; the others are counted.
const SHOWN: usize = 5;

pub struct Comparison {
    program: Program,
    pub lines: usize,
    pub differences: usize,
    pub pairs: Pairs,
}

impl Comparison {
    pub fn with(program: Program) -> Comparison {
        Comparison { program, lines: 0, differences: 0, pairs: Pairs::default() }
    }

    /// Runs one stream through both; status, standard error and every line must agree.
    pub fn put(&mut self, name: &str, stream: &[u8], piece: usize) {
        let replies = stream::replies(&mut Notary::fresh(), stream);
        for (tag, reply) in &replies {
            self.pairs.meet(*tag, reply);
        }
        self.lines += replies.len();
        let wanted = stream::lines(&replies);
        let faults = match self.program.run(stream, piece) {
            Ok(output) => faults(&wanted, &output),
            Err(error) => vec![format!("the program did not run: {error}")],
        };
        if !faults.is_empty() {
            self.differences += 1;
            self.show(name, stream, &faults);
        }
    }

    fn show(&self, name: &str, stream: &[u8], faults: &[String]) {
        if self.differences > SHOWN {
            return;
        }
        let path =
            std::env::temp_dir().join(format!("model-{}-{}.bin", std::process::id(), self.differences));
        let saved = match std::fs::write(&path, stream) {
            Ok(()) => format!("saved in {}", path.display()),
            Err(error) => format!("not saved: {error}"),
        };
        println!("difference in {name}, {} bytes, {saved}", stream.len());
        for fault in faults {
            println!("  {fault}");
        }
    }
}

/// What is wrong with the program's run, in words.
fn faults(wanted: &str, output: &Output) -> Vec<String> {
    let mut faults = Vec::new();
    if output.status.code() != Some(0) {
        faults.push(format!("the program ended with {}", output.status));
    }
    if !output.stderr.is_empty() {
        faults.push(format!("standard error: {}", String::from_utf8_lossy(&output.stderr)));
    }
    if output.stdout != wanted.as_bytes() {
        let printed = String::from_utf8_lossy(&output.stdout);
        faults.push(first_difference(wanted, &printed));
    }
    faults
}

fn first_difference(wanted: &str, printed: &str) -> String {
    let (mut wanted, mut printed) = (wanted.split_inclusive('\n'), printed.split_inclusive('\n'));
    for number in 1.. {
        let (model, program) = (wanted.next(), printed.next());
        if model != program {
            return format!("line {number}\n    model   {}\n    program {}", shown(model), shown(program));
        }
        if model.is_none() {
            break;
        }
    }
    "bytes that are no text".to_string()
}

/// The line with its line feed made visible.
fn shown(line: Option<&str>) -> String {
    line.map_or("has no such line".to_string(), |line| format!("{line:?}"))
}

/// Most streams go in one piece, some in small ones.
pub fn some_piece(random: &mut Random, stream: &[u8]) -> usize {
    if random.chance(90) {
        stream.len().max(1)
    } else {
        random.between(1, 200) + stream.len() / 50
    }
}

/// The stream of the number, for a closer look.
pub fn stream(seed: u64, number: usize) -> Vec<u8> {
    make(kind_of(&edge_kinds(), number), Random::new(seed, number as u64))
}

/// Compares so many streams; true where nothing differs.
pub fn compare(program: Program, streams: usize, seed: u64) -> bool {
    let kinds = edge_kinds();
    let mut comparison = Comparison::with(program);
    for number in 0..streams {
        let mut random = Random::new(seed, number as u64);
        let kind = kind_of(&kinds, number);
        let stream = make(kind, random.clone());
        let piece = some_piece(&mut random, &stream);
        comparison.put(&format!("stream {number} of seed {seed} ({kind:?})"), &stream, piece);
    }
    comparison.pairs.print();
    let (met, reachable) = comparison.pairs.counts();
    let Comparison { lines, differences, .. } = comparison;
    println!("model: {streams} streams, {lines} lines compared, {differences} differences, {met} pairs of {reachable}");
    differences == 0
}

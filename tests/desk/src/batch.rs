//! Batches of lines: a stream of document 01's tests in words, and wrong lines between its commands.

use crate::decode;
use crate::desk::{Desk, Outcome};
use crate::noise::{changed, random_line, reworded};
use crate::spell::{joined, raw, words};
use model::faults::misfits;
use model::generate::{make, Kind};
use model::pairs::unknown_tags;
use model::random::Random;
use model::rules::RULES;
use model::stage::stage;
use model::write;

/// A line, what became of it at the model, and the model's answer.
pub struct Line {
    pub letters: Vec<u8>,
    pub outcome: Outcome,
    pub answer: String,
    /// The bytes that the scribe writes.
    pub written: Vec<u8>,
}

/// The lines of one run, with the model running alongside; after `quit` nothing is answered.
pub struct Batch {
    pub name: String,
    pub lines: Vec<Line>,
    pub desk: Desk,
    pub last_has_feed: bool,
    /// How many lines are random, or good ones changed.
    pub noise: usize,
}

impl Batch {
    pub fn new(name: String) -> Batch {
        Batch { name, lines: Vec::new(), desk: Desk::fresh(), last_has_feed: true, noise: 0 }
    }

    pub fn of(name: &str, lines: &[Vec<u8>]) -> Batch {
        let mut batch = Batch::new(name.to_string());
        lines.iter().for_each(|line| batch.add(line.clone()));
        batch
    }

    pub fn add(&mut self, letters: Vec<u8>) {
        let ended =
            self.lines.last().is_some_and(|line| matches!(line.outcome, Outcome::Quit | Outcome::Unread));
        let (outcome, answer) =
            if ended { (Outcome::Unread, String::new()) } else { self.desk.take(&letters) };
        self.lines.push(Line { letters, outcome, answer, written: self.desk.written.clone() });
    }

    /// The bytes that go through the pipe.
    pub fn input(&self) -> Vec<u8> {
        let lines: Vec<&[u8]> = self.lines.iter().map(|line| line.letters.as_slice()).collect();
        let mut input = lines.join(&b'\n');
        if self.last_has_feed {
            input.push(b'\n');
        }
        input
    }
}

/// Which batch a number stands for.
#[derive(Clone, Copy, Debug)]
pub enum Plan {
    Stream(Kind),
    UnknownTags,
    Cuts,
}

/// The batches made for one subject each.
pub fn plans() -> Vec<Plan> {
    let mut plans = vec![Plan::UnknownTags, Plan::Cuts];
    let mut kinds =
        vec![Kind::Example, Kind::EvenKeys, Kind::FullFacility, Kind::FullTable, Kind::Due, Kind::Due];
    kinds.extend((0..RULES.len()).map(|rule| Kind::Refused { rule }));
    kinds.extend((0x0A..=0x10).map(|tag| Kind::ShortData { tag }));
    let long =
        |tag| [32768, 32776].map(|length| Kind::LongData { tag, length, by: model::edges::Issuer::WithAll });
    kinds.extend((0x0A..=0x10).flat_map(long));
    plans.extend(kinds.into_iter().map(Plan::Stream));
    plans
}

pub fn batch(plan: Plan, mut random: Random, number: usize) -> Batch {
    let mut batch = Batch::new(format!("batch {number} ({plan:?})"));
    batch.last_has_feed = random.chance(70);
    match plan {
        Plan::Stream(kind) => {
            let stream = make(kind, Random::new(random.block(), 0));
            for command in decode::commands(&stream) {
                put_command(&mut batch, &mut random, command);
            }
        }
        Plan::UnknownTags => put_unknown_tags(&mut batch, &mut random),
        Plan::Cuts => put_cuts(&mut batch, &mut random),
    }
    if random.chance(30) {
        batch.add(joined(&mut random, &[b"quit".to_vec()]));
        batch.add(b"RPW".to_vec());
        batch.add(b"who is there".to_vec());
    }
    batch
}

/// The command as a good line, and around it lines that are changed, reworded or from nowhere.
fn put_command(batch: &mut Batch, random: &mut Random, command: &[u8]) {
    let given = decode::decoded(command);
    let spelled = given.and_then(|(tag, given)| words(random, &batch.desk.kept, tag, &given));
    let words = match spelled {
        Some(words) if command.len() > 10_000 || random.chance(90) => words,
        _ if command.len() > 10_000 => return,
        _ if random.chance(70) => raw(random, command),
        _ => raw(random, &[command, &write::field(0x22, &[]), command].concat()),
    };
    let line = joined(random, &words);
    if line.len() < 2000 {
        put_noise(batch, random, &words, &line);
    }
    batch.add(line);
}

fn put_noise(batch: &mut Batch, random: &mut Random, words: &[Vec<u8>], line: &[u8]) {
    for _ in 0..random.below(4) {
        batch.noise += 1;
        let noise = match random.below(8) {
            0..=3 => changed(random, line),
            4..=6 => reworded(random, &batch.desk, words),
            _ => random_line(random, &batch.desk),
        };
        batch.add(noise);
    }
}

/// Each tag that document 01 has not, whole and cut, with a command after it.
fn put_unknown_tags(batch: &mut Batch, random: &mut Random) {
    for tag in unknown_tags() {
        let length = random.below(9);
        let whole = write::field(tag, &random.bytes(length));
        let cut = &whole[..random.between(1, 2)];
        let several = [&whole, &write::field(0x22, &[])[..], cut].concat();
        for bytes in [&whole[..], &several] {
            let line = raw(random, bytes);
            batch.add(joined(random, &line));
        }
    }
}

/// Each command on its stage, in raw bytes cut anywhere or with a value of another form; then whole.
fn put_cuts(batch: &mut Batch, random: &mut Random) {
    for rule in &RULES {
        let (scene, given) = stage(Random::new(random.block(), 0), rule.tag);
        let command = write::command(rule.tag, &given);
        let before = decode::commands(&scene.stream);
        let mut several = before[before.len() - 2..].concat();
        several.extend(&command[..random.between(1, command.len() - 1)]);
        let lengths = [1, 2, random.between(1, command.len() - 1), command.len()];
        let mut lines: Vec<Vec<u8>> = lengths.iter().map(|&length| command[..length].to_vec()).collect();
        let misfits = misfits(rule.tag, &given);
        lines.extend((0..4).map(|_| random.pick(&misfits)));
        for bytes in lines.iter().chain([&several]) {
            let line = raw(random, bytes);
            batch.add(joined(random, &line));
        }
    }
}

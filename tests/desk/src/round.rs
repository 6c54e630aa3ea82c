//! `round`: commands through words, bytes and back, and the desk beside NOTARY.

use crate::child::Program;
use crate::decode;
use crate::kept::Kept;
use crate::says::LONGEST_LINE;
use crate::spell::{joined, words};
use model::random::Random;
use model::rules::*;
use model::scene::Scene;
use model::write;

const SHOWN: usize = 10;

/// So many bytes NOTARY reads; a run's commands stay below.
const MOST_BYTES: usize = 60_000;

/// Commands that words can say, their bytes, and their lines.
#[derive(Default)]
struct Run {
    commands: Vec<(u8, Arguments)>,
    lines: Vec<Vec<u8>>,
    kept: Kept,
    bytes: Vec<u8>,
    dollars: usize,
    done: usize,
}

struct Round {
    programs: [Program; 3],
    commands: usize,
    dollars: usize,
    done: usize,
    differences: usize,
}

/// Programs are scribe, NOTARY and desk.
pub fn round(programs: [Program; 3], count: usize, seed: u64) -> bool {
    let mut round = Round { programs, commands: 0, dollars: 0, done: 0, differences: 0 };
    let mut number = 0;
    while round.commands < count {
        let run = some_run(Random::new(seed, number));
        round.put(&format!("run {number}"), &run);
        number += 1;
    }
    let Round { commands, dollars, done, differences, .. } = round;
    println!("round: {commands} commands, {done} of them done, {dollars} with $n, {differences} differences");
    differences == 0 && dollars > 0 && done > 0
}

/// Random arguments: any number, any block, data of any bytes; and now and then such as are done.
fn some_arguments(scene: &mut Scene, tag: u8) -> Arguments {
    if scene.random.chance(80) {
        return scene.fitting(tag);
    }
    let random = &mut scene.random;
    let length = if random.chance(3) { random.between(200, 9000) } else { random.below(40) };
    let number = |random: &mut Random| (random.block() as u32) >> random.below(32);
    Arguments {
        issuer: number(random),
        party: number(random),
        interchange: random.block() as u8,
        function: random.pick(b"trs"),
        block: random.block(),
        second: random.block(),
        data: random.bytes(length),
    }
}

/// The arguments that the command's form has; the others are zero or empty, as the decoder leaves them.
fn of_form(rule: &Rule, given: &Arguments) -> Arguments {
    let number = |field: u8, value: u64| if rule.form.contains(&field) { value } else { 0 };
    Arguments {
        issuer: number(ISSUER, given.issuer.into()) as u32,
        party: number(PARTY, given.party.into()) as u32,
        interchange: number(INTERCHANGE, given.interchange.into()) as u8,
        function: number(FUNCTION, given.function.into()) as u8,
        block: number(BLOCK, given.block),
        second: number(SECOND, given.second),
        data: if rule.form.contains(&DATA) { given.data.clone() } else { Vec::new() },
    }
}

/// First keys and users; then any command.
fn some_command(scene: &mut Scene, turn: usize) -> (&'static Rule, Arguments) {
    let tag = match turn {
        0 => EIK,
        1..=4 => IPW,
        5..=8 => RAS,
        _ => RULES[scene.random.below(RULES.len())].tag,
    };
    let rule = rule_of(tag).unwrap_or(&RULES[0]);
    let mut given = some_arguments(scene, tag);
    if turn == 0 {
        (given.interchange, given.block) = (1, scene.some_key());
    }
    (rule, of_form(rule, &given))
}

fn some_run(random: Random) -> Run {
    let mut scene = Scene::new(random, 4);
    let mut random = Random::new(scene.random.block(), 1);
    let mut run = Run::default();
    for turn in 0..300 {
        let (rule, given) = some_command(&mut scene, turn);
        let Some(words) = words(&mut random, &run.kept, rule.tag, &given) else {
            continue;
        };
        let line = joined(&mut random, &words);
        if line.len() > LONGEST_LINE || run.bytes.len() + given.data.len() > MOST_BYTES {
            continue;
        }
        let reply = scene.send(rule.tag, &given);
        run.done += usize::from(reply.number() == 0);
        run.dollars += usize::from(words.iter().any(|word| word[0] == b'$'));
        run.kept.keep(&reply.bytes);
        run.bytes.extend(write::command(rule.tag, &given));
        run.lines.push(line);
        run.commands.push((rule.tag, given));
    }
    run
}

/// All that a command says.
fn all_of(command: &(u8, Arguments)) -> (u8, [u64; 6], &[u8]) {
    let (tag, given) = command;
    let numbers = [
        given.issuer.into(),
        given.party.into(),
        given.interchange.into(),
        given.function.into(),
        given.block,
        given.second,
    ];
    (*tag, numbers, &given.data)
}

impl Round {
    fn put(&mut self, name: &str, run: &Run) {
        self.commands += run.commands.len();
        self.dollars += run.dollars;
        self.done += run.done;
        let mut input = run.lines.join(&b'\n');
        input.push(b'\n');
        let printed = [0, 2].map(|program| self.programs[program].run(&input).map(|output| output.stdout));
        let [Ok(written), Ok(answers)] = printed else {
            return self.differ(name, "a program did not run");
        };
        self.compare_bytes(name, run, &written);
        match self.programs[1].run(&written) {
            Ok(output) if output.stdout == unindented(&answers) => {}
            Ok(_) => self.differ(name, "the desk's lines are not NOTARY's"),
            Err(_) => self.differ(name, "NOTARY did not run"),
        }
    }

    fn compare_bytes(&mut self, name: &str, run: &Run, written: &[u8]) {
        if written != run.bytes {
            self.differ(name, "the scribe's bytes are not the command's");
        }
        let decoded: Vec<_> = decode::commands(written).into_iter().map(decode::decoded).collect();
        if decoded.len() != run.commands.len() {
            self.differ(name, "the scribe's bytes are more commands or fewer");
        }
        for (index, (decoded, command)) in decoded.iter().zip(&run.commands).enumerate() {
            if decoded.as_ref().map(all_of) != Some(all_of(command)) {
                let line = String::from_utf8_lossy(&run.lines[index]).to_string();
                self.differ(name, &format!("decoded, this is another command: {line:?}"));
            }
        }
    }

    fn differ(&mut self, name: &str, fault: &str) {
        self.differences += 1;
        if self.differences <= SHOWN {
            println!("difference in {name}: {fault}");
        }
    }
}

/// The lines that do not start with a space.
fn unindented(answers: &[u8]) -> Vec<u8> {
    let lines = answers.split_inclusive(|&letter| letter == b'\n');
    lines.filter(|line| !line.starts_with(b" ")).flatten().copied().collect()
}

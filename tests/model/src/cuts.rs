//! Streams for the edges of the stream itself: cuts, the first 65536 bytes, misfits, unknown tags.

use crate::faults::misfits;
use crate::random::Random;
use crate::rules::*;
use crate::scene::Scene;
use crate::stage::stage;
use crate::stream::{HEADER, LONGEST_INPUT};
use crate::{pairs, write};

/// The command cut so that only its first bytes are there.
pub fn cut(random: Random, tag: u8, at: usize) -> Vec<u8> {
    let (scene, given) = stage(random, tag);
    [&scene.stream, &write::command(tag, &given)[..at]].concat()
}

/// An unknown tag cut in its header or its value.
pub fn unknown_cut(mut random: Random, tag: u8) -> Vec<u8> {
    let command = write::field(tag, &random.bytes(5));
    let at = random.between(1, command.len() - 1);
    command[..at].to_vec()
}

/// A command of which as many bytes as given stand before the edge of 65536; then others.
pub fn at_edge(random: Random, tag: u8, before_edge: usize) -> Vec<u8> {
    let (mut scene, given) = stage(random, tag);
    let filling = LONGEST_INPUT - before_edge - scene.stream.len() - HEADER;
    let filling = scene.random.bytes(filling);
    scene.stream.extend(write::field(0x7F, &filling));
    scene.stream.extend(write::command(tag, &given));
    match scene.random.below(4) {
        0 => scene.stream.truncate(LONGEST_INPUT),
        1 => {}
        2 => scene.look_around(),
        _ => scene.stream.resize(140_000, 0x22),
    }
    scene.stream
}

/// One command with a value of the given length, and more bytes than are read.
pub fn one_long_command(mut random: Random, tag: u8, length: usize) -> Vec<u8> {
    let given = Arguments { issuer: 5, function: b't', ..Arguments::default() };
    let rest = length - write::arguments(tag, &given).concat().len();
    let value = write::arguments(tag, &Arguments { data: random.bytes(rest), ..given }).concat();
    let value = if value.is_empty() { random.bytes(length) } else { value };
    let more = random.pick(&[0, 1, 3, 100]);
    [write::field(tag, &value), random.bytes(more)].concat()
}

/// Every misfit of the command, where it would be done or where all else refuses it too.
pub fn all_misfits(random: Random, tag: u8, would_be_done: bool) -> Vec<u8> {
    let (mut scene, mut given) = stage(random, tag);
    if !would_be_done {
        scene = Scene::new(scene.random, 3);
        (given.issuer, given.interchange, given.function) = (0xFFFF_FFFF, 0, 0);
    }
    scene.stream.extend(misfits(tag, &given).concat());
    scene.send(tag, &given);
    scene.look_around();
    scene.stream
}

/// Every fourth unknown tag, over the values of all commands and some that none has,
/// and after each a command that shows that nothing was altered.
pub fn unknown_tags(random: Random, quarter: u8) -> Vec<u8> {
    let (mut scene, given) = stage(random, LDK);
    for tag in pairs::unknown_tags().filter(|tag| tag % 4 == quarter) {
        for rule in &RULES {
            scene.stream.extend(write::field(tag, &write::arguments(rule.tag, &given).concat()));
        }
        let length = scene.random.below(20);
        let value = scene.random.bytes(length);
        scene.stream.extend(write::field(tag, &value));
        scene.send(CBCE, &given);
    }
    scene.look_around();
    scene.stream
}

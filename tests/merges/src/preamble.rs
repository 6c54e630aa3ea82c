//! What happens before the lists: the officer enters keys and passwords, and some users come.

use crate::command::*;
use crate::list::Facility;
use crate::random::Random;
use crate::user::{User, HIGHEST};

#[derive(Clone, Copy, PartialEq)]
pub enum Kind {
    Plain,
    /// Sixteen users with an entry each, so that every place may be taken.
    Full,
    /// Key 1 is changed at the end, so that passwords wait.
    Due,
    /// Key 1 is missing, so that nobody can come.
    WithoutKey1,
}

/// Of ten seeds that follow one another every kind has its share.
pub fn kind(seed: u64) -> Kind {
    match seed % 10 {
        0 | 5 => Kind::Full,
        3 | 8 => Kind::Due,
        6 => Kind::WithoutKey1,
        _ => Kind::Plain,
    }
}

/// The officer's and the users' commands, and what is then known of the facility.
pub fn preamble(random: &mut Random, kind: Kind, users: &mut [User]) -> (Vec<Command>, Facility) {
    let facility = facility(random, kind, users);
    let mut commands = Vec::new();
    for &name in facility.keyed.iter().chain(&facility.moved).filter(|&&name| name != 1) {
        commands.push(enter_key(random, name));
    }
    if kind != Kind::WithoutKey1 {
        commands.push(enter_key(random, 1));
        enroll(random, if kind == Kind::Full { 100 } else { 90 }, users, &mut commands);
        if facility.moved.contains(&1) {
            commands.push(enter_key(random, 1));
            commands.push(Command::new(None, RPW, &Arguments::default()));
        }
    }
    let share = if kind == Kind::Due { 80 } else { 30 };
    for user in users.iter_mut().filter(|user| user.admitted) {
        if random.chance(share) {
            come(random, &facility, user, &mut commands);
        }
        user.admitted = kind != Kind::Due;
    }
    if kind == Kind::Due {
        commands.push(enter_key(random, 1));
    }
    (commands, facility)
}

/// Name 1 unless it is to be missing, and some others; at least one has an old key too.
fn facility(random: &mut Random, kind: Kind, users: &[User]) -> Facility {
    let others: Vec<u8> = (2..=15).filter(|_| random.chance(20)).chain([15]).collect();
    let mut moved: Vec<u8> = others.iter().copied().filter(|_| random.chance(50)).chain([15]).collect();
    let mut keyed = others;
    if kind != Kind::WithoutKey1 {
        keyed.push(1);
        moved.extend([1].iter().filter(|_| random.chance(50)));
    }
    let keyless = (0..=16).chain([255]).filter(|name| !keyed.contains(name)).collect();
    let identifiers = users.iter().map(|user| user.identifier).collect();
    Facility { keyed, moved, keyless, identifiers }
}

/// EIK of any bits, with the parity that it asks for.
fn enter_key(random: &mut Random, interchange: u8) -> Command {
    let odd = |byte: u8| byte & 0xFE | (byte >> 1).count_ones() as u8 & 1 ^ 1;
    let block = u64::from_be_bytes(random.block().to_be_bytes().map(odd));
    Command::new(None, EIK, &Arguments { interchange, block, ..Arguments::default() })
}

/// That share of the users get an entry, in any order, and so do some identifiers that have no list.
fn enroll(random: &mut Random, share: usize, users: &mut [User], commands: &mut Vec<Command>) {
    let mut entries = Vec::new();
    for user in users.iter_mut().filter(|user| user.identifier <= HIGHEST) {
        user.admitted = random.chance(share);
        if user.admitted {
            entries.push((user.identifier, user.password()));
        }
    }
    entries.extend((0..random.below(6)).map(|_| (random.block() as u32 & HIGHEST, random.block())));
    while !entries.is_empty() {
        let (issuer, block) = entries.swap_remove(random.below(entries.len()));
        commands.push(Command::new(None, IPW, &Arguments { issuer, block, ..Arguments::default() }));
    }
}

/// The user takes a place, and most load a key and a vector for both sides.
fn come(random: &mut Random, facility: &Facility, user: &mut User, commands: &mut Vec<Command>) {
    let given = Arguments {
        issuer: user.identifier,
        party: user.identifier,
        interchange: random.pick(&facility.keyed),
        function: b's',
        block: user.password(),
        ..Arguments::default()
    };
    let loads = random.below(4);
    for tag in [RAS, LDK, LIV].into_iter().take(1 + loads) {
        let block = if tag == RAS { given.block } else { random.block() };
        let given = Arguments { block, ..given.clone() };
        user.after(tag, &given);
        commands.push(Command::new(None, tag, &given));
    }
}

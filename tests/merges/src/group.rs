//! One group: what comes before, several users' lists, and what closes every run.

use crate::closing::closing;
use crate::command::{Arguments, Command, EIK, IPW, RAS};
use crate::list::list;
use crate::preamble::{kind, preamble, Kind};
use crate::random::Random;
use crate::user::{User, HIGHEST};

/// NOTARY reads so many bytes.
pub const LONGEST_STREAM: usize = 65536;

/// The lists together have at most so many, which leaves room for the rest.
const ROOM: usize = 40_000;

pub struct Group {
    pub seed: u64,
    pub identifiers: Vec<u32>,
    pub preamble: Vec<Command>,
    pub lists: Vec<Vec<Command>>,
    pub closing: Vec<Command>,
}

/// The group of the seed: 2 to 16 users; some of those who are there already ask for nothing.
pub fn group(seed: u64) -> Group {
    let mut random = Random::new(seed);
    let kind = kind(seed);
    let count = match kind {
        Kind::Full => 16,
        Kind::Due => random.between(8, 16),
        _ => random.between(2, 16),
    };
    let one_above = kind == Kind::WithoutKey1 || kind != Kind::Full && random.chance(40);
    let identifiers = identifiers(&mut random, count, one_above);
    let mut users: Vec<User> = identifiers.iter().map(|&known| User::new(known, random.block())).collect();
    let (preamble, facility) = preamble(&mut random, kind, &mut users);
    let mut lists = Vec::new();
    for (owner, user) in users.iter_mut().enumerate() {
        let most = longest(&mut random, user);
        lists.push(list(&mut random, &facility, user, owner, most, ROOM / count));
    }
    let closing = closing(&mut random, &users);
    Group { seed, identifiers, preamble, lists, closing }
}

/// How many commands the user's list has at most.
fn longest(random: &mut Random, user: &User) -> usize {
    let can_act = user.admitted || user.active;
    match random.below(12) {
        _ if user.identifier > HIGHEST => 40,
        _ if !can_act => random.between(10, 24),
        0 if user.active => 0,
        _ => random.between(10, 80),
    }
}

/// Distinct identifiers: some at edges, some one bit apart; the last may be above the highest.
fn identifiers(random: &mut Random, count: usize, one_above: bool) -> Vec<u32> {
    let edges = [0, 1, 127, 128, 16384, 2097152, 268435454, HIGHEST];
    let mut chosen: Vec<u32> = Vec::new();
    while chosen.len() < count {
        let identifier = match random.below(4) {
            _ if one_above && chosen.len() + 1 == count => above(random, &chosen),
            0 => random.pick(&edges),
            1 if !chosen.is_empty() => random.pick(&chosen) ^ 1 << random.below(28),
            _ => random.block() as u32 & HIGHEST,
        };
        if !chosen.contains(&identifier) {
            chosen.push(identifier);
        }
    }
    chosen
}

/// The mark of a free entry, the first that is too high, or another's with a bit more.
fn above(random: &mut Random, chosen: &[u32]) -> u32 {
    let alike = random.pick(chosen) | 1 << random.between(28, 31);
    random.pick(&[u32::MAX, HIGHEST + 1, alike])
}

/// So many users, each with an entry and with RAS as his whole list.
pub fn all_come(count: u32) -> Group {
    let key = Arguments { interchange: 1, block: 0x0101_0101_0101_0101, ..Arguments::default() };
    let user = |issuer: u32| Arguments { issuer, block: u64::from(issuer), ..Arguments::default() };
    let mut preamble = vec![Command::new(None, EIK, &key)];
    preamble.extend((0..count).map(|n| Command::new(None, IPW, &user(n))));
    let list = |n: u32| vec![Command::new(Some(n as usize), RAS, &user(n))];
    let lists = (0..count).map(list).collect();
    Group { seed: 0, identifiers: (0..count).collect(), preamble, lists, closing: Vec::new() }
}

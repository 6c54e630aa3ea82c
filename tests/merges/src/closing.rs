//! What follows every merge, always in the same order, and shows what the merge has left.

use crate::command::*;
use crate::random::Random;
use crate::user::User;

/// NOTARY's table has so many entries.
const ENTRIES: u32 = 64;

pub fn closing(random: &mut Random, users: &[User]) -> Vec<Command> {
    let mut commands = Vec::new();
    for (owner, user) in users.iter().enumerate() {
        holdings(random, owner, user, &mut commands);
    }
    // Where passwords wait, only the officer can make them count again.
    commands.push(Command::new(None, RPW, &Arguments::default()));
    for (owner, user) in users.iter().enumerate() {
        passwords(owner, user, &mut commands);
    }
    commands.extend((0..=ENTRIES).map(fill));
    commands
}

/// Everything that keys and vectors of both sides can show.
fn holdings(random: &mut Random, owner: usize, user: &User, commands: &mut Vec<Command>) {
    let (data, issuer) = (random.bytes(8), user.identifier);
    for function in *b"tr" {
        let given = Arguments { issuer, function, data: data.clone(), ..Arguments::default() };
        commands.push(Command::new(Some(owner), DAUT, &given));
    }
    for tag in ECBE..=CFBD {
        let given = Arguments { issuer, data: data.clone(), ..Arguments::default() };
        commands.push(Command::new(Some(owner), tag, &given));
    }
    commands.push(Command::new(Some(owner), LAU, &Arguments { issuer, ..Arguments::default() }));
}

/// The user tries every password that he has had; each time he leaves again.
fn passwords(owner: usize, user: &User, commands: &mut Vec<Command>) {
    for &block in &user.passwords {
        let given = Arguments { issuer: user.identifier, block, ..Arguments::default() };
        commands.push(Command::new(Some(owner), RAS, &given));
        commands.push(Command::new(Some(owner), LAU, &given));
    }
}

/// The officer enters others until no entry is free, which shows how many were.
fn fill(number: u32) -> Command {
    let given = Arguments { issuer: 0x0ABC_DE00 + number, ..Arguments::default() };
    Command::new(None, IPW, &given)
}

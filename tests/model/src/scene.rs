//! A stream in the making, with the model running alongside, and what its users know.

use crate::des::Block;
use crate::facility::HIGHEST_IDENTIFIER;
use crate::notarize::with_parity_set;
use crate::notary::{Notary, Reply};
use crate::random::Random;
use crate::rules::*;
use crate::{stream, write};

#[derive(Clone)]
pub struct User {
    pub identifier: u32,
    pub password: Block,
}

/// A data key as GDK or RDK gave it out.
#[derive(Clone)]
pub struct Sealed {
    pub issuer: u32,
    pub party: u32,
    pub interchange: u8,
    pub block: Block,
}

pub struct Scene {
    pub random: Random,
    pub notary: Notary,
    pub stream: Vec<u8>,
    pub users: Vec<User>,
    pub interchanges: Vec<u8>,
    pub sealed: Vec<Sealed>,
    pub vectors: Vec<Block>,
    pub texts: Vec<Vec<u8>>,
}

impl Scene {
    /// A fresh facility and as many users as asked for, none of them enrolled.
    pub fn new(mut random: Random, users: usize) -> Scene {
        let identifiers = identifiers(&mut random, users);
        let users = identifiers.into_iter().map(|identifier| User { identifier, password: random.block() });
        let users = users.collect();
        let interchanges = vec![1, random.pick(&[2, 14, 15]), random.between(2, 15) as u8];
        let (stream, sealed, vectors, texts) = Default::default();
        Scene { random, notary: Notary::fresh(), stream, users, interchanges, sealed, vectors, texts }
    }

    /// Writes the command, and learns from the model's reply what a user would.
    pub fn send(&mut self, tag: u8, given: &Arguments) -> Reply {
        let command = write::command(tag, given);
        self.stream.extend(&command);
        let (_, reply) = stream::replies(&mut self.notary, &command).remove(0);
        if reply.number() == 0 {
            self.learn(tag, given, &reply.bytes);
        }
        reply
    }

    fn learn(&mut self, tag: u8, given: &Arguments, bytes: &[u8]) {
        let block = || bytes.iter().fold(0, |block, &byte| block << 8 | Block::from(byte));
        let Arguments { issuer, party, interchange, .. } = *given;
        match tag {
            IPW => self.set_password(issuer, given.block),
            CPW => self.set_password(issuer, given.second),
            RDK if given.function == b'r' => {
                self.sealed.push(Sealed { issuer: party, party: issuer, interchange, block: block() });
            }
            GDK | RDK => self.sealed.push(Sealed { issuer, party, interchange, block: block() }),
            GIV | EIV => self.vectors.push(block()),
            ECBE..=CFBD if bytes.len() < 200 => self.texts.push(bytes.to_vec()),
            _ => {}
        }
    }

    fn set_password(&mut self, identifier: u32, password: Block) {
        match self.users.iter_mut().find(|user| user.identifier == identifier) {
            Some(user) => user.password = password,
            None => self.users.push(User { identifier, password }),
        }
    }

    pub fn password(&self, identifier: u32) -> Block {
        let user = self.users.iter().find(|user| user.identifier == identifier);
        user.map_or(0, |user| user.password)
    }

    pub fn is_active(&self, identifier: u32) -> bool {
        self.notary.facility.place_of(identifier).is_some()
    }

    pub fn some_user(&mut self) -> u32 {
        self.random.pick(&self.users).identifier
    }

    /// A user that is active or not, as asked; any user where there is none such.
    pub fn some_user_that_is(&mut self, active: bool) -> u32 {
        let identifiers = self.users.iter().map(|user| user.identifier);
        let such: Vec<u32> = identifiers.filter(|&user| self.is_active(user) == active).collect();
        if such.is_empty() {
            self.some_user()
        } else {
            self.random.pick(&such)
        }
    }

    pub fn some_key(&mut self) -> Block {
        let weak = [0, 0xFEFE_FEFE_FEFE_FEFE, 0x1F1F_1F1F_0E0E_0E0E, 0xE001_E001_F101_F101];
        let bits = if self.random.chance(5) { self.random.pick(&weak) } else { self.random.block() };
        with_parity_set(bits)
    }

    /// Mostly another key; now and then the one that is current already.
    fn same_or_other_key(&mut self, interchange: u8) -> Block {
        let other = self.some_key();
        let same = self.notary.facility.current_key(interchange).unwrap_or(other);
        if self.random.chance(15) {
            same
        } else {
            other
        }
    }

    /// Whole blocks, new or enciphered before.
    pub fn some_text(&mut self) -> Vec<u8> {
        if !self.texts.is_empty() && self.random.chance(40) {
            return self.random.pick(&self.texts);
        }
        let length = 8 * self.random.between(1, 5);
        self.random.bytes(length)
    }

    /// Arguments with which the command stands a good chance of being done.
    pub fn fitting(&mut self, tag: u8) -> Arguments {
        let mut given = Arguments {
            issuer: self.some_user_that_is(true),
            party: self.some_user(),
            interchange: self.random.pick(&self.interchanges),
            function: self.random.pick(b"trs"),
            block: self.random.block(),
            second: self.random.block(),
            data: if matches!(tag, ECBE..=DAUT) { self.some_text() } else { Vec::new() },
        };
        match tag {
            RAS => given.issuer = self.some_user_that_is(false),
            IPW => given.issuer = self.some_user(),
            EIK => given.block = self.same_or_other_key(given.interchange),
            LIV if !self.vectors.is_empty() => given.block = self.random.pick(&self.vectors),
            LDK | RDK if !self.sealed.is_empty() => {
                let sealed = self.random.pick(&self.sealed);
                self.address(&mut given, &sealed);
            }
            LDK | RDK if given.party == given.issuer => given.function = b's',
            LDK | RDK => given.function = self.random.pick(b"tr"),
            DAUT => given.data.truncate(given.data.len() - self.random.below(8)),
            _ => {}
        }
        if matches!(tag, RAS | CPW) {
            given.block = self.password(given.issuer);
        }
        given
    }

    /// Names a sealed key as its issuer or its party would, whichever is active.
    pub fn address(&mut self, given: &mut Arguments, sealed: &Sealed) {
        (given.interchange, given.block) = (sealed.interchange, sealed.block);
        let by_party = !self.is_active(sealed.issuer) || self.random.chance(40);
        (given.issuer, given.party, given.function) = match (sealed.issuer, sealed.party) {
            (issuer, party) if issuer == party => (issuer, issuer, b's'),
            (issuer, party) if by_party => (party, issuer, b'r'),
            (issuer, party) => (issuer, party, b't'),
        };
    }
}

/// Distinct identifiers: some at the edges of their groups of seven bits, some one bit apart,
/// some anywhere.
pub fn identifiers(random: &mut Random, count: usize) -> Vec<u32> {
    let edges = [0, 1, 2, 5, 127, 128, 16383, 16384, 2097151, 2097152, 268435454, 268435455];
    let mut chosen: Vec<u32> = Vec::new();
    while chosen.len() < count {
        let identifier = match random.below(5) {
            0 => random.pick(&edges),
            1 => 1 << random.below(28),
            2 if !chosen.is_empty() => random.pick(&chosen) ^ 1 << random.below(28),
            _ => random.block() as u32 & HIGHEST_IDENTIFIER,
        };
        if !chosen.contains(&identifier) {
            chosen.push(identifier);
        }
    }
    chosen
}
